//! Bytes of every form: what loading makes of them, and converting (paper 02, A1, A4, A5 and A6).

mod common;
use common::*;
use reference::calls::{convert, estimate, preview, read, rest, window, write};
use reference::gauge::{EDV1, VDQ};
use reference::trace::Trace;
use reference::{forms, registers, saved};

/// The used gauge without cycles: what form 3 can hold.
fn without_cycles() -> Saved {
    let mut bytes = used();
    bytes[45..].fill(0);
    bytes
}

/// The same without rest windows too: what forms 1 and 2 can hold.
fn unrested() -> Saved {
    let mut bytes = used();
    bytes[41..].fill(0);
    bytes
}

/// The same with a count that four bytes alone can hold.
fn long_rested() -> Saved {
    let mut bytes = used();
    bytes[41..45].copy_from_slice(&0x89AB_CDEFu32.to_le_bytes());
    bytes
}

#[test]
fn the_newest_form_is_converted_to_itself() {
    let others = [opened(), line_three(), with_si(&opened(), 320), with_si(&opened(), 153)];
    for bytes in [used(), without_cycles(), unrested(), long_rested()].into_iter().chain(others) {
        assert_eq!(converted(&bytes), Ok(bytes));
    }
}

#[test]
fn form_4_has_a_narrower_count_and_lacks_nothing() {
    let (old, new) = (as_form_4(&used()), used());
    assert_eq!(converted(&old), Ok(new));
    assert_eq!((old[0], new[0], &new[43..45]), (4, 5, &[0; 2][..]));
    assert_eq!((&old[1..43], &old[43..]), (&new[1..43], &new[45..]));
}

#[test]
fn form_3_lacks_the_cycles_alone() {
    let (old, new) = (as_form_3(&used()), without_cycles());
    assert_eq!(converted(&old), Ok(new));
    assert_eq!((old[0], new[0], &new[43..]), (3, 5, &[0; 12][..]));
    assert_eq!(old[1..], new[1..43]);
}

#[test]
fn form_2_lacks_the_count_too() {
    let (old, new) = (as_form_2(&used()), unrested());
    assert_eq!(converted(&old), Ok(new));
    assert_eq!((old[0], new[0], &new[41..]), (2, 5, &[0; 14][..]));
    assert_eq!(old[1..], new[1..41]);
}

#[test]
fn form_1_differs_in_si_too() {
    let (old, new) = (as_form_1(&used()), unrested());
    assert_eq!(converted(&old), Ok(new));
    assert_eq!((old[0], old[29], old[30], new[0], new[29], new[30]), (1, 7, 0, 5, 112, 0));
    assert_eq!((&old[1..29], &old[31..], &new[41..]), (&new[1..29], &new[31..41], &[0; 14][..]));
}

#[test]
fn forms_1_to_3_read_the_cycles_as_0() {
    for old in &as_older_forms(&used())[..3] {
        assert_eq!(forms::load(old).map(|gauge| (gauge.cyct, gauge.cycle_drain)), Ok((0, 0)));
        // LMD is 900: the discharge since the update is what counts.
        let discharged = (0..22).fold(converted(old).unwrap(), |bytes, _| after(bytes, -28_011, 3600, 1192));
        assert_eq!(pair(&discharged, 0x2A), 0);
        assert_eq!(pair(&after(discharged, -28_011, 3600, 1192), 0x2A), 1);
    }
    for kept in [as_form_4(&used()).to_vec(), used().to_vec()] {
        assert_eq!(forms::load(&kept).map(|gauge| (gauge.cyct, gauge.cycle_drain)), Ok((0x5678, 899 * G + 5)));
    }
}

#[test]
fn forms_1_and_2_read_the_count_as_0() {
    for kept in [as_form_3(&used()).to_vec(), as_form_4(&used()).to_vec(), used().to_vec()] {
        assert_eq!(forms::load(&kept).map(|gauge| gauge.rest_count), Ok(0x1234));
    }
    for old in [as_form_1(&used()), as_form_2(&used())] {
        assert_eq!(forms::load(&old).map(|gauge| gauge.rest_count), Ok(0));
        let bytes = converted(&old).unwrap();
        assert_eq!(estimate(&bytes, 3700, &mut 0, &mut 0), 15);
        assert_eq!(estimate(&after_rest(bytes, 421, 1192), 3700, &mut 0, &mut 0), 15);
        assert_eq!(estimate(&after_rest(bytes, 422, 1192), 3700, &mut 0, &mut 0), 0);
    }
}

#[test]
fn converting_keeps_charge_capacity_run_host_and_registers() {
    let bytes = converted(&as_form_1(&used())).unwrap();
    let held = gauge(&bytes);
    assert_eq!((held.h, held.lmd, held.dcr, held.vdq()), (500 * G + 77, 900, 33, true));
    assert_eq!((held.ar, held.mode, held.flags), (0xBEEF, 0x5A, VDQ | EDV1));
    // Whatever SI form 1 stored, the other registers are the same, and SI shows what was stored.
    let shown = registers::all(&held);
    for si in 0..=20 {
        let other = registers::all(&gauge(&converted(&old_with_si(1, &used(), si)).unwrap()));
        assert_eq!((&other[..0x1A], &other[0x1E..]), (&shown[..0x1A], &shown[0x1E..]));
        assert_eq!(u16::from_le_bytes([other[0x1A], other[0x1B]]), si);
    }
    assert_eq!(registers::all(&gauge(&converted(&as_form_2(&used())).unwrap())), shown);
}

#[test]
fn form_1_holds_at_most_2_s0() {
    for si in 0..=u16::MAX {
        let loaded = forms::load(&old_with_si(1, &opened(), si)).map(|gauge| gauge.si_sixteenths);
        assert_eq!(loaded, if si <= 20 { Ok(16 * i32::from(si)) } else { Err(14) });
    }
}

#[test]
fn forms_2_to_5_hold_at_most_32_s0() {
    for si in 0..=u16::MAX {
        let expected = if si <= 320 { Ok(i32::from(si)) } else { Err(14) };
        assert_eq!(forms::load(&old_with_si(2, &opened(), si)).map(|gauge| gauge.si_sixteenths), expected);
        let newest = with_si(&opened(), si);
        assert_eq!(forms::load(&as_form_3(&newest)).map(|gauge| gauge.si_sixteenths), expected);
        assert_eq!(forms::load(&as_form_4(&newest)).map(|gauge| gauge.si_sixteenths), expected);
        assert_eq!(forms::load(&newest).map(|gauge| gauge.si_sixteenths), expected);
    }
}

#[test]
fn form_1_does_not_wrap() {
    // With ISLC 255, 2 × S0 is 1,020. A product of two bytes would turn 4,096 into 0 and 4,096 + 1,020 into 32 × S0.
    let mut widest = opened();
    widest[4] = 255;
    for (si, number) in
        [(1_020, None), (1_021, Some(14)), (4_095, Some(14)), (4_096, Some(14)), (5_116, Some(14)), (61_440, Some(14))]
    {
        assert_eq!(converted(&old_with_si(1, &widest, si)).err(), number, "SI {si}");
    }
    assert_eq!(gauge(&converted(&old_with_si(1, &widest, 1_020)).unwrap()).si_sixteenths, 32 * 510);
}

#[test]
fn what_all_forms_have_is_asked_of_each() {
    let broken: [fn(&mut [u8]); 6] = [
        |bytes| bytes[1] = 0,      // ILMD
        |bytes| bytes[17] = 0x01,  // h above LMD
        |bytes| bytes[18] = 0x80,  // h of 2^63 and more
        |bytes| bytes[40] |= 0x20, // a flag without a name
        |bytes| bytes[40] &= !VDQ, // DCR without VDQ
        |bytes| bytes[34] = 0x20,  // VOLT
    ];
    for spoil in broken {
        for mut bytes in as_older_forms(&used()).into_iter().chain([used().to_vec()]) {
            assert!(forms::load(&bytes).is_ok());
            spoil(&mut bytes);
            assert_eq!(forms::load(&bytes), Err(14));
        }
    }
}

#[test]
fn forms_4_and_5_are_held_to_a_cycle_drain_below_65535_counts() {
    for (drain, number) in
        [(65_535 * 135_000_000 - 1, None), (65_535 * 135_000_000, Some(14)), (u64::MAX, Some(14)), (1 << 63, Some(14))]
    {
        let mut bytes = used();
        bytes[47..].copy_from_slice(&drain.to_le_bytes());
        assert_eq!(converted(&bytes).err(), number);
        assert_eq!(converted(&as_form_4(&bytes)).err(), number);
        assert!(as_older_forms(&bytes)[..3].iter().all(|old| converted(old).is_ok()));
    }
}

#[test]
fn each_number_has_its_length() {
    let long = [opened().as_slice(), &[0; 9]].concat();
    for form in 0..=255 {
        for length in 1..=64 {
            let mut bytes = long[..length].to_vec();
            bytes[0] = form;
            // SI of the opened pack is 160 sixteenths, which is more than form 1 holds.
            if length > 29 {
                bytes[29] = 10;
            }
            let is_form = matches!((form, length), (1 | 2, 41) | (3, 43) | (4, 53) | (5, 55));
            assert_eq!(forms::load(&bytes).is_ok(), is_form, "form {form} of {length} bytes");
        }
    }
    assert_eq!(forms::load(&[]), Err(14));
}

#[test]
fn the_calls_take_the_newest_form_alone() {
    for old in as_older_forms(&used()) {
        assert!(forms::load(&old).is_ok());
        assert_eq!(saved::load(&old), Err(14));
        let mut bytes = old.clone();
        assert_eq!(window(&mut bytes, 0, 3700, 1192), 14);
        assert_eq!(rest(&mut bytes, 1, 1192), 14);
        assert_eq!(write(&mut bytes, 0x01, 0), 14);
        let mut reply = [0xEE; 2];
        assert_eq!(read(&bytes, 0x0C, 2, &mut reply, 0), 14);
        assert_eq!((&bytes, reply), (&old, [0xEE; 2]));
        let (mut registers, mut command) = ([0xEE; 128], 0x99);
        assert_eq!(preview(&bytes, 0xA9, &mut registers, &mut command), 14);
        assert_eq!((registers, command), ([0xEE; 128], 0x99));
        let (mut counts, mut distance) = (0xEEEE, -7);
        assert_eq!(estimate(&bytes, 3700, &mut counts, &mut distance), 14);
        assert_eq!((counts, distance), (0xEEEE, -7));
    }
}

#[test]
fn converting_refuses_14_before_13_and_changes_no_byte() {
    let damaged = old_with_si(1, &opened(), 21);
    for length in [0, 1, 40, 41, 42, 43, 44, 52, 53, 54, 56, 64] {
        let whole = as_older_forms(&opened()).into_iter().chain([opened().to_vec()]).collect::<Vec<_>>();
        for (old, number) in whole.iter().map(|old| (&old[..], 13)).chain([(&damaged[..], 14)]) {
            let mut bytes = vec![0xEE; length];
            assert_eq!(convert(old, &mut bytes), number);
            assert!(bytes.iter().all(|&byte| byte == 0xEE));
        }
    }
    assert_eq!(converted(&damaged), Err(14));
    assert_eq!(converted(&[]), Err(14));
}

#[test]
fn a_handset_updated_mid_drive_goes_on() {
    // What was discharged before the update is in no form before form 4.
    let mut uncounted = line_three();
    uncounted[45..].fill(0);
    for old in as_older_forms(&line_three()) {
        let mut kept = Trace::load(&if old[0] < 4 { uncounted } else { line_three() }).unwrap();
        let mut updated = Trace::load(&old).unwrap();
        assert_eq!(converted(&old), Ok(*updated.saved()));
        for (current, voltage) in [(-12, 3600), (-20, 3500), (-300, 3001), (-21, 3000)] {
            for trace in [&mut kept, &mut updated] {
                trace.window(current, voltage, 1192).unwrap();
            }
            assert_eq!((kept.saved(), kept.history()), (updated.saved(), updated.history()));
        }
        // The run that was under way at the update has taught.
        assert_eq!(updated.history().l, 896);
    }
}
