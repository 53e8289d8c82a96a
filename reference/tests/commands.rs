//! Host writes and the five commands.

mod common;
use common::*;
use reference::calls::{open, write};
use reference::command::{decide, Command};
use reference::gauge::{Gauge, CHGS, CI, EDV1, EDVF, VDQ};

/// A gauge in which every field differs from the opened one.
fn used(mode: u8, ar: i32) -> Saved {
    with(|gauge| {
        *gauge = Gauge {
            h: 500 * G + 77,
            dcr: 33,
            lmd: 900,
            si_sixteenths: 7,
            c: 40,
            volt: 3900,
            temp: 1100,
            ar,
            mode,
            flags: CHGS | VDQ | EDV1 | EDVF,
            rest_count: 421,
            cyct: 16,
            cycle_drain: 899 * G,
            ..*gauge
        }
    })
}

/// The gauge after a key at CTRL that is accepted.
fn keyed(mode: u8, ar: i32, key: u8) -> Gauge {
    let mut bytes = used(mode, ar);
    assert_eq!(write(&mut bytes, 0x00, key), 0);
    gauge(&bytes)
}

#[test]
fn the_highest_command_bit_is_obeyed() {
    for mode in 0..=255u8 {
        let expected = match mode {
            _ if mode & 0x20 != 0 => Ok(Command::Wrtnac),
            _ if mode & 0x10 != 0 => Ok(Command::Done),
            _ if mode & 0x08 != 0 => Ok(Command::Prst),
            _ if mode & 0x02 != 0 => Ok(Command::Frst),
            _ if mode & 0x01 != 0 => Err(10),
            _ => Err(9),
        };
        assert_eq!(decide(0xA9, mode, 1), expected);
        let other = if expected == Err(10) { Ok(Command::Wrtlmd) } else { expected.and(Err(10)) };
        assert_eq!(decide(0x56, mode, 1), other);
    }
}

#[test]
fn mode_and_ar_are_stored_as_given() {
    let mut bytes = used(0, 0x1234);
    assert_eq!(write(&mut bytes, 0x01, 0xFF), 0);
    assert_eq!(write(&mut bytes, 0x02, 0xCD), 0);
    assert_eq!((gauge(&bytes).mode, gauge(&bytes).ar), (0xFF, 0x12CD));
    assert_eq!(write(&mut bytes, 0x03, 0xAB), 0);
    assert_eq!(gauge(&bytes).ar, 0xABCD);
}

#[test]
fn wrtnac_takes_the_smaller_of_ar_and_lmd() {
    let before = gauge(&used(0x84, 0));
    for (ar, counts) in [(0, 0), (899, 899), (900, 900), (901, 900), (65_535, 900)] {
        let expected = Gauge { ar, h: counts * G, dcr: 0, flags: CHGS | EDV1 | EDVF, ..before };
        assert_eq!(keyed(0xBF, ar, 0xA9), expected);
    }
}

#[test]
fn wrtlmd_cuts_the_charge_to_the_new_capacity() {
    let before = gauge(&used(0x84, 0));
    for (ar, h) in [(500, 500 * G), (501, 500 * G + 77), (65_535, 500 * G + 77), (1, G)] {
        let expected = Gauge { ar, lmd: ar, h, dcr: 0, flags: CHGS | EDV1 | EDVF, ..before };
        assert_eq!(keyed(0x85, ar, 0x56), expected);
    }
}

#[test]
fn done_is_full_without_the_end_flags() {
    let expected = Gauge { h: 900 * G, dcr: 0, flags: CHGS | VDQ, ..gauge(&used(0xC0, 5)) };
    assert_eq!(keyed(0xDF, 5, 0xA9), expected);
}

#[test]
fn frst_is_as_opened() {
    assert_eq!(keyed(0x03, 5, 0xA9), gauge(&opened()));
}

#[test]
fn prst_keeps_charge_capacity_ci_and_cycles() {
    let fresh = gauge(&opened());
    let expected = Gauge { h: 500 * G + 77, lmd: 900, flags: 0, cyct: 16, cycle_drain: 899 * G, ..fresh };
    assert_eq!(keyed(0x0F, 5, 0xA9), expected);
    let mut inaccurate = with(|gauge| {
        gauge.flags = CI | EDV1;
        gauge.mode = 0x08;
    });
    assert_eq!(write(&mut inaccurate, 0x00, 0xA9), 0);
    assert_eq!(gauge(&inaccurate), fresh);
}

#[test]
fn opening_takes_bit_7_of_pkcfg() {
    let mut pack = reference::bench::BENCH_PACK;
    for (pkcfg, mode) in [(0x80, 0xC4), (0x7F, 0x44), (0xFF, 0xC4)] {
        pack[6] = pkcfg;
        let mut bytes = [0; 55];
        assert_eq!(open(&pack, &mut bytes), 0);
        assert_eq!(gauge(&bytes).mode, mode);
    }
}
