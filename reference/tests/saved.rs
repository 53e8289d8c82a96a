//! The newest form of the saved bytes: its layout, and every condition of acceptance at its edge and one beyond.

mod common;
use common::*;
use reference::gauge::{Gauge, CHGS, CI, EDV1, EDVF, VDQ};
use reference::saved::{load, store};

fn accepted(change: impl Fn(&mut Gauge)) -> bool {
    load(&with(change)).is_ok()
}

#[test]
fn every_field_stands_in_its_place() {
    let bytes = with(|gauge| {
        *gauge = Gauge {
            h: 0x12_3456_789A,
            dcr: 0x3_2109_8765,
            lmd: 0xFEDC,
            si_sixteenths: 0x0123,
            c: -0x1234,
            volt: 0x0ABC,
            temp: 0x04D2,
            ar: 0xBEEF,
            mode: 0x5A,
            flags: VDQ,
            rest_count: 0xC3D2_A987,
            cyct: 0xFEDB,
            cycle_drain: 0x7_6543_210F,
            ..*gauge
        }
    });
    #[rustfmt::skip]
    let expected = [
        5, 0x04, 0x5E, 0x77, 0x05, 0x21, 0x10, 0x00, 0x00, 0x6C, 0x15,
        0x9A, 0x78, 0x56, 0x34, 0x12, 0, 0, 0, 0x65, 0x87, 0x09, 0x21, 0x03, 0, 0, 0,
        0xDC, 0xFE, 0x23, 0x01, 0xCC, 0xED, 0xBC, 0x0A, 0xD2, 0x04, 0xEF, 0xBE, 0x5A, 0x04, 0x87, 0xA9, 0xD2, 0xC3,
        0xDB, 0xFE, 0x0F, 0x21, 0x43, 0x65, 0x07, 0, 0, 0,
    ];
    assert_eq!(bytes, expected);
    let mut again = [0xEE; 55];
    store(&gauge(&bytes), &mut again);
    assert_eq!(again, bytes);
}

#[test]
fn length_form_and_ilmd() {
    let bytes = opened();
    assert!((0..=64).all(|length| load(&[bytes.as_slice(), &[0; 13]].concat()[..length]).is_ok() == (length == 55)));
    for form in [0, 1, 2, 3, 4, 6, 255] {
        let mut other = bytes;
        other[0] = form;
        assert_eq!(load(&other), Err(14));
    }
    assert!(!accepted(|gauge| gauge.configuration.bytes[0] = 0));
}

#[test]
fn charge_and_drain() {
    assert!(!accepted(|gauge| gauge.lmd = 0));
    assert!(accepted(|gauge| gauge.h = 1024 * G));
    assert!(!accepted(|gauge| gauge.h = 1024 * G + 1));
    assert!(!accepted(|gauge| gauge.h = -1));
    assert!(!accepted(|gauge| gauge.h = i64::MIN));
    for (dcr, flags, ok) in
        [(GREATEST_DRAIN, VDQ, true), (GREATEST_DRAIN + 1, VDQ, false), (-1, VDQ, false), (0, 0, true), (1, 0, false)]
    {
        let tried = accepted(|gauge| {
            gauge.dcr = dcr;
            gauge.flags = flags;
        });
        assert_eq!(tried, ok);
    }
}

#[test]
fn measures() {
    /// Sets a field, with values that are accepted and values that are not.
    type Edge = (fn(&mut Gauge, i32), &'static [i32], &'static [i32]);
    let edges: [Edge; 3] = [
        (|gauge, value| gauge.si_sixteenths = value, &[0, 320], &[321, 65_535]),
        (|gauge, value| gauge.volt = value, &[0, 2600, 4500], &[1, 2599, 4501, 65_535]),
        (|gauge, value| gauge.temp = value, &[0, 1012, 1372], &[1, 1011, 1373, 65_535]),
    ];
    for (set, good, bad) in edges {
        assert!(good.iter().all(|&value| accepted(|gauge| set(gauge, value))));
        assert!(bad.iter().all(|&value| !accepted(|gauge| set(gauge, value))));
    }
}

#[test]
fn current_and_its_flag() {
    for (c, ok) in [
        (0, true),
        (2, false),
        (-2, false),
        (3, true),
        (-3, true),
        (28_011, true),
        (28_012, false),
        (-28_011, true),
        (-28_012, false),
    ] {
        let right = if c > 0 { CI | CHGS } else { CI };
        for (flags, ok) in [(right, ok), (right ^ CHGS, false)] {
            let tried = accepted(|gauge| {
                gauge.c = c;
                gauge.flags = flags;
            });
            assert_eq!(tried, ok, "c {c} flags {flags}");
        }
    }
}

#[test]
fn flag_bits_without_a_name_are_0() {
    for flags in 0..=0x7F {
        let known = flags & !(CI | VDQ | EDV1 | EDVF) == 0;
        assert_eq!(accepted(|gauge| gauge.flags = flags), known);
    }
}

#[test]
fn every_count_of_rest_windows_is_accepted() {
    let beside_each_bit = (0..32).flat_map(|bit| [(1 << bit) - 1, 1 << bit, (1 << bit) + 1]);
    for rest_count in (0..=65_535).chain(beside_each_bit).chain([4_294_967_294, 4_294_967_295]) {
        assert_eq!(gauge(&with(|gauge| gauge.rest_count = rest_count)).rest_count, rest_count);
    }
}

#[test]
fn every_cyct_is_accepted() {
    for cyct in 0..=65_535 {
        assert_eq!(gauge(&with(|gauge| gauge.cyct = cyct)).cyct, cyct);
    }
}

#[test]
fn the_cycle_drain_is_below_65535_counts() {
    // It need not be below LMD × G, which is 1,024 counts here.
    for cycle_drain in [0, 1, 1024 * G - 1, 1024 * G, 1024 * G + 1, GREATEST_DRAIN - 1] {
        assert_eq!(gauge(&with(|gauge| gauge.cycle_drain = cycle_drain)).cycle_drain, cycle_drain);
    }
    for cycle_drain in [GREATEST_DRAIN, GREATEST_DRAIN + 1, 1 << 56, i64::MAX, i64::MIN, -1] {
        assert!(!accepted(|gauge| gauge.cycle_drain = cycle_drain), "{cycle_drain}");
    }
    // The limit is that of the form, not of LMD or CYCT.
    for (lmd, cyct) in [(1, 0), (65_535, 65_535)] {
        for (cycle_drain, ok) in [(GREATEST_DRAIN - 1, true), (GREATEST_DRAIN, false)] {
            assert_eq!(accepted(|gauge| *gauge = Gauge { lmd, cyct, cycle_drain, ..*gauge }), ok);
        }
    }
}

#[test]
fn gauges_that_no_list_reaches_are_accepted() {
    // A current in the last window leaves no rest windows behind it, but neither number is asked about the other.
    let charging = |gauge: &mut Gauge| *gauge = Gauge { c: 40, flags: CI | CHGS, rest_count: 422, ..*gauge };
    assert!(accepted(charging));
    assert!(accepted(|gauge| gauge.flags = EDVF));
    assert!(accepted(|gauge| gauge.mode = 0xFF));
    assert!(accepted(|gauge| gauge.c = -28_011));
}
