//! Both sides of every threshold of the window's steps and of the rest.

mod common;
use common::*;
use reference::gauge::{Gauge, CHGS, CI, EDV1, EDVF, INIT, VDQ};
use reference::{leak, learning};

/// A run of the bench pack with a charge and a drain.
fn run(h: i64, dcr: i64) -> Saved {
    with(|gauge| {
        gauge.h = h;
        gauge.dcr = dcr;
        gauge.flags |= VDQ;
    })
}

fn rested(bytes: Saved, windows: u32, temperature: i32) -> Gauge {
    gauge(&after_rest(bytes, windows, temperature))
}

#[test]
fn bands_rise_at_their_temperatures() {
    for (rise, below) in [1092, 1132, 1172, 1212, 1252, 1292, 1332].into_iter().zip([1, 2, 4, 8, 16, 32, 64]) {
        assert_eq!((leak::w(rise - 1), leak::w(rise)), (below, 2 * below));
    }
    assert_eq!((leak::w(1012), leak::w(1372)), (1, 128));
}

#[test]
fn the_leak_is_from_the_nac_before_the_window() {
    // One grain below two counts: NAC 1, though the current takes it above two.
    let held = with(|gauge| gauge.h = 2 * G - 1);
    assert_eq!(gauge(&after(held, 1000, 3700, 1192)).h, 2 * G - 1 - 8 + 192_000_000);
    let held = with(|gauge| gauge.h = 2 * G);
    assert_eq!(gauge(&after(held, 0, 3700, 1192)).h, 2 * G - 16);
}

#[test]
fn full_by_charge_from_the_exact_grain_on() {
    // NAC 1023 leaks 1023 × 1 × 8 at 1192.
    let needed = 1024 * G + 1023 * 8 - 192_000 * 100;
    for (h, full) in [(needed, true), (needed - 1, false)] {
        let next = gauge(&after(with(|gauge| gauge.h = h), 100, 3700, 1192));
        assert_eq!((next.h == 1024 * G, next.vdq(), next.mode & INIT == 0), (full, full, full));
    }
}

#[test]
fn full_by_taper_needs_both_limits() {
    for (a, v, full) in [(32, 4100, true), (33, 4100, false), (32, 4099, false), (3, 4500, true)] {
        let next = gauge(&after(opened(), a, v, 1192));
        assert_eq!((next.vdq(), next.flags & CHGS), (full, CHGS));
    }
    let idle = gauge(&after(opened(), 2, 4500, 1192));
    assert_eq!((idle.h, idle.flags), (0, CI));
}

#[test]
fn empty_stop_at_zero_grains() {
    for (h, left) in [(19_200_000, 0), (19_200_001, 1), (19_199_999, 0)] {
        let next = gauge(&after(run(h, 5), -100, 3600, 1192));
        assert_eq!((next.h, next.dcr, next.vdq()), (left, 19_200_005, true));
    }
}

#[test]
fn a_run_of_exactly_the_greatest_drain_goes_on() {
    for (over, kept) in [(0, true), (1, false)] {
        let next = gauge(&after(run(0, GREATEST_DRAIN - 19_200_000 + over), -100, 3600, 1192));
        assert_eq!((next.vdq(), next.dcr), (kept, if kept { GREATEST_DRAIN } else { 0 }));
        let idle = gauge(&after(run(3 * G, GREATEST_DRAIN - 24 + over), 0, 3600, 1192));
        assert_eq!((idle.vdq(), idle.h), (kept, 3 * G - 24));
    }
}

#[test]
fn a_run_that_passes_does_not_teach() {
    let next = gauge(&after(run(0, GREATEST_DRAIN), -100, 3000, 1192));
    assert_eq!((next.lmd, next.flags), (1024, CI | EDV1));
}

#[test]
fn a_run_passes_in_a_rest() {
    assert!(rested(run(3 * G + 48, GREATEST_DRAIN - 48), 2, 1192).vdq());
    assert!(!rested(run(3 * G + 48, GREATEST_DRAIN - 47), 2, 1192).vdq());
    let passed = rested(run(3 * G + 48, GREATEST_DRAIN - 47), 3, 1192);
    assert_eq!((passed.h, passed.dcr), (3 * G - 24, 0));
}

#[test]
fn a_rest_keeps_all_but_what_its_rule_names() {
    let before = gauge(&line_three());
    let next = rested(line_three(), 1, 1092);
    let leak = 1019 * 2;
    let expected = Gauge { temp: 1092, c: 0, h: before.h - leak, dcr: before.dcr + leak, rest_count: 1, ..before };
    assert_eq!(next, expected);
    assert_eq!(rested(line_three(), 7, 1092), gauge(&(0..7).fold(line_three(), |bytes, _| after_rest(bytes, 1, 1092))));
}

#[test]
fn edvf_and_e1_include_their_voltage() {
    for (v, flags) in [(2800, EDVF | EDV1), (2801, EDV1), (3000, EDV1), (3001, 0)] {
        let next = gauge(&after(with(|gauge| gauge.h = 9 * G), -100, v, 1192));
        assert_eq!((next.flags, next.h == 0), (CI | flags, v == 2800));
    }
    assert_eq!(gauge(&after(opened(), 0, 2600, 1192)).flags, CI);
}

#[test]
fn a_run_qualifies_from_the_cold_limit_on() {
    // TOFF 5: 4 × 278.
    for (t, lmd, ci) in [(1112, 960, 0), (1111, 1024, CI)] {
        let next = gauge(&after(run(100 * G, 900 * G), -100, 2801, t));
        assert_eq!((next.lmd, next.flags, next.dcr), (lmd, ci | EDV1, 0));
    }
}

#[test]
fn an_empty_stop_can_also_be_a_qualified_run() {
    let next = gauge(&after(run(0, 900 * G), -100, 2900, 1192));
    assert_eq!((next.lmd, next.h, next.flags), (960, 60 * G, EDV1));
}

#[test]
fn learning_is_floored_and_bounded() {
    // 1000 counts are taught by exactly 1000 × 15 × G / 16 grains.
    let drain = 1000 * (15 * G / 16);
    assert_eq!([drain - 1, drain].map(|drain| learning::learned(drain, 1024)), [999, 1000]);
    assert_eq!([1, 7, 8, 15].map(|old| learning::learned(0, old)), [1, 7, 7, 14]);
    assert_eq!(learning::learned(GREATEST_DRAIN, 1024), 65_535);
    assert_eq!([15, 16, 960].map(learning::charge_after), [0, G, 60 * G]);
}

#[test]
fn charging_ends_a_run_and_clears_both_end_flags() {
    let low = with(|gauge| {
        gauge.flags = CI | VDQ | EDV1 | EDVF;
        gauge.dcr = 77;
    });
    let next = gauge(&after(low, 3, 3700, 1192));
    assert_eq!((next.flags, next.dcr, next.h), (CI | CHGS, 0, 576_000));
    assert_eq!(gauge(&after(low, 2, 3700, 1192)).flags, CI | VDQ | EDV1 | EDVF);
}
