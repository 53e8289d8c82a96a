//! Rests of more than a day, up to thirty days, in gauge and history (paper 02, A6).

mod common;
use common::held::Held;
use common::*;
use reference::bench::BENCH_PACK;
use reference::gauge::{Gauge, VDQ};

/// The bench pack with ILMD 255 and SD 15: from full no configuration leaks more.
const LEAKING_PACK: [u8; 10] = [0xFF, 0x5E, 0x77, 0x05, 0x2F, 0x10, 0x00, 0x00, 0x6C, 0x15];

/// A pack that DONE made full, and so in a run.
fn full(pack: &[u8]) -> Held {
    let mut held = Held::open(pack);
    held.command(0, 0x10, 0xA9);
    held
}

fn nac(held: &Held) -> i64 {
    held.0.history().h() / G
}

#[test]
fn a_month_from_full() {
    for (pack, temperature, lost) in
        [(&BENCH_PACK, 1192, 31), (&LEAKING_PACK, 1192, 23_656), (&LEAKING_PACK, 1372, 65_231), (&BENCH_PACK, 1372, 391)]
    {
        let mut held = full(pack);
        let before = nac(&held);
        held.rest(MONTH, temperature);
        assert_eq!(before - nac(&held), lost);
        // What the charge has lost is in the run's drain, to the grain, and LMD is what it was.
        let history = held.0.history();
        assert_eq!(history.h() + history.r(), before * G);
        assert_eq!((history.l, history.cycle_drain), (before as i32, 0));
        assert_eq!(history.rest_count(), MONTH);
    }
}

#[test]
fn a_month_as_thirty_days_and_as_rests_of_one() {
    let mut days = full(&LEAKING_PACK);
    (0..30).for_each(|_| days.rest(DAY, 1372));
    let mut month = full(&LEAKING_PACK);
    month.rest(MONTH, 1372);
    assert_eq!((days.0.saved(), days.0.history()), (month.0.saved(), month.0.history()));

    let one_by_one = (0..MONTH).fold(line_three(), |bytes, _| after_rest(bytes, 1, 1252));
    assert_eq!(after_rest(line_three(), MONTH, 1252), one_by_one);
}

#[test]
fn a_month_that_loses_no_count() {
    // A NAC of 1 at 1192 leaks 8 grains a window, 4,050,000 in a month.
    for (above, left) in [(4_050_000, 1), (4_049_999, 0), (G - 1, 1)] {
        let bytes = with(|gauge| gauge.h = G + above);
        let next = gauge(&after_rest(bytes, MONTH, 1192));
        assert_eq!((next.nac(), next.h), (left, G + above - 4_050_000));
    }
}

#[test]
fn a_month_that_loses_all_charge() {
    // The hottest band: 1,920 grains a count and window.
    let mut held = full(&LEAKING_PACK);
    held.command(500, 0x20, 0xA9);
    held.rest(MONTH, 1372);
    assert_eq!(nac(&held), 0);
    let empty = held.0.history().h();
    held.rest(MONTH, 1372);
    assert_eq!(held.0.history().h(), empty);
}

#[test]
fn a_run_passes_in_the_middle_of_a_month() {
    // Two counts at 1192 leak 16 grains a window; after half a month the drain is 65,535 × G exactly, a window later above it.
    let half = MONTH / 2;
    let run = |over: i64| {
        with(|gauge| {
            *gauge = Gauge { h: 3 * G - 1, dcr: GREATEST_DRAIN - 16 * i64::from(half) + over, flags: gauge.flags | VDQ, ..*gauge }
        })
    };
    for (over, windows, kept) in [(0, half, true), (0, half + 1, false), (1, half, false), (1, half - 1, true), (0, MONTH, false)] {
        let mut held = Held::load(&run(over));
        held.rest(windows, 1192);
        let history = held.0.history();
        assert_eq!(history.run.is_some(), kept, "{over} and {windows}");
        // The charge goes on leaking after the run has ended.
        assert_eq!(history.h(), 3 * G - 1 - 16 * i64::from(windows));
        assert_eq!(history.r(), if kept { GREATEST_DRAIN - 16 * i64::from(half - windows) + over } else { 0 });
    }
}

#[test]
fn a_run_over_the_winter_teaches() {
    // What the cell leaked on the shelf is part of what the run teaches: 31 counts of 1,024, and then 24 windows of discharge.
    let mut held = full(&BENCH_PACK);
    held.rest(MONTH, 1192);
    for _ in 0..24 {
        held.window(-28_011, 3600, 1192);
    }
    let (drained, last) = (held.0.history().r(), 21 * 192_000 + 8 * nac(&held));
    assert!(drained > 24 * 28_011 * 192_000 + 30 * G);
    held.window(-21, 3000, 1192);
    assert_eq!(i64::from(held.0.history().l), 16 * (drained + last) / (15 * G));
}

#[test]
fn a_month_leaves_what_a_rest_does_not_name() {
    let before = gauge(&used());
    let next = gauge(&after_rest(used(), MONTH, 1012));
    let leaked = before.h - next.h;
    let expected = Gauge { temp: 1012, c: 0, h: before.h - leaked, dcr: 33 + leaked, rest_count: 0x1234 + MONTH, ..before };
    assert_eq!(next, expected);
    // 500 counts and 77 grains: the first window loses a count, 270,541 windows the next one, and 235,708 are left.
    assert_eq!(leaked, 500 + 499 * 270_541 + 498 * 235_708);
}
