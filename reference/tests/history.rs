//! The history of demand 3: the fixing points it finds, and that the gauge agrees with it.

mod common;
use common::held::Held;
use common::*;
use reference::fixing::FixingPoint::*;
use reference::fixing::FixingPoints;
use reference::history::{Call, History};
use reference::trace::Trace;
use reference::{bench::BENCH_PACK, calls};

#[test]
fn windows_make_their_fixing_points() {
    let mut held = Held::open(&BENCH_PACK);
    assert_eq!(held.window(2, 3700, 1192), []);
    assert_eq!(held.window(20, 4150, 1192), [Full]);
    assert_eq!(held.window(-3000, 3600, 1192), []);
    assert_eq!(held.window(-21, 3000, 1192), [QualifiedRun]);
    assert_eq!((held.0.history().l, held.0.history().h()), (896, 56 * G));
    assert_eq!(held.window(-21, 3000, 1192), []);
    assert_eq!(held.window(-21, 2800, 1192), [EdvfWindow]);
    assert_eq!(held.window(-21, 3600, 1192), [EmptyStop]);
    assert_eq!(held.window(-21, 2800, 1192), [EmptyStop, EdvfWindow]);
}

#[test]
fn an_empty_stop_and_a_qualified_run_in_one_window() {
    let mut held = Held::open(&BENCH_PACK);
    assert_eq!(held.command(0, 0x10, 0xA9), [Done]);
    while held.window(-28_011, 3600, 1192).is_empty() {}
    assert_eq!(held.window(-28_011, 2900, 1192), [EmptyStop, QualifiedRun]);
    assert!(held.0.history().l > 1024);
    assert_eq!(held.0.history().h(), i64::from(held.0.history().l / 16) * G);
}

#[test]
fn commands_make_their_fixing_points() {
    let mut held = Held::open(&BENCH_PACK);
    assert_eq!(held.command(500, 0x20, 0xA9), [Wrtnac]);
    assert_eq!(held.0.history().h(), 500 * G);
    held.window(-100, 3600, 1192);
    assert_eq!(held.command(400, 0x01, 0x56), [Wrtlmd]);
    assert_eq!(held.0.history().h(), 400 * G);
    assert_eq!(held.command(0, 0x10, 0xA9), [Done]);
    held.window(-100, 3600, 1192);
    let before = *held.0.history();
    assert_eq!(held.command(9, 0x08, 0xA9), []);
    assert_eq!((held.0.history().p, held.0.history().q), (before.p, before.q));
    assert_eq!((held.0.history().run, held.0.history().ar, held.0.history().mode), (None, 0, 0x44));
    assert_eq!(held.command(9, 0x02, 0xA9), [Frst]);
    assert_eq!((held.0.history().l, held.0.history().h()), (1024, 0));
}

#[test]
fn a_refused_call_changes_nothing() {
    let mut held = Held::open(&BENCH_PACK);
    held.window(20, 4150, 1192);
    let before = (*held.0.saved(), *held.0.history());
    assert_eq!(held.0.window(28_012, 3700, 1192), Err(3));
    assert_eq!(held.0.rest(0, 1373), Err(6));
    assert_eq!(held.0.write(0x00, 0xA9), Err(9));
    let read = Call::Read { address: 0x7F, count: 2, reply_length: 4, place: 0 };
    assert_eq!(held.0.call(&read), Err(12));
    assert_eq!(held.0.call(&Call::Preview { key: 0xA9, reply_length: 128 }), Err(9));
    assert_eq!(held.0.call(&Call::Estimate { voltage: 3700 }), Err(15));
    assert_eq!((*held.0.saved(), *held.0.history()), before);
}

#[test]
fn a_preview_moves_neither_gauge_nor_history() {
    // Paper 02, A2: it may stand anywhere in a list. Here it stands within a run, its command bits written and left in MODE.
    for (mode, key) in [(0x20, 0xA9), (0x10, 0xA9), (0x08, 0xA9), (0x02, 0xA9), (0x01, 0x56)] {
        let mut held = Held::open(&BENCH_PACK);
        held.window(20, 4150, 1192);
        held.window(-3000, 3600, 1192);
        held.write(0x02, 9);
        held.write(0x01, mode);
        let before = (*held.0.saved(), *held.0.history());
        for (reply_length, answer) in [(128, Ok(FixingPoints::default())), (127, Err(13)), (129, Err(13))] {
            assert_eq!(held.0.call(&Call::Preview { key, reply_length }), answer);
        }
        assert_eq!(held.0.call(&Call::Preview { key: 0x57, reply_length: 127 }), Err(8));
        assert_eq!((*held.0.saved(), *held.0.history()), before);
        assert_eq!(held.window(-21, 3000, 1192), [QualifiedRun]);
    }
}

#[test]
fn the_history_foresees_the_number_of_an_estimate() {
    // Paper 02, A4: by the calls alone. A rest of 421, a window within DMF and a rest of 1 come to 422.
    let mut held = Held::open(&BENCH_PACK);
    let estimate = |held: &mut Held, voltage| {
        let before = (*held.0.saved(), *held.0.history());
        let number = held.0.call(&Call::Estimate { voltage }).err().unwrap_or(0);
        assert_eq!(calls::estimate(&before.0, voltage, &mut 0, &mut 0), number);
        assert_eq!((*held.0.saved(), *held.0.history()), before);
        number
    };
    held.window(20, 4150, 1192);
    held.rest(421, 1192);
    held.window(-2, 3700, 1192);
    assert_eq!([2_999, 3_000, 4_201].map(|voltage| estimate(&mut held, voltage)), [15, 15, 15]);
    held.rest(1, 1192);
    assert_eq!([2_999, 3_000, 4_200, 4_201].map(|voltage| estimate(&mut held, voltage)), [16, 0, 0, 16]);
    // The run from full is still under way and teaches.
    assert_eq!(held.window(-21, 3000, 1192), [QualifiedRun]);
    assert_eq!(estimate(&mut held, 3_700), 15);
}

#[test]
fn the_history_counts_rest_windows_by_the_calls_alone() {
    let mut held = Held::open(&BENCH_PACK);
    for (windows, count) in [(DAY, 16_875), (48_660, 65_535), (1, 65_536), (MONTH, 571_786)] {
        held.rest(windows, 1192);
        assert_eq!(held.0.history().rest_count(), count);
    }
    for (mode, key) in [(0x20, 0xA9), (0x10, 0xA9), (0x01, 0x56)] {
        held.command(9, mode, key);
        assert_eq!(held.0.history().rest_count(), 571_786);
    }
    for (mode, rests) in [(0x08, 3), (0x02, 4)] {
        held.command(9, mode, 0xA9);
        assert_eq!(held.0.history().rest_count(), 0);
        held.rest(rests, 1192);
        assert_eq!(held.0.history().rest_count(), rests);
    }
    held.window(3, 3700, 1192);
    assert_eq!(held.0.history().rest_count(), 0);
}

#[test]
fn the_history_counts_without_a_stop() {
    // Paper 02, A6. It stops where the count is asked for, and the gauge agrees.
    let near = with(|gauge| gauge.rest_count = 4_294_967_294);
    let mut held = Held::load(&near);
    for (windows, count, so_far) in
        [(1, 4_294_967_295, 4_294_967_295), (1, 4_294_967_295, 4_294_967_296), (MONTH, 4_294_967_295, 4_295_473_546)]
    {
        held.rest(windows, 1192);
        assert_eq!((held.0.history().rest_count(), held.0.history().rest_windows), (count, so_far));
    }
    held.command(9, 0x08, 0xA9);
    held.rest(5, 1192);
    assert_eq!((held.0.history().rest_count(), held.0.history().rest_windows), (5, 5));
}

#[test]
fn the_history_counts_cycles_by_the_calls_alone() {
    // Paper 02, A5. Twenty windows of 28,011 units are 796 counts and 102,240,000 grains.
    let mut held = Held::open(&BENCH_PACK);
    held.command(0, 0x10, 0xA9);
    for _ in 0..20 {
        held.window(-28_011, 3600, 1192);
    }
    let counted = |held: &Held| (held.0.history().cycles, held.0.history().cycle_drain);
    assert_eq!(counted(&held), (0, 796 * G + 102_240_000));
    held.command(100, 0x01, 0x56);
    held.rest(5, 1192);
    assert_eq!(counted(&held), (0, 796 * G + 102_240_000));
    held.window(0, 3600, 1192);
    assert_eq!(counted(&held), (7, 96 * G + 102_240_000));
    held.command(9, 0x08, 0xA9);
    assert_eq!(counted(&held), (7, 96 * G + 102_240_000));
    held.command(9, 0x02, 0xA9);
    assert_eq!(counted(&held), (0, 0));
}

#[test]
fn the_history_stops_at_65535_cycles() {
    let mut held = Held::open(&BENCH_PACK);
    held.command(1, 0x01, 0x56);
    for _ in 0..1_700 {
        held.window(-28_011, 3600, 1192);
    }
    let drain = 1_700 * 28_011 * 192_000 % G;
    assert_eq!((held.0.history().cycles, held.0.history().cycle_drain), (65_535, drain));
}

#[test]
fn cycles_in_the_window_that_teaches() {
    // From full, 25 windows come to 995 counts, which is no cycle of 1,024 yet.
    let mut held = Held::open(&BENCH_PACK);
    held.command(0, 0x10, 0xA9);
    for _ in 0..25 {
        held.window(-28_011, 3600, 1192);
    }
    assert_eq!((held.0.history().l, held.0.history().cycles), (1024, 0));
    // The last one comes to 1,035: a cycle of 1,024, and none of the 1,104 that the run teaches.
    assert_eq!(held.window(-28_011, 3000, 1192), [EmptyStop, QualifiedRun]);
    assert_eq!((held.0.history().l, held.0.history().cycles), (1104, 1));
}

#[test]
fn a_run_ends_above_the_greatest_drain() {
    let mut held = Held::open(&BENCH_PACK);
    held.command(1, 0x01, 0x56);
    held.command(0, 0x10, 0xA9);
    let windows = GREATEST_DRAIN / (192_000 * 28_011);
    for _ in 0..windows {
        held.window(-28_011, 3600, 1192);
    }
    assert!(held.0.history().run.is_some());
    held.window(-28_011, 3600, 1192);
    assert_eq!(held.0.history().run, None);
}

#[test]
fn rests_leak_window_by_window() {
    let mut held = Held::open(&BENCH_PACK);
    held.window(20, 4150, 1192);
    held.rest(DAY, 1372);
    assert!(held.0.history().h() < 1024 * G - i64::from(DAY) * 1000 * 128);
    assert_eq!(held.0.history().h() + held.0.history().r(), 1024 * G);
}

#[test]
fn a_history_begins_at_a_loaded_gauge() {
    let opened = Held::open(&BENCH_PACK);
    assert_eq!(History::begun(&gauge(opened.0.saved())), *opened.0.history());

    let mut held = Held::open(&BENCH_PACK);
    held.window(20, 4150, 1192);
    held.window(-3000, 3600, 1192);
    held.write(0x02, 9);
    held.rest(5, 1192);
    let mut loaded = Held::load(held.0.saved());
    let begun = *loaded.0.history();
    assert_eq!((begun.p, begun.q, begun.k), (held.0.history().h(), 0, 0));
    assert_eq!((begun.l, begun.run, begun.ar, begun.rest_count()), (1024, held.0.history().run, 9, 5));
    assert_eq!((begun.cycles, begun.cycle_drain), (0, 3000 * 192_000));

    // The run that was under way goes on and teaches the same capacity.
    for both in [&mut held, &mut loaded] {
        assert_eq!(both.window(-21, 3000, 1192), [QualifiedRun]);
    }
    assert_eq!(held.0.saved(), loaded.0.saved());
    assert_eq!(Trace::load(&[0; 55]).err(), Some(14));
}
