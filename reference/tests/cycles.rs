//! Cycles and their drain (paper 02, A5): what adds to the drain, what counts, what clears and what keeps, and where CYCT stops.

mod common;
use common::*;
use reference::calls;
use reference::gauge::{Gauge, CHGS, CI, VDQ};

const CYCT: u32 = 0x2A;

/// What a window of this discharge adds to the drain.
fn discharge(units: i64) -> i64 {
    192_000 * units
}

/// CYCT and the drain.
fn cycles(bytes: &[u8]) -> (i32, i64) {
    let held = gauge(bytes);
    assert_eq!(i32::from(pair(bytes, CYCT)), held.cyct);
    (held.cyct, held.cycle_drain)
}

/// A gauge with an LMD, full, and with a number of cycles and a drain.
fn used(lmd: i32, cyct: i32, cycle_drain: i64) -> Saved {
    with(|gauge| {
        gauge.lmd = lmd;
        gauge.fill();
        gauge.cyct = cyct;
        gauge.cycle_drain = cycle_drain;
    })
}

#[test]
fn opening_starts_at_0() {
    assert_eq!(cycles(&opened()), (0, 0));
}

#[test]
fn every_discharge_adds_to_the_drain() {
    // DMF is 2.
    for (current, added) in [(-28_011, 28_011), (-3, 3), (-2, 0), (0, 0), (2, 0), (3, 0), (28_011, 0)] {
        for drain in [0, 7, 500 * G] {
            assert_eq!(cycles(&after(used(1024, 5, drain), current, 3600, 1192)), (5, drain + discharge(added)));
        }
    }
    assert_eq!(cycles(&line_three()), (0, discharge(3000)));
}

#[test]
fn a_cycle_is_a_whole_lmd() {
    // 3,000 units are 576,000,000 grains.
    for (before, then) in [(-1, (5, 1024 * G - 1)), (0, (6, 0)), (1, (6, 1)), (77, (6, 77))] {
        assert_eq!(cycles(&after(used(1024, 5, 1024 * G - discharge(3000) + before), -3000, 3600, 1192)), then);
    }
}

#[test]
fn several_cycles_in_one_window() {
    // 28,011 units are 39 counts and 113,112,000 grains; 28,125 units would be 40 counts.
    assert_eq!(discharge(28_011), 39 * G + 113_112_000);
    assert_eq!(cycles(&after(used(1, 0, 0), -28_011, 3600, 1192)), (39, 113_112_000));
    assert_eq!(cycles(&after(used(1, 0, G - 113_112_000), -28_011, 3600, 1192)), (40, 0));
    assert_eq!(cycles(&after(used(13, 0, 0), -28_011, 3600, 1192)), (3, 113_112_000));
    // The surplus of one window goes into the next.
    let twice = after(after(used(1, 0, 0), -28_011, 3600, 1192), -28_011, 3600, 1192);
    assert_eq!(cycles(&twice), (79, 2 * 113_112_000 - G));
}

#[test]
fn an_lmd_made_smaller_leaves_cycles_to_the_next_window() {
    // Twenty windows of 28,011 units are 796 counts and 102,240,000 grains. By LMD 100 that is 7 cycles, which the next window counts.
    let mut bytes = after_command(opened(), 0, 0x10, 0xA9);
    for _ in 0..20 {
        bytes = after(bytes, -28_011, 3600, 1192);
    }
    assert_eq!(cycles(&bytes), (0, 796 * G + 102_240_000));
    bytes = after_command(bytes, 100, 0x01, 0x56);
    assert_eq!(cycles(&bytes), (0, 796 * G + 102_240_000));
    // Of current 0, within DMF, charging, and discharging.
    for current in [0, 2, -2, 28_011] {
        assert_eq!(cycles(&after(bytes, current, 3600, 1192)), (7, 96 * G + 102_240_000));
    }
    assert_eq!(cycles(&after(bytes, -3, 3600, 1192)), (7, 96 * G + 102_240_000 + discharge(3)));
    // A rest counts nothing, and neither does a refused window.
    assert_eq!(cycles(&after_rest(bytes, MONTH, 1192)), cycles(&bytes));
    assert_eq!(calls::window(&mut bytes.clone(), 0, 2_599, 1192), 4);
}

#[test]
fn a_learned_lmd_leaves_cycles_to_the_next_window() {
    // The run teaches 896, the eighth less, and the drain has 900 counts.
    let run = with(|gauge| {
        gauge.h = 100 * G;
        gauge.flags |= VDQ;
        gauge.cycle_drain = 900 * G - discharge(21);
    });
    let taught = after(run, -21, 3000, 1192);
    assert_eq!((gauge(&taught).lmd, cycles(&taught)), (896, (0, 900 * G)));
    assert_eq!(cycles(&after(taught, 0, 3600, 1192)), (1, 4 * G));
}

#[test]
fn the_window_that_teaches_counts_by_the_lmd_before_it() {
    let teaching = |dcr: i64, cycle_drain: i64| {
        let run = with(|gauge| {
            gauge.h = 100 * G;
            gauge.dcr = dcr;
            gauge.flags |= VDQ;
            gauge.cycle_drain = cycle_drain - discharge(21);
        });
        let taught = after(run, -21, 3000, 1192);
        (gauge(&taught).lmd, cycles(&taught))
    };
    // Smaller: 960 counts in the drain are a cycle of the new LMD and none of the old one.
    assert_eq!(teaching(0, 960 * G), (896, (0, 960 * G)));
    assert_eq!(teaching(0, 1024 * G), (896, (1, 0)));
    // Greater: 1,100 counts are a cycle of the old LMD and none of the new one.
    assert_eq!(teaching(1_200 * G, 1_100 * G), (1_280, (1, 76 * G)));
}

#[test]
fn discharge_below_empty_counts_in_full() {
    let empty = with(|gauge| gauge.cycle_drain = 7);
    assert_eq!(cycles(&after(empty, -3000, 3600, 1192)), (0, 7 + discharge(3000)));
    // One count held, and the window takes 39.
    let held = with(|gauge| gauge.h = G);
    let next = after(held, -28_011, 3600, 1192);
    assert_eq!((gauge(&next).h, cycles(&next)), (0, (0, discharge(28_011))));
    // The same in an EDVF window, which sets h to 0 whatever is held.
    assert_eq!(cycles(&after(used(1024, 0, 0), -3000, 2800, 1192)), (0, discharge(3000)));
}

#[test]
fn a_leak_does_not_count() {
    // In the hottest band 1,024 counts leak 131,072 grains a window, DCR gains them and the drain does not.
    let idle = after(used(1024, 5, 77), 0, 3600, 1372);
    assert_eq!((gauge(&idle).dcr, cycles(&idle)), (131_072, (5, 77)));
    let drawn = after(used(1024, 5, 77), -3000, 3600, 1372);
    assert_eq!((gauge(&drawn).dcr, cycles(&drawn)), (131_072 + discharge(3000), (5, 77 + discharge(3000))));
}

#[test]
fn a_rest_counts_nothing() {
    for drain in [0, 77, 1024 * G - 1, 1024 * G, 5000 * G] {
        assert_eq!(cycles(&after_rest(used(1024, 5, drain), MONTH, 1372)), (5, drain));
    }
}

#[test]
fn a_run_that_ends_or_passes_leaves_the_drain() {
    // A charge and a drain of the run above 65,535 counts set DCR to 0.
    let charged = after(used(1024, 5, 77), 100, 3600, 1192);
    assert_eq!((gauge(&charged).dcr, cycles(&charged)), (0, (5, 77)));
    let passing = with(|gauge| {
        *gauge = Gauge { dcr: GREATEST_DRAIN, flags: CI | VDQ, cycle_drain: 77, ..*gauge };
    });
    let passed = after(passing, -3000, 3600, 1192);
    assert_eq!((gauge(&passed).vdq(), cycles(&passed)), (false, (0, 77 + discharge(3000))));
}

#[test]
fn cyct_stops_at_65535_and_the_drain_goes_on() {
    for (before, then) in [(65_495, 65_534), (65_496, 65_535), (65_497, 65_535), (65_530, 65_535), (65_535, 65_535)] {
        assert_eq!(cycles(&after(used(1, before, 0), -28_011, 3600, 1192)), (then, 113_112_000));
    }
    let mut bytes = used(1, 65_535, 0);
    for windows in 1..=2_000 {
        bytes = after(bytes, -28_011, 3600, 1192);
        assert_eq!(cycles(&bytes), (65_535, windows * discharge(28_011) % G));
    }
}

#[test]
fn the_greatest_drain_is_counted_at_once() {
    // 65,535 × G less one grain and a window of 28,011 units, with an LMD of one count.
    let next = cycles(&after(used(1, 0, GREATEST_DRAIN - 1), -28_011, 3600, 1192));
    assert_eq!(next, (65_535, 113_111_999));
    assert_eq!(cycles(&after(used(1, 0, GREATEST_DRAIN - 1), 0, 3600, 1192)), (65_534, G - 1));
    assert_eq!(cycles(&after(used(65_535, 3, GREATEST_DRAIN - 1), 0, 3600, 1192)), (3, GREATEST_DRAIN - 1));
    assert_eq!(cycles(&after(used(65_535, 3, GREATEST_DRAIN - 1), -3, 3600, 1192)), (4, discharge(3) - 1));
}

#[test]
fn prst_keeps_both_and_frst_clears_both() {
    for (cyct, drain) in [(0, 77), (16, 0), (65_535, 900 * G), (5, 5000 * G)] {
        assert_eq!(cycles(&after_command(used(1024, cyct, drain), 9, 0x08, 0xA9)), (cyct, drain));
        assert_eq!(cycles(&after_command(used(1024, cyct, drain), 9, 0x02, 0xA9)), (0, 0));
    }
}

#[test]
fn the_settings_leave_both() {
    for (mode, key) in [(0x20, 0xA9), (0x10, 0xA9), (0x01, 0x56)] {
        for (cyct, drain) in [(16, 900 * G), (65_535, 5000 * G)] {
            assert_eq!(cycles(&after_command(used(1024, cyct, drain), 9, mode, key)), (cyct, drain));
        }
    }
}

#[test]
fn a_refused_call_leaves_both() {
    let bytes = used(1024, 16, 5000 * G);
    let mut copy = bytes;
    assert_eq!(calls::window(&mut copy, -28_012, 3700, 1192), 3);
    assert_eq!(calls::window(&mut copy, -100, 2_599, 1192), 4);
    assert_eq!(calls::window(&mut copy, -100, 3700, 1_373), 5);
    assert_eq!(calls::rest(&mut copy, 0, 1192), 6);
    assert_eq!(calls::write(&mut copy, 0x2A, 0), 7);
    assert_eq!(calls::write(&mut copy, 0x00, 0xA9), 9);
    assert_eq!(copy, bytes);
}

#[test]
fn the_last_current_adds_nothing_to_a_later_window() {
    let drawing = with(|gauge| *gauge = Gauge { c: -3000, ..*gauge });
    assert_eq!(cycles(&after(drawing, 0, 3600, 1192)), (0, 0));
    let charging = with(|gauge| *gauge = Gauge { c: 3000, flags: CI | CHGS, ..*gauge });
    assert_eq!(cycles(&after(charging, -3, 3600, 1192)), (0, discharge(3)));
}
