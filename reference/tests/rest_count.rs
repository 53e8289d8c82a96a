//! The count of rest windows (paper 02, A4 and A6): what counts, what clears it, what leaves it, and where it stops.

mod common;
use common::*;
use reference::calls;

/// Where it stops, and where it stopped before A6.
const STOP: u32 = 4_294_967_295;
const FORMER_STOP: u32 = 65_535;

fn count(bytes: &[u8]) -> u32 {
    gauge(bytes).rest_count
}

/// Whether the gauge has rested enough for an estimate.
fn is_rested(bytes: &[u8]) -> bool {
    match calls::estimate(bytes, 3700, &mut 0, &mut 0) {
        0 => true,
        number => {
            assert_eq!(number, 15);
            false
        }
    }
}

/// The opened bench pack with a count, full, so that a command or a window has something to move.
fn counted(rest_count: u32) -> Saved {
    with(|gauge| {
        gauge.fill();
        gauge.rest_count = rest_count;
    })
}

fn after_key(mut bytes: Saved, mode: u8, key: u8) -> Saved {
    for (address, value) in [(0x02, 9), (0x01, mode), (0x00, key)] {
        assert_eq!(calls::write(&mut bytes, address, value), 0);
    }
    bytes
}

#[test]
fn opening_starts_at_0() {
    assert_eq!(count(&opened()), 0);
    assert!(!is_rested(&opened()));
}

#[test]
fn every_rest_window_counts() {
    let mut bytes = opened();
    for (windows, so_far) in [(1, 1), (2, 3), (400, 403), (18, 421)] {
        bytes = after_rest(bytes, windows, 1192);
        assert_eq!((count(&bytes), is_rested(&bytes)), (so_far, false));
    }
    bytes = after_rest(bytes, 1, 1012);
    assert_eq!((count(&bytes), is_rested(&bytes)), (422, true));
    assert_eq!(count(&after_rest(bytes, DAY, 1372)), 17_297);
    assert_eq!(count(&after_rest(bytes, MONTH, 1372)), 506_672);
}

#[test]
fn it_counts_on_past_65535() {
    for (before, windows, then) in [
        (65_534, 1, 65_535),
        (65_534, 2, 65_536),
        (65_535, 1, 65_536),
        (65_535, 422, 65_957),
        (48_661, DAY, 65_536),
        (65_535, MONTH, 571_785),
        (0, MONTH, MONTH),
    ] {
        let bytes = after_rest(counted(before), windows, 1192);
        assert_eq!(count(&bytes), then, "{before} and {windows}");
        assert!(is_rested(&bytes));
    }
}

#[test]
fn it_stops_at_4294967295() {
    for (before, windows, then) in [
        (STOP - 2, 1, STOP - 1),
        (STOP - 1, 1, STOP),
        (STOP - 1, 2, STOP),
        (STOP, 1, STOP),
        (STOP, MONTH, STOP),
        (STOP - MONTH - 1, MONTH, STOP - 1),
        (STOP - MONTH, MONTH, STOP),
        // One more is 2^32, which four bytes would make 0, and 423 more 422.
        (STOP - MONTH + 1, MONTH, STOP),
        (STOP - MONTH + 423, MONTH, STOP),
        (STOP - MONTH / 2, MONTH, STOP),
    ] {
        let bytes = after_rest(counted(before), windows, 1192);
        assert_eq!(count(&bytes), then, "{before} and {windows}");
        assert!(is_rested(&bytes));
    }
}

#[test]
fn a_window_with_current_clears_it() {
    // DMF is 2.
    for current in [3, -3, 28_011, -28_011] {
        assert_eq!(count(&after(counted(422), current, 3700, 1192)), 0);
    }
    // Whatever else the window is: full, an empty stop, EDVF.
    for before in [FORMER_STOP, FORMER_STOP + 1, STOP] {
        assert_eq!(count(&after(counted(before), 20, 4150, 1192)), 0);
        assert_eq!(count(&after(counted(before), -20, 2800, 1192)), 0);
    }
}

#[test]
fn a_window_without_counted_current_neither_counts_nor_clears() {
    for current in [0, 2, -2] {
        for before in [0, 1, 421, 422, FORMER_STOP, FORMER_STOP + 1, STOP] {
            assert_eq!(count(&after(counted(before), current, 3700, 1192)), before);
        }
        let bytes = after(after_rest(opened(), 421, 1192), current, 3700, 1192);
        assert!(!is_rested(&bytes));
        assert_eq!((count(&after_rest(bytes, 1, 1192)), is_rested(&after_rest(bytes, 1, 1192))), (422, true));
    }
}

#[test]
fn the_dmf_decides_whether_a_current_clears_it() {
    for dmf in 0..=15 {
        let bytes = with(|gauge| {
            gauge.configuration.bytes[4] = dmf << 4;
            gauge.rest_count = 7;
        });
        let dmf = i32::from(dmf);
        assert_eq!([dmf, -dmf].map(|current| count(&after(bytes, current, 3700, 1192))), [7, 7]);
        assert_eq!([dmf + 1, -dmf - 1].map(|current| count(&after(bytes, current, 3700, 1192))), [0, 0]);
    }
}

#[test]
fn both_resets_clear_it() {
    for reset in [0x08, 0x02] {
        for before in [422, FORMER_STOP, FORMER_STOP + 1, STOP] {
            assert_eq!(count(&after_key(counted(before), reset, 0xA9)), 0);
        }
    }
}

#[test]
fn the_settings_leave_it() {
    for (mode, key) in [(0x20, 0xA9), (0x10, 0xA9), (0x01, 0x56)] {
        for before in [0, 421, 422, FORMER_STOP, FORMER_STOP + 1, STOP] {
            assert_eq!(count(&after_key(counted(before), mode, key)), before);
        }
    }
}

#[test]
fn a_refused_call_leaves_it() {
    for before in [422, FORMER_STOP + 1, STOP] {
        let bytes = counted(before);
        let mut copy = bytes;
        assert_eq!(calls::window(&mut copy, 28_012, 3700, 1192), 3);
        assert_eq!(calls::window(&mut copy, 100, 2_599, 1192), 4);
        assert_eq!(calls::rest(&mut copy, 0, 1192), 6);
        assert_eq!(calls::rest(&mut copy, MONTH + 1, 1192), 6);
        assert_eq!(calls::rest(&mut copy, 1, 1_373), 5);
        assert_eq!(calls::write(&mut copy, 0x00, 0xA9), 9);
        assert_eq!(copy, bytes);
    }
}

#[test]
fn a_rest_of_n_counts_as_n_rests_of_one() {
    for before in [0, 420, 421, FORMER_STOP - 5, FORMER_STOP, STOP - 5, STOP] {
        let one_by_one = (0..9).fold(counted(before), |bytes, _| after_rest(bytes, 1, 1192));
        assert_eq!(after_rest(counted(before), 9, 1192), one_by_one);
    }
}

#[test]
fn no_register_shows_it() {
    let mut shown = [[0; 128]; 2];
    for (registers, rest_count) in shown.iter_mut().zip([0, STOP]) {
        assert_eq!(calls::read(&counted(rest_count), 0, 128, registers, 0), 0);
    }
    assert_eq!(shown[0], shown[1]);
}
