//! The standby current in sixteenths (paper 02, A1): which windows move it, where it settles, and what is shown of it.

mod common;
use common::*;
use reference::bench::BENCH_PACK;
use reference::calls;

const SI: u32 = 0x1A;
const STTE: u32 = 0x1C;

/// The bench pack with another ISLC, opened. S0 is 2 × ISLC.
fn opened_with(islc: u8) -> Saved {
    let mut pack = BENCH_PACK;
    pack[3] = islc;
    let mut bytes = [0; 55];
    assert_eq!(calls::open(&pack, &mut bytes), 0);
    bytes
}

fn sixteenths(bytes: &[u8]) -> i32 {
    gauge(bytes).si_sixteenths
}

/// The bytes after so many windows of a steady load.
fn loaded(mut bytes: Saved, load: i32, windows: usize) -> Saved {
    for _ in 0..windows {
        bytes = after(bytes, -load, 3600, 1192);
    }
    bytes
}

#[test]
fn it_follows_light_discharges_only() {
    for (a, si) in [(-20, 170), (-21, 160), (-3, 153), (20, 160), (-2, 160)] {
        assert_eq!(sixteenths(&after(opened(), a, 3600, 1192)), si);
    }
    let greatest = with_si(&opened(), 320);
    assert_eq!(sixteenths(&after(greatest, -20, 3600, 1192)), 320);
    assert_eq!(sixteenths(&after(greatest, -19, 3600, 1192)), 319);
}

#[test]
fn opening_and_both_resets_show_s0() {
    let fresh = opened_with(15);
    assert_eq!((sixteenths(&fresh), pair(&fresh, SI)), (480, 30));
    for reset in [0x02, 0x08] {
        let mut bytes = loaded(fresh, 4, 9);
        assert_ne!(pair(&bytes, SI), 30);
        assert_eq!(calls::write(&mut bytes, 0x01, reset), 0);
        assert_eq!(calls::write(&mut bytes, 0x00, 0xA9), 0);
        assert_eq!(sixteenths(&bytes), 480);
    }
}

#[test]
fn a_steady_load_of_40_is_reached_from_30() {
    let mut bytes = opened_with(15);
    assert_eq!(pair(&after(bytes, -40, 3600, 1192), SI), 31);
    bytes = loaded(bytes, 40, 200);
    assert_eq!((sixteenths(&bytes), pair(&bytes, SI)), (625, 40));
    assert_eq!(sixteenths(&loaded(bytes, 40, 1000)), 625);
}

#[test]
fn a_load_that_is_shown_stays() {
    for si in 625..=640 {
        let bytes = with_si(&opened_with(15), si);
        assert_eq!((pair(&bytes, SI), sixteenths(&loaded(bytes, 40, 1))), (40, i32::from(si)));
    }
    let bytes = opened_with(15);
    assert_eq!(sixteenths(&loaded(with_si(&bytes, 624), 40, 1)), 625);
    assert_eq!(sixteenths(&loaded(with_si(&bytes, 641), 40, 1)), 640);
}

#[test]
fn every_light_load_settles_at_itself() {
    for load in 3..=60 {
        let below = loaded(with_si(&opened_with(15), 0), load, 300);
        let above = loaded(with_si(&opened_with(15), 960), load, 300);
        assert_eq!((sixteenths(&below), sixteenths(&above)), (16 * load - 15, 16 * load));
        assert_eq!([below, above].map(|bytes| i32::from(pair(&bytes, SI))), [load, load]);
    }
}

#[test]
fn the_register_shows_the_ceiling() {
    for (si, shown) in [(0, 0), (1, 1), (15, 1), (16, 1), (17, 2), (319, 20), (320, 20)] {
        assert_eq!(pair(&with_si(&opened(), si), SI), shown);
    }
    let widest = with_si(&opened_with(255), 32 * 510);
    assert_eq!(pair(&widest, SI), 1020);
}

#[test]
fn without_s0_there_is_no_standby_current() {
    let full = after(opened_with(0), 20, 4150, 1192);
    for bytes in [full, loaded(full, 3, 5), loaded(full, 28_011, 2)] {
        assert!(pair(&bytes, 0x0C) > 0);
        assert_eq!((sixteenths(&bytes), pair(&bytes, SI), pair(&bytes, STTE)), (0, 0, 65_535));
    }
    assert_eq!(calls::window(&mut with_si(&full, 1), -3, 3600, 1192), 14);
}
