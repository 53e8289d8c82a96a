//! The register map and the worked-out registers at their edges.

mod common;
use common::*;
use reference::bench::BENCH_PACK;
use reference::calls;
use reference::compensation::dcmp;
use reference::gauge::{Gauge, CHGS, CI};
use reference::registers;

#[test]
fn the_map_after_line_three() {
    let shown = registers::all(&gauge(&line_three()));
    let pairs = [
        (0x02, 0),
        (0x04, 65_535),
        (0x06, 1192),
        (0x08, 3600),
        (0x0C, 1019),
        (0x0E, 1024),
        (0x10, 892),
        (0x12, 897),
        (0x14, 3000),
        (0x16, 17),
        (0x18, 65_535),
        (0x1A, 10),
        (0x1C, 6114),
        (0x1E, 0),
        (0x20, 3000),
        (0x22, 0),
    ];
    for (address, value) in pairs {
        assert_eq!(u16::from_le_bytes([shown[address], shown[address + 1]]), value, "at {address:#04x}");
    }
    assert_eq!((shown[0x00], shown[0x01], shown[0x0A], shown[0x0B]), (0, 0x40, 20, 99));
    assert!(shown[0x22..0x76].iter().all(|&byte| byte == 0));
    assert_eq!(shown[0x76..], BENCH_PACK);
}

#[test]
fn cyct_stands_at_0x2a() {
    // Paper 02, A5. The drain is shown nowhere.
    let shown = |cyct, cycle_drain| registers::all(&gauge(&with(|gauge| *gauge = Gauge { cyct, cycle_drain, ..*gauge })));
    let cycles = shown(0xABCD, 0);
    assert_eq!((cycles[0x2A], cycles[0x2B]), (0xCD, 0xAB));
    assert!(cycles[0x22..0x2A].iter().chain(&cycles[0x2C..0x76]).all(|&byte| byte == 0));
    assert_eq!(shown(0xABCD, 65_535 * G - 1), cycles);
    // At rest and with AR 0 they move no other register.
    assert_eq!((&cycles[..0x2A], &cycles[0x2C..]), (&shown(0, 0)[..0x2A], &shown(0, 0)[0x2C..]));
}

#[test]
fn every_part_is_a_part_of_the_whole() {
    let mut bytes = line_three();
    bytes[45..47].copy_from_slice(&[0xCD, 0xAB]);
    let shown = registers::all(&gauge(&bytes));
    for address in 0..128usize {
        for count in 1..=128 - address {
            let mut reply = [0xEE; 130];
            assert_eq!(calls::read(&bytes, address as u32, count as u32, &mut reply, 1), 0);
            assert_eq!(reply[1..1 + count], shown[address..address + count]);
            assert_eq!((reply[0], reply[1 + count]), (0xEE, 0xEE));
        }
    }
}

#[test]
fn compensation_is_the_ceiling_and_at_least_0() {
    // At 25 °C: 13 × (I × 128 − 65,536) / 32,768.
    let warm = gauge(&with(|gauge| gauge.temp = 1192));
    assert_eq!([0, 512, 513, 531, 532].map(|i| dcmp(&warm, i)), [0, 0, 1, 1, 2]);
    let limit = gauge(&with(|gauge| gauge.temp = 1112));
    let cold = gauge(&with(|gauge| gauge.temp = 1111));
    // One quarter kelvin below: 13 × (I × 130 − 65,536) / 32,768.
    assert_eq!((dcmp(&limit, 3000), dcmp(&cold, 3000)), (127, 129));
    let unmeasured = gauge(&opened());
    assert_eq!(dcmp(&unmeasured, 3000), 127);
}

#[test]
fn pkcfg_bit_1_fixes_dcomp_and_the_register_still_shows_the_byte() {
    for (pkcfg, expected) in [(0x00, 0), (0x01, 0), (0x02, 127)] {
        let fixed = with(|gauge| {
            gauge.configuration.bytes[6] = pkcfg;
            gauge.configuration.bytes[8] = 0x00;
        });
        assert_eq!(dcmp(&gauge(&fixed), 3000), expected);
        assert_eq!(registers::all(&gauge(&fixed))[0x7E], 0x00);
    }
}

#[test]
fn times_stop_at_65535_and_need_their_direction() {
    let held = |c: i32, si_sixteenths: i32, ar: i32| {
        with(|gauge| {
            gauge.h = 1000 * G;
            gauge.c = c;
            gauge.si_sixteenths = si_sixteenths;
            gauge.ar = ar;
            gauge.flags = if c > 0 { CI | CHGS } else { CI };
        })
    };
    // STTE divides by the SI shown: 0, 1, 1, 2, 20.
    assert_eq!([0, 1, 16, 17, 320].map(|si| pair(&held(0, si, 0), 0x1C)), [65_535, 60_000, 60_000, 30_000, 3000]);
    assert_eq!([0, 1, 7].map(|ar| pair(&held(0, 0, ar), 0x04)), [65_535, 60_000, 8571]);
    assert_eq!([-3, 0, 3].map(|c| pair(&held(c, 0, 0), 0x16)), [20_000, 65_535, 65_535]);
    assert_eq!([-3, 0, 7].map(|c| pair(&held(c, 0, 0), 0x18)), [65_535, 65_535, 308]);
    let longest = with(|gauge| gauge.h = 1024 * G);
    let over = with(|gauge| {
        gauge.lmd = 1093;
        gauge.h = 1093 * G;
        gauge.si_sixteenths = 1;
    });
    assert_eq!((pair(&longest, 0x1C), pair(&over, 0x1C)), (6144, 65_535));
    assert_eq!(pair(&held(0, 0, 65_535), 0x04), 0);
}

#[test]
fn rsoc_is_floored() {
    for (h, percent) in [(1024 * G, 100), (1024 * G - 1, 99), (11 * G, 1), (11 * G - 1, 0), (0, 0)] {
        assert_eq!(registers::all(&gauge(&with(|gauge| gauge.h = h)))[0x0B], percent);
    }
}
