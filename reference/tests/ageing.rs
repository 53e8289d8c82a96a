//! The compensation of a cell that has grown old (paper 02, A5): CYCT, GAF and TCGN in DCMP, and the registers that follow it.

mod common;
use common::*;
use reference::compensation::dcmp;
use reference::gauge::{Gauge, CI};

/// ID3, DCOMP and TCOMP of the configuration.
const ID3: usize = 7;
const DCOMP: usize = 8;
const TCOMP: usize = 9;

/// The bench pack at 25 °C with an ID3 and a number of cycles. DCGN is 13, DCOFF 4, ILMD 4 and TCGN 2.
fn old(id3: u8, cyct: i32) -> Gauge {
    gauge(&with(|gauge| {
        gauge.configuration.bytes[ID3] = id3;
        *gauge = Gauge { temp: 1192, cyct, ..*gauge };
    }))
}

#[test]
fn without_age_it_is_the_formula_of_paper_01() {
    // GAF 0 with any number of cycles, and any GAF with fewer than 16.
    for (id3, cyct) in [(0, 0), (0, 65_535), (0xFC, 65_535), (1, 15), (2, 15), (3, 0), (3, 15), (0xFF, 15)] {
        assert_eq!([0, 512, 513, 531, 532, 3000].map(|i| dcmp(&old(id3, cyct), i)), [0, 0, 1, 1, 2, 127]);
    }
}

#[test]
fn the_first_term_ages_and_dcoff_does_not() {
    // GAF 3 and 16 cycles: 32 + 2 × 1 × 3 is 38. (3,000 × 13 × 38 × 128 − 131,072 × 13 × 4 × 4) / 2^20
    // = (189,696,000 − 27,262,976) / 1,048,576 = 154.90.., so 155.
    assert_eq!(dcmp(&old(3, 16), 3000), 155);
    // GAF 1: 34, so (169,728,000 − 27,262,976) / 2^20 = 135.86. GAF 2: 36, so (179,712,000 − 27,262,976) / 2^20 = 145.38..
    assert_eq!([0, 1, 2, 3].map(|gaf| dcmp(&old(gaf, 16), 3000)), [127, 136, 146, 155]);
    // With DCOFF aged too it would be 127 × 38 / 32: 150.
    assert_ne!(dcmp(&old(3, 16), 3000), 150);
}

#[test]
fn gaf_is_the_two_low_bits_of_id3() {
    for id3 in 0..=255 {
        assert_eq!(dcmp(&old(id3, 16), 3000), dcmp(&old(id3 & 3, 16), 3000));
    }
}

#[test]
fn the_quotient_is_whole() {
    // 3,000 × 13 × 128 × 6 / 2^20 is 28.56.. more for each 16 cycles.
    let rows =
        [(15, 127), (16, 155), (31, 155), (32, 184), (47, 184), (48, 213), (65_519, 117_070), (65_520, 117_098), (65_535, 117_098)];
    for (cyct, expected) in rows {
        assert_eq!(dcmp(&old(3, cyct), 3000), expected, "CYCT {cyct}");
    }
}

#[test]
fn one_ceiling_over_the_joined_fraction() {
    // DCGN 1, TCGN 2, GAF 1, 16 cycles: ADCGN is 34 / 32. Rounded by itself it would be 1 or 2.
    // Without DCOFF, I 3,000: 3,000 × 34 × 128 / 2^20 is 12.45.., so 13; by 1 it would be 12, by 2 it would be 24.
    let mut gauge = old(1, 16);
    gauge.configuration.bytes[DCOMP] = 0x08;
    assert_eq!(dcmp(&gauge, 3000), 13);
    // DCOFF 1: less 131,072 × 4 / 2^20, which is 0.5: 11.95.., so 12. A ceiling of its own would leave 13 − 1 or 13.
    gauge.configuration.bytes[DCOMP] = 0x09;
    assert_eq!(dcmp(&gauge, 3000), 12);
    // Exactly whole: I 2^13 with 32 + 2 × 16 is 64: 2^13 × 64 × 128 / 2^20 is 64, and one unit more is 65.
    gauge.configuration.bytes[DCOMP] = 0x08;
    gauge.cyct = 256;
    assert_eq!((dcmp(&gauge, 8192), dcmp(&gauge, 8193)), (64, 65));
}

#[test]
fn tcgn_ages_and_cools() {
    // One quarter kelvin below: (3,000 × 13 × 38 × 130 − 27,262,976) / 2^20 = 157.73..
    let cold = Gauge { temp: 1111, ..old(3, 16) };
    assert_eq!(dcmp(&cold, 3000), 158);
    // TEMP 0 is not measured yet, and the age counts all the same.
    assert_eq!(dcmp(&Gauge { temp: 0, ..old(3, 16) }, 3000), 155);
    // Without TCGN nothing ages.
    let mut steady = old(3, 65_535);
    steady.configuration.bytes[TCOMP] = 0x05;
    assert_eq!(dcmp(&steady, 3000), 127);
}

#[test]
fn the_fixed_dcomp_ages_too() {
    let mut fixed = old(3, 16);
    fixed.configuration.bytes[6] = 0x02;
    fixed.configuration.bytes[DCOMP] = 0x00;
    assert_eq!(dcmp(&fixed, 3000), 155);
    fixed.configuration.bytes[6] = 0x00;
    assert_eq!(dcmp(&fixed, 3000), 0);
}

#[test]
fn at_least_0_and_nothing_without_load() {
    assert_eq!([0, 1, 431, 432].map(|i| dcmp(&old(3, 16), i)), [0, 0, 0, 1]);
    let mut without_dcgn = old(3, 65_535);
    without_dcgn.configuration.bytes[DCOMP] = 0x07;
    assert_eq!(dcmp(&without_dcgn, 65_535), 0);
}

#[test]
fn the_greatest_first_term() {
    // 65,535 × 31 × (32 + 31 × 4,095 × 3) × (128 + 31 × 108) = 2,689,602,566,261,820, with TOFF 7 at −20 °C.
    let mut oldest = old(3, 65_535);
    oldest.configuration.bytes[DCOMP] = 0xF8;
    oldest.configuration.bytes[TCOMP] = 0xFF;
    oldest.temp = 1012;
    let greatest: i64 = 2_689_602_566_261_820;
    assert_eq!(65_535 * 31 * (32 + 31 * 4_095 * 3) * (128 + 31 * 108), greatest);
    assert_eq!(dcmp(&oldest, 65_535), greatest / 1_048_576 + 1);
}

#[test]
fn cac_fcac_tte_and_artte_follow() {
    // NAC 1,000, LMD 1,024, a discharge of 3,000 and AR 3,000: D is 127 young and 155 after 16 cycles with GAF 3.
    let shown = |cyct: i32| {
        let bytes = with(|gauge| {
            gauge.configuration.bytes[ID3] = 3;
            *gauge = Gauge { h: 1000 * G, c: -3000, temp: 1192, ar: 3000, flags: CI, cyct, ..*gauge };
        });
        [0x10, 0x12, 0x16, 0x04].map(|address| pair(&bytes, address))
    };
    assert_eq!(shown(15), [873, 897, 17, 17]);
    assert_eq!(shown(16), [845, 869, 16, 16]);
    // D is 1,012 at a quotient of 31, and 1,041 at 32.
    assert_eq!(shown(16 * 31), [0, 12, 0, 0]);
    assert_eq!(shown(16 * 32), [0, 0, 0, 0]);
    assert_eq!(shown(65_535), [0, 0, 0, 0]);
}

#[test]
fn cycles_counted_by_a_window_are_in_the_registers_after_it() {
    // The window completes the sixteenth cycle: NAC 1,000 less 4.26.. counts, D 155.
    let before = with(|gauge| {
        gauge.configuration.bytes[ID3] = 3;
        *gauge = Gauge { h: 1000 * G, cyct: 15, cycle_drain: 1024 * G - 192_000 * 3000, ..*gauge };
    });
    let next = after(before, -3000, 3600, 1192);
    assert_eq!((pair(&next, 0x2A), pair(&next, 0x0C), pair(&next, 0x10)), (16, 995, 995 - 155));
}
