//! The estimate of a rested cell (paper 02, A4): the table's rule, the estimate, its distance from NAC, and the numbers 15 and 16.

mod common;
use common::*;
use reference::calls;
use reference::estimate::permille;
use reference::gauge::Gauge;

/// What stands in the two numbers before an estimate.
const COUNTS_BEFORE: u16 = 0xEEEE;
const DISTANCE_BEFORE: i32 = -1_234_567;

/// A gauge with a count of rest windows, a learned capacity and a NAC.
fn cell(rest_count: u32, lmd: i32, nac: i64) -> Saved {
    with(|gauge| *gauge = Gauge { rest_count, lmd, h: nac * G, ..*gauge })
}

/// The number, the estimate and the distance.
fn estimated(bytes: &[u8], voltage: i32) -> (u32, u16, i32) {
    let (mut counts, mut distance) = (COUNTS_BEFORE, DISTANCE_BEFORE);
    let number = calls::estimate(bytes, voltage, &mut counts, &mut distance);
    (number, counts, distance)
}

/// Asserts the number, and that nothing is handed out.
fn refuses(bytes: &[u8], voltage: i32, number: u32) {
    assert_eq!(estimated(bytes, voltage), (number, COUNTS_BEFORE, DISTANCE_BEFORE), "{voltage} mV");
}

#[test]
fn the_nine_points() {
    let points =
        [(3000, 0), (3400, 40), (3600, 140), (3700, 350), (3800, 560), (3900, 700), (4000, 830), (4100, 930), (4200, 1000)];
    for (voltage, expected) in points {
        assert_eq!(permille(voltage), expected, "{voltage} mV");
        assert_eq!(estimated(&cell(422, 1000, 0), voltage), (0, expected as u16, expected));
    }
}

/// Each entry times its place counted from 1, as the rows of the definitions have it (`crates/scripted/specs/RuleRows.antt`).
#[test]
fn the_table_as_a_whole() {
    assert_eq!((0..301).map(|k| (k + 1) * permille(3_000 + 4 * k)).sum::<i32>(), 24_732_285);
}

#[test]
fn entries_between_the_points_are_floored() {
    // Each slope of the line, beside both of its points: 0.1, 0.5, 2.1, 2.1, 1.4, 1.3, 1 and 0.7 permille a mV.
    let entries = [
        (3004, 0),   // 0.4
        (3012, 1),   // 1.2
        (3396, 39),  // 39.6
        (3404, 42),  // exact
        (3596, 138), // exact
        (3604, 148), // 148.4
        (3696, 341), // 341.6
        (3704, 358), // 358.4
        (3796, 551), // 551.6
        (3804, 565), // 565.6
        (3896, 694), // 694.4
        (3904, 705), // 705.2
        (3996, 824), // 824.8
        (4004, 834), // exact
        (4096, 926), // exact
        (4104, 932), // 932.8
        (4196, 997), // 997.2
    ];
    for (voltage, expected) in entries {
        assert_eq!(permille(voltage), expected, "{voltage} mV");
    }
}

#[test]
fn a_voltage_between_two_entries_takes_the_lower() {
    for entry in (3000..4200).step_by(4) {
        for voltage in entry + 1..entry + 4 {
            assert_eq!(permille(voltage), permille(entry), "{voltage} mV");
        }
        assert!(permille(entry) <= permille(entry + 4));
    }
    // The line itself would give 998.6 and 999.3 here.
    assert_eq!([4196, 4197, 4198, 4199, 4200].map(permille), [997, 997, 997, 997, 1000]);
    assert_eq!([3699, 3700, 3703, 3704].map(permille), [341, 350, 350, 358]);
}

#[test]
fn it_is_floored_once() {
    // 358 × 1,024 / 1,000 is 366.592; 358.4, the line itself, would give 367.
    assert_eq!(estimated(&cell(422, 1024, 0), 3704), (0, 366, 366));
    // 40 × 24 / 1,000 is below 1, and 40 × 25 / 1,000 is 1.
    assert_eq!(estimated(&cell(422, 24, 0), 3400), (0, 0, 0));
    assert_eq!(estimated(&cell(422, 25, 0), 3400), (0, 1, 1));
    assert_eq!(estimated(&cell(422, 1, 0), 4199), (0, 0, 0));
    assert_eq!(estimated(&cell(422, 1, 0), 4200), (0, 1, 1));
}

#[test]
fn the_distance_has_both_signs() {
    for (nac, distance) in [(349, 1), (350, 0), (351, -1), (0, 350), (1000, -650)] {
        assert_eq!(estimated(&cell(422, 1000, nac), 3700), (0, 350, distance));
    }
    // It is that from NAC, not from h: the grains above a whole count are left out.
    let almost = with(|gauge| *gauge = Gauge { rest_count: 422, lmd: 1000, h: 351 * G - 1, ..*gauge });
    assert_eq!(estimated(&almost, 3700), (0, 350, 0));
}

#[test]
fn the_distance_at_its_extremes_needs_more_than_16_bits() {
    assert_eq!(estimated(&cell(422, 65_535, 65_535), 3000), (0, 0, -65_535));
    assert_eq!(estimated(&cell(422, 65_535, 0), 4200), (0, 65_535, 65_535));
    assert_eq!(estimated(&cell(422, 65_535, 65_535), 4200), (0, 65_535, 0));
}

#[test]
fn number_15_below_422_rest_windows() {
    for rest_count in [0, 1, 420, 421] {
        refuses(&cell(rest_count, 1000, 0), 3700, 15);
    }
    for rest_count in [422, 423, 16_875, 65_534, 65_535, 506_250, 4_294_967_294, 4_294_967_295] {
        assert_eq!(estimated(&cell(rest_count, 1000, 0), 3700), (0, 350, 350));
    }
    // The whole count is asked, not its low bytes (paper 02, A6).
    for rest_count in [65_536, 65_537, 65_536 + 421, 2 * 65_536, 2 * 65_536 + 421, 1 << 24, (1 << 31) + 421, 0xFFFF_0000] {
        assert_eq!(estimated(&cell(rest_count, 1000, 0), 3700), (0, 350, 350), "{rest_count}");
    }
}

#[test]
fn number_16_outside_the_table() {
    for voltage in [2_999, 4_201, 2_600, 4_500, 0, -1, -3_700, 3_700 + 65_536, 3_700 - 65_536, i32::MIN, i32::MAX] {
        refuses(&cell(422, 1000, 0), voltage, 16);
    }
    assert_eq!(estimated(&cell(422, 1000, 7), 3_000), (0, 0, -7));
    assert_eq!(estimated(&cell(422, 1000, 7), 4_200), (0, 1000, 993));
}

#[test]
fn number_14_comes_first_then_15() {
    for voltage in [2_999, 4_201, i32::MIN] {
        refuses(&cell(421, 1000, 0), voltage, 15);
    }
    for (rest_count, voltage) in [(422, 3_700), (0, 3_700), (422, 2_999), (0, 4_201)] {
        refuses(&cell(rest_count, 0, 0), voltage, 14);
        refuses(&cell(rest_count, 1000, 0)[..54], voltage, 14);
    }
}

#[test]
fn the_voltage_of_the_gauge_is_not_the_one_asked_for() {
    for volt in [0, 2_600, 4_200, 4_500] {
        let bytes = with(|gauge| *gauge = Gauge { rest_count: 422, lmd: 1000, volt, ..*gauge });
        assert_eq!(estimated(&bytes, 3700), (0, 350, 350));
    }
}

#[test]
fn setting_nac_by_it_leaves_distance_0() {
    let mut bytes = after_rest(line_three(), 422, 1192);
    let (_, counts, distance) = estimated(&bytes, 3850);
    // 627 permille, of the entry at 3,848 mV, of 1,024.
    assert_eq!((counts, distance), (642, 642 - i32::from(pair(&bytes, 0x0C))));
    let [low, high] = counts.to_le_bytes();
    for (address, value) in [(0x02, low), (0x03, high), (0x01, 0x20), (0x00, 0xA9)] {
        assert_eq!(calls::write(&mut bytes, address, value), 0);
    }
    assert_eq!(estimated(&bytes, 3850), (0, counts, 0));
}
