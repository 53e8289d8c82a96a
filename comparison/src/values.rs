//! Configurations and arguments at random, the edges of every rule and range favoured.

use crate::older::FORMER_STOP;
use crate::random::Random;
use crate::rest_steps::steps;
use crate::rests::DAY;
use reference::bench::BENCH_PACK;
use reference::configuration::Configuration;
use reference::cycles::{CYCLES_AN_AGE_STEP, CYCLES_MAX, CYCLE_DRAIN_LIMIT};
use reference::gauge::REST_COUNT_MAX;
use reference::leak::GRAINS_PER_COUNT;
use reference::refusal::{CURRENT_MAX, TEMPERATURE_MAX, TEMPERATURE_MIN, VOLTAGE_MAX, VOLTAGE_MIN};
use reference::refusal::{ESTIMATE_REST_MIN, ESTIMATE_VOLTAGE_MAX, ESTIMATE_VOLTAGE_MIN, REST_MAX};

/// The bench pack, that pack with some bytes changed, extremes, or any bytes. ILMD is never 0.
pub fn configuration(random: &mut Random) -> [u8; 10] {
    let mut bytes = match random.below(8) {
        0 | 1 => BENCH_PACK,
        2 => std::array::from_fn(|_| random.byte()),
        _ => extremes(random),
    };
    if bytes[0] == 0 {
        bytes[0] = random.pick(&[1, 255]);
    }
    bytes
}

/// The bench pack with a few bytes at their least or greatest, or near the thresholds of others.
fn extremes(random: &mut Random) -> [u8; 10] {
    let choices: [&[u8]; 10] = [
        &[1, 2, 4, 40, 254, 255],
        &[0, 69, 94, 150, 255],
        &[0, 70, 119, 160, 255],
        &[0, 1, 5, 100, 255],
        &[0x00, 0xFF, 0xF0, 0x0F, 0x21, 0x2F],
        &[0, 1, 16, 255],
        &[0x00, 0x01, 0x02, 0x03, 0x80, 0x82, 0xFF],
        &[0x00, 0x01, 0x02, 0x03, 0x40, 0xC0, 0xFC, 0xFD, 0xFE, 0xFF],
        &[0x00, 0x6C, 0xF8, 0xFF, 0x07],
        &[0x00, 0x15, 0x07, 0xF8, 0xFF],
    ];
    let mut bytes = BENCH_PACK;
    for (byte, values) in bytes.iter_mut().zip(choices) {
        if random.one_in(3) {
            *byte = random.pick(values);
        } else if random.one_in(8) {
            *byte = random.byte();
        }
    }
    bytes
}

/// A current in range.
pub fn current(random: &mut Random, configuration: &Configuration) -> i32 {
    let amount = match random.below(10) {
        0 => configuration.dmf() + random.range(0, 1) as i32,
        1 => configuration.standby_limit() + random.range(-1, 1) as i32,
        2 => 2 * configuration.taper() + random.range(0, 1) as i32,
        3 => CURRENT_MAX - random.range(0, 1) as i32,
        4 => random.range(0, i64::from(CURRENT_MAX)) as i32,
        _ => random.amount(i64::from(CURRENT_MAX)) as i32,
    };
    let sign = if random.one_in(3) { 1 } else { -1 };
    sign * amount.clamp(0, CURRENT_MAX)
}

/// A voltage in range.
pub fn voltage(random: &mut Random, configuration: &Configuration) -> i32 {
    let near = random.range(-1, 1) as i32;
    let voltage = match random.below(8) {
        0 => configuration.edvf() + near,
        1 => configuration.e1() + near,
        2 => 4_100 + near,
        3 => VOLTAGE_MIN + near,
        4 => VOLTAGE_MAX + near,
        _ => random.range(i64::from(VOLTAGE_MIN), i64::from(VOLTAGE_MAX)) as i32,
    };
    voltage.clamp(VOLTAGE_MIN, VOLTAGE_MAX)
}

/// A temperature in range.
pub fn temperature(random: &mut Random, configuration: &Configuration) -> i32 {
    let temperature = match random.below(6) {
        0 => configuration.cold_limit() - random.range(0, 1) as i32,
        1 => 1_092 + 40 * random.range(0, 6) as i32 - random.range(0, 1) as i32,
        2 => random.pick(&[TEMPERATURE_MIN, TEMPERATURE_MAX]),
        3 => 1_192,
        _ => random.range(i64::from(TEMPERATURE_MIN), i64::from(TEMPERATURE_MAX)) as i32,
    };
    temperature.clamp(TEMPERATURE_MIN, TEMPERATURE_MAX)
}

/// The length of a rest of about a day, which was the greatest before A6.
pub fn about_a_day(random: &mut Random) -> i64 {
    i64::from(DAY) + random.range(-1, 1)
}

/// The length of a rest of a month, the greatest or one window less (paper 02, A6).
pub fn about_a_month(random: &mut Random) -> i64 {
    i64::from(REST_MAX) - random.pick(&[0, 0, 0, 1])
}

/// The length of a rest of more than a day: one window more, 65,536, a month, or a few days, whose windows are not so many.
pub fn more_than_a_day(random: &mut Random) -> i64 {
    match random.below(8) {
        0 => i64::from(DAY) + 1,
        1..=3 => 65_536,
        4 | 5 => about_a_month(random),
        _ => some_days(random),
    }
}

/// The length of a rest of one day to four.
pub fn some_days(random: &mut Random) -> i64 {
    random.range(i64::from(DAY) + 3, 4 * i64::from(DAY))
}

/// The length of a rest from a charge h at a rate SD × W that ends with one of its first steps, or one window beside that; any length
/// where none of them ends in time. At least 1 window, and at most so many.
pub fn rest_length(random: &mut Random, h: i64, rate: i64, at_most: i64) -> i64 {
    let many = random.pick(&[1, 1, 2, 3, 5]);
    let whole = steps(h, rate, at_most).take(many).take_while(|step| step.loses_count);
    match whole.map(|step| step.windows).sum::<i64>() {
        0 => random.range(1, at_most),
        windows => (windows + random.range(-1, 1)).clamp(1, at_most),
    }
}

/// The length of a preview's reply: 128, one byte beside it, or another. In one byte 384 would be 128.
pub fn preview_length(random: &mut Random) -> usize {
    match random.below(8) {
        0 => 127,
        1 => 129,
        2 => random.pick(&[0, 0, 1, 55, 64, 126, 130, 256, 384]),
        _ => 128,
    }
}

/// A count of rest windows: 0, 1, near what an estimate asks for, near the greatest of two bytes, small in its low two bytes, at its
/// stop or near it, or any (paper 02, A4 and A6).
pub fn rest_count(random: &mut Random) -> u32 {
    let (least, stop) = (i64::from(ESTIMATE_REST_MIN), i64::from(REST_COUNT_MAX));
    let two_bytes = i64::from(FORMER_STOP);
    let count = match random.below(12) {
        0 => random.range(0, 1),
        1 => least + random.range(-2, 1),
        2 => two_bytes + random.range(-1, 1),
        3 => (two_bytes + 1) * (1 + random.amount(two_bytes - 1)) + random.pick(&[0, 0, 1, least - 1, least]),
        4 => (two_bytes + 1) * (1 + random.amount(two_bytes - 1)) + random.range(0, least),
        5 => stop - random.range(0, 1),
        6 => stop - random.amount(i64::from(REST_MAX)),
        7 => random.amount(stop),
        8 => random.range(0, stop),
        _ => random.range(0, two_bytes),
    };
    count as u32
}

/// CYCT: none, few, at a step of age or beside one, at its stop or near it, or any (paper 02, A5).
pub fn cyct(random: &mut Random) -> u16 {
    let stop = i64::from(CYCLES_MAX);
    let step = i64::from(CYCLES_AN_AGE_STEP);
    let cyct = match random.below(8) {
        0 => 0,
        1 => stop - random.range(0, 1),
        2 => stop - random.amount(70),
        3 | 4 => step * random.amount(stop / step) + random.range(-1, 1),
        5 => random.range(0, stop),
        _ => random.amount(stop),
    };
    cyct.max(0) as u16
}

/// A cycle drain: none, at LMD × G or several of it or one grain beside that, at its limit or near it, or any (paper 02, A5).
pub fn cycle_drain(random: &mut Random, full_charge: i64) -> i64 {
    let greatest = CYCLE_DRAIN_LIMIT - 1;
    let drain = match random.below(8) {
        0 => 0,
        1 => full_charge + random.range(-1, 1),
        2 => full_charge * random.amount(40) + random.range(-1, 1),
        3 => greatest - random.amount(40 * GRAINS_PER_COUNT),
        4 => random.amount(greatest),
        _ => random.range(0, full_charge - 1),
    };
    drain.clamp(0, greatest)
}

/// The voltage of an estimate: in the table, at one of the points of its rule or between two entries, at its edges, or outside.
pub fn estimate_voltage(random: &mut Random) -> i32 {
    let (least, greatest) = (i64::from(ESTIMATE_VOLTAGE_MIN), i64::from(ESTIMATE_VOLTAGE_MAX));
    let voltage = match random.below(10) {
        0 => least + random.range(-1, 4),
        1 => greatest + random.range(-4, 1),
        2 => random.pick(&[3_400, 3_600, 3_700, 3_800, 3_900, 4_000, 4_100]) + random.range(-4, 4),
        3 => return beyond(random, ESTIMATE_VOLTAGE_MIN, ESTIMATE_VOLTAGE_MAX),
        _ => random.range(least, greatest),
    };
    voltage as i32
}

/// A number beyond a range, by one or by any amount in 32 bits.
pub fn beyond(random: &mut Random, least: i32, greatest: i32) -> i32 {
    loop {
        let number = match random.below(6) {
            0 => greatest + 1,
            1 => least - 1,
            2 => random.pick(&[i32::MIN, i32::MIN + 1, i32::MAX, i32::MAX - 1]),
            // What would be in range if a 16-bit number were made of it.
            3 => (random.pick(&[-1, 1, 2, 16]) << 16) + random.range(i64::from(least), i64::from(greatest)) as i32,
            4 => random.pick(&[0, -1, 1]),
            _ => random.next() as i32,
        };
        if number < least || number > greatest {
            return number;
        }
    }
}
