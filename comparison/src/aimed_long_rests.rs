//! Rests of more than a day on gauges handed in, aimed at what the charge, the run and the count turn on (paper 02, A6).

use crate::aimed_rests;
use crate::fields::Fields;
use crate::random::Random;
use crate::values;
use reference::gauge::REST_COUNT_MAX;
use reference::history::Call;
use reference::leak::{w, GRAINS_PER_COUNT};
use reference::refusal::{ESTIMATE_REST_MIN, TEMPERATURE_MAX, TEMPERATURE_MIN};

/// The greatest SD, with which a cell leaks most, and the temperature from which it is 1,920 grains a count and window.
const GREATEST_SD: u8 = 15;
const HOTTEST: i64 = 1_332;

pub fn rest(random: &mut Random, fields: &mut Fields) -> Call {
    let (windows, temperature) = match random.below(11) {
        0..=2 => leaves_few(random, fields),
        3 => leaves_none(random, fields),
        4 | 5 => keeps_nac(random, fields),
        6..=8 => beside_a_step(random, fields),
        _ => (values::more_than_a_day(random), values::temperature(random, &fields.meaning())),
    };
    if !random.one_in(3) {
        let rate = fields.meaning().sd() * w(temperature);
        aimed_rests::beside_the_greatest_drain(random, fields, rate, windows);
    }
    if !random.one_in(3) {
        near_the_stop(random, fields, windows);
    }
    Call::Rest { windows: windows as u32, temperature }
}

fn set_sd(fields: &mut Fields, sd: u8) {
    fields.configuration[4] = fields.configuration[4] & 0xF0 | sd;
}

fn hottest(random: &mut Random) -> i32 {
    random.range(HOTTEST, i64::from(TEMPERATURE_MAX)) as i32
}

/// A great charge, of which a month leaves some hundreds of counts.
fn leaves_few(random: &mut Random, fields: &mut Fields) -> (i64, i32) {
    set_sd(fields, GREATEST_SD);
    fields.lmd = 65_535 - random.amount(3_000) as u16;
    fields.set_charge(fields.full_charge() - random.amount(GRAINS_PER_COUNT));
    let windows = if random.one_in(3) { values::some_days(random) } else { values::about_a_month(random) };
    (windows, hottest(random))
}

/// A few counts, of which a month leaves none.
fn leaves_none(random: &mut Random, fields: &mut Fields) -> (i64, i32) {
    set_sd(fields, GREATEST_SD);
    fields.lmd = fields.lmd.max(600);
    fields.set_charge(random.range(2, 500) * GRAINS_PER_COUNT + random.amount(GRAINS_PER_COUNT));
    (values::about_a_month(random), hottest(random))
}

/// One count and nearly another, of which a month takes less than that where SD × W is at most 266.
fn keeps_nac(random: &mut Random, fields: &mut Fields) -> (i64, i32) {
    set_sd(fields, random.range(1, i64::from(GREATEST_SD)) as u8);
    fields.lmd = fields.lmd.max(2);
    fields.set_charge(2 * GRAINS_PER_COUNT - 1 - random.amount(1_000));
    (values::about_a_month(random), random.range(i64::from(TEMPERATURE_MIN), 1_251) as i32)
}

/// A charge above whole counts by what the windows of the rest leak, or by one grain or one window beside that.
fn beside_a_step(random: &mut Random, fields: &mut Fields) -> (i64, i32) {
    set_sd(fields, random.range(1, i64::from(GREATEST_SD)) as u8);
    fields.lmd = fields.lmd.max(2);
    let temperature = values::temperature(random, &fields.meaning());
    let rate = fields.meaning().sd() * w(temperature);
    let windows = values::some_days(random);
    let most = (GRAINS_PER_COUNT - 1) / (windows * rate);
    let nac = random.range(1, most.min(i64::from(fields.lmd) - 1));
    let remainder = windows * nac * rate - random.range(0, 1);
    fields.set_charge(nac * GRAINS_PER_COUNT + remainder.clamp(0, GRAINS_PER_COUNT - 1));
    (windows + random.range(-1, 2), temperature)
}

/// A count that the rest brings to its stop or beside it, to what 32 bits would make less than an estimate asks for, or that stands there.
fn near_the_stop(random: &mut Random, fields: &mut Fields, windows: i64) {
    let stop = i64::from(REST_COUNT_MAX);
    let before = match random.below(6) {
        0..=2 => stop,
        3 => stop - windows + random.range(-1, 1),
        4 => stop - windows + random.range(1, i64::from(ESTIMATE_REST_MIN)),
        _ => stop - random.amount(windows),
    };
    fields.set_rest_count(before as u32);
}
