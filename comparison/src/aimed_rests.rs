//! Rests on gauges handed in, aimed at the grain on which a window loses a count or a run passes (paper 02, A3).

use crate::fields::Fields;
use crate::random::Random;
use crate::rest_steps::steps;
use crate::rests::DAY;
use crate::values;
use reference::history::Call;
use reference::leak::{w, GRAINS_PER_COUNT, GREATEST_DRAIN};
use reference::refusal::TEMPERATURE_MAX;

/// One rest in so many may have as many windows as a day, which take long.
const LONG_EVERY: u64 = 400;

pub fn rest(random: &mut Random, fields: &mut Fields) -> Call {
    let (windows, temperature) = if random.one_in(6) { great_leak(random, fields) } else { beside_a_step(random, fields) };
    if random.one_in(2) {
        let rate = fields.meaning().sd() * w(temperature);
        beside_the_greatest_drain(random, fields, rate, windows);
    }
    Call::Rest { windows: windows as u32, temperature }
}

/// A rest that ends beside a step, most often from a charge that is aimed too. Its windows and the temperature.
fn beside_a_step(random: &mut Random, fields: &mut Fields) -> (i64, i32) {
    let configuration = fields.meaning();
    let temperature = values::temperature(random, &configuration);
    let rate = configuration.sd() * w(temperature);
    let at_most = if random.one_in(LONG_EVERY) { i64::from(DAY) } else { 1 + random.amount(600) };
    if !random.one_in(4) {
        aim_charge(random, fields, rate, at_most);
    }
    (values::rest_length(random, fields.h as i64, rate, at_most), temperature)
}

/// A charge above a whole number of counts by what some windows leak, or by one grain less or more.
fn aim_charge(random: &mut Random, fields: &mut Fields, rate: i64, at_most: i64) {
    let below_full = i64::from(fields.lmd) - 1;
    let nac = match random.below(4) {
        0 => 1,
        1 => 1 + random.amount(below_full),
        _ => random.range(1, below_full),
    };
    let remainder = random.range(0, at_most) * nac * rate + random.range(-1, 1);
    fields.set_charge(nac * GRAINS_PER_COUNT + remainder.clamp(0, GRAINS_PER_COUNT - 1));
}

/// A great charge, a great SD and the hottest band, so that a window loses half a count or more. The windows and the temperature.
fn great_leak(random: &mut Random, fields: &mut Fields) -> (i64, i32) {
    fields.lmd = 65_535 - random.amount(5_000) as u16;
    fields.configuration[4] = fields.configuration[4] & 0xF0 | random.range(9, 15) as u8;
    let nac = i64::from(fields.lmd) - random.range(0, 100);
    fields.set_charge(nac * GRAINS_PER_COUNT + random.amount(GRAINS_PER_COUNT - 1));
    let windows = if random.one_in(20) { random.range(1_000, 2_500) } else { random.range(2, 12) };
    (windows, random.range(1_332, i64::from(TEMPERATURE_MAX)) as i32)
}

/// A run whose drain comes to 65,535 × G, or to one grain beside it, by the end of the rest or on its way.
pub fn beside_the_greatest_drain(random: &mut Random, fields: &mut Fields, rate: i64, windows: i64) {
    let until = if random.one_in(2) { windows } else { random.range(1, windows) };
    let drain: i64 = steps(fields.h as i64, rate, until).map(|step| step.leak * step.windows).sum();
    fields.set_run(GREATEST_DRAIN - drain + random.range(-1, 1));
}
