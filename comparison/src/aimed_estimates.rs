//! Estimates on gauges handed in, aimed at the count, the voltage and the charge on which their rules turn (paper 02, A4).

use crate::fields::{self, Fields};
use crate::gauges;
use crate::host;
use crate::older::FORMER_STOP;
use crate::random::Random;
use crate::sweep;
use crate::trial::{Start, Trial};
use crate::values;
use reference::estimate;
use reference::gauge::REST_COUNT_MAX;
use reference::history::Call;
use reference::leak::GRAINS_PER_COUNT;
use reference::refusal::{ESTIMATE_REST_MIN, ESTIMATE_VOLTAGE_MAX, ESTIMATE_VOLTAGE_MIN};

/// An estimate, or a call that counts, keeps or clears and an estimate after it.
pub fn calls(random: &mut Random, fields: &mut Fields) -> Vec<Call> {
    match random.below(6) {
        0 => vec![rest_to_a_limit(random, fields), host::any_estimate(random)],
        1 => {
            fields.set_rest_count(rested(random));
            vec![idle_or_not(random, fields), host::any_estimate(random)]
        }
        2 => {
            fields.set_rest_count(rested(random));
            vec![gauges::command(random, fields), host::any_estimate(random)]
        }
        3 => vec![at_an_extreme(random, fields)],
        _ => vec![beside_nac(random, fields)],
    }
}

/// All entries of the table on one gauge, whose LMD shows every permille.
pub fn sweep(random: &mut Random) -> Trial {
    let mut fields = fields::valid(random);
    fields.lmd = 65_535 - random.amount(64_535) as u16;
    fields.set_charge(fields.h as i64);
    fields.set_rest_count(rested(random));
    let steps = sweep::voltages(random).map(|voltage| Call::Estimate { voltage }.into()).collect();
    Trial { start: Start::Saved { bytes: fields.bytes(), accepted: Some(true) }, steps }
}

/// A count with which an estimate is given.
fn rested(random: &mut Random) -> u32 {
    values::rest_count(random).max(ESTIMATE_REST_MIN)
}

/// A rest that brings the count to what an estimate asks for, to the greatest of two bytes or to its stop, or one window beside that.
/// From its stop on, 32 bits would begin again at 0.
fn rest_to_a_limit(random: &mut Random, fields: &mut Fields) -> Call {
    let windows = 1 + random.amount(60);
    let limit = random.pick(&[ESTIMATE_REST_MIN, FORMER_STOP, REST_COUNT_MAX]);
    let before = i64::from(limit) + random.range(-1, 1) - windows;
    fields.set_rest_count(before as u32);
    Call::Rest { windows: windows as u32, temperature: values::temperature(random, &fields.meaning()) }
}

/// A window with a current of 0, of DMF or one unit more.
fn idle_or_not(random: &mut Random, fields: &Fields) -> Call {
    let configuration = fields.meaning();
    let amount = random.pick(&[0, configuration.dmf(), configuration.dmf() + 1]);
    Call::Window {
        current: random.pick(&[amount, -amount]),
        voltage: values::voltage(random, &configuration),
        temperature: values::temperature(random, &configuration),
    }
}

/// An estimate with the greatest capacity, full or empty, at the first or the last entry.
fn at_an_extreme(random: &mut Random, fields: &mut Fields) -> Call {
    fields.lmd = 65_535 - random.range(0, 1) as u16;
    fields.set_rest_count(rested(random));
    let full = fields.full_charge();
    fields.set_charge(random.pick(&[0, full]));
    Call::Estimate { voltage: random.pick(&[ESTIMATE_VOLTAGE_MIN, ESTIMATE_VOLTAGE_MAX]) + random.range(-1, 1) as i32 }
}

/// An estimate of the charge held, or of one count beside it, to the grain; with an LMD at which it has no remainder, or beside it.
fn beside_nac(random: &mut Random, fields: &mut Fields) -> Call {
    if random.one_in(2) {
        fields.lmd = (1_000 * random.range(1, 65) + random.range(-1, 1)) as u16;
    }
    let rest_count = if random.one_in(2) { values::rest_count(random) } else { rested(random) };
    fields.set_rest_count(rest_count);
    let voltage = values::estimate_voltage(random);
    let in_table = voltage.clamp(ESTIMATE_VOLTAGE_MIN, ESTIMATE_VOLTAGE_MAX);
    let counts = i64::from(estimate::counts(in_table, i32::from(fields.lmd)));
    fields.set_charge((counts + random.range(-1, 1)) * GRAINS_PER_COUNT + random.range(-1, 1));
    Call::Estimate { voltage }
}
