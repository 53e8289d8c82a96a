//! Trials on gauges handed in, many of them aimed at the grain on which a rule turns.

use crate::aimed_cycles;
use crate::aimed_estimates;
use crate::aimed_long_rests;
use crate::aimed_rests;
use crate::fields::{self, Fields};
use crate::host;
use crate::lists;
use crate::older;
use crate::random::Random;
use crate::step::Step;
use crate::trial::{Start, Trial};
use crate::values;
use reference::configuration::Configuration;
use reference::history::Call;
use reference::leak::{leak, w, GRAINS_PER_COUNT, GRAINS_PER_UNIT, GREATEST_DRAIN};
use reference::refusal::VOLTAGE_MIN;

/// Grains that teach one count: 15 × G / 16.
const GRAINS_TAUGHT: i64 = 15 * GRAINS_PER_COUNT / 16;

/// One trial in so many is a whole list, which goes on from any gauge.
const LIST_EVERY: u64 = 400;

/// One trial in so many is a sweep over all entries of the estimate's table.
const SWEEP_EVERY: u64 = 4_000;

/// One trial in so many has a rest of more than a day, whose windows are many.
const LONG_REST_EVERY: u64 = 1_400;

pub fn trial(random: &mut Random) -> Trial {
    if random.one_in(LIST_EVERY) {
        return lists::begun(Random::new(random.next()));
    }
    if random.one_in(SWEEP_EVERY) {
        return aimed_estimates::sweep(random);
    }
    let mut fields = fields::valid(random);
    let mut steps: Vec<Step> = first_calls(random, &mut fields).into_iter().map(Step::from).collect();
    for _ in 0..random.below(4) {
        steps.push(any_call(random, &fields.meaning()).into());
    }
    Trial { start: start(random, &fields), steps }
}

/// The gauge as saved bytes, or converted, from an older form, which loses what that form lacks, or from the newest.
fn start(random: &mut Random, fields: &Fields) -> Start {
    match random.below(10) {
        form @ 1..=5 => Start::converted(older::in_form(form as u8, fields).bytes()),
        _ => Start::Saved { bytes: fields.bytes(), accepted: Some(true) },
    }
}

fn first_calls(random: &mut Random, fields: &mut Fields) -> Vec<Call> {
    if random.one_in(LONG_REST_EVERY) {
        return vec![aimed_long_rests::rest(random, fields), host::any_estimate(random)];
    }
    if random.one_in(6) {
        return aimed_estimates::calls(random, fields);
    }
    if random.one_in(4) {
        return aimed_cycles::calls(random, fields);
    }
    let call = match random.below(10) {
        0 => full(random, fields),
        1 => empty(random, fields),
        2 => passes(random, fields),
        3 => learns(random, fields),
        4 => aimed_rests::rest(random, fields),
        5 => settles(random, fields),
        6 | 7 => command(random, fields),
        _ => any_call(random, &fields.meaning()),
    };
    vec![call]
}

/// Any call on a gauge, in range or not.
pub fn any_call(random: &mut Random, configuration: &Configuration) -> Call {
    match random.below(10) {
        0 => host::any_read(random),
        1 => host::any_write(random),
        2 => host::out_of_range(random, configuration),
        3 => host::any_preview(random),
        4 => host::any_estimate(random),
        5 => {
            let windows = match random.below(60) {
                0 => values::about_a_day(random) as u32,
                1 => random.range(1, 2_000) as u32,
                _ => random.range(1, 6) as u32,
            };
            Call::Rest { windows, temperature: values::temperature(random, configuration) }
        }
        _ => Call::Window {
            current: values::current(random, configuration),
            voltage: values::voltage(random, configuration),
            temperature: values::temperature(random, configuration),
        },
    }
}

/// The leak of the next window at t.
fn leaked(fields: &Fields, t: i32) -> i64 {
    leak(fields.h as i64, fields.meaning().sd(), w(t))
}

/// A charge that is this many grains after the leak of a window at t, where there is one.
fn before_leak(fields: &mut Fields, t: i32, grains: i64) {
    fields.set_charge(grains);
    for _ in 0..2 {
        let again = grains + leaked(fields, t);
        fields.set_charge(again);
    }
}

/// A charge to LMD × G, or one grain beside it.
fn full(random: &mut Random, fields: &mut Fields) -> Call {
    let configuration = fields.meaning();
    let current = values::current(random, &configuration).abs();
    let temperature = values::temperature(random, &configuration);
    let c = i64::from(configuration.counted(current));
    let target = fields.full_charge() - GRAINS_PER_UNIT * c + random.range(-1, 1);
    before_leak(fields, temperature, target);
    let voltage = values::voltage(random, &configuration);
    Call::Window { current, voltage, temperature }
}

/// A discharge to 0 grains, or one grain beside it.
fn empty(random: &mut Random, fields: &mut Fields) -> Call {
    let configuration = fields.meaning();
    let current = -values::current(random, &configuration).abs();
    let temperature = values::temperature(random, &configuration);
    let c = i64::from(configuration.counted(current));
    before_leak(fields, temperature, -GRAINS_PER_UNIT * c + random.range(-1, 1));
    let voltage = values::voltage(random, &configuration);
    Call::Window { current, voltage, temperature }
}

/// A drain to 65,535 × G, or one grain beside it.
fn passes(random: &mut Random, fields: &mut Fields) -> Call {
    let configuration = fields.meaning();
    let current = -values::current(random, &configuration).abs();
    let temperature = values::temperature(random, &configuration);
    let c = i64::from(configuration.counted(current));
    let before = GREATEST_DRAIN - leaked(fields, temperature) + GRAINS_PER_UNIT * c;
    fields.set_run(before + random.range(-1, 1));
    let voltage = values::voltage(random, &configuration);
    Call::Window { current, voltage, temperature }
}

/// A window at E1 whose run teaches a whole number of counts, or one grain beside it.
pub fn learns(random: &mut Random, fields: &mut Fields) -> Call {
    let configuration = fields.meaning();
    let heavy = random.range(-1, 20) + random.amount(27_000);
    let current = -(i64::from(configuration.standby_limit()) + heavy).clamp(1, 28_011) as i32;
    let cold = configuration.cold_limit();
    let temperature = cold - 1 + random.amount(i64::from(1_373 - cold)) as i32;
    let old = i64::from(fields.lmd);
    let taught = match random.below(4) {
        0 => old - old / 8,
        1 => random.pick(&[65_534, 65_535, 65_536]),
        2 => old,
        _ => random.amount(65_535),
    };
    let c = i64::from(configuration.counted(current));
    let before = taught * GRAINS_TAUGHT - leaked(fields, temperature) + GRAINS_PER_UNIT * c;
    fields.set_run(before + random.range(-1, 1));
    let voltage = configuration.e1() - random.amount(40) as i32;
    Call::Window { current, voltage: voltage.max(VOLTAGE_MIN), temperature }
}

/// A light load at which the standby current has settled, or is one sixteenth beside that.
fn settles(random: &mut Random, fields: &mut Fields) -> Call {
    let configuration = fields.meaning();
    let limit = i64::from(configuration.standby_limit());
    let load = if random.one_in(3) { limit } else { random.range(1, limit) };
    let si = 16 * load + random.pick(&[-16, -15, -14, -1, 0, 1]);
    fields.si = si.clamp(0, i64::from(fields.greatest_si())) as u16;
    let voltage = values::voltage(random, &configuration);
    Call::Window { current: -load as i32, voltage, temperature: values::temperature(random, &configuration) }
}

/// A key at CTRL, written or previewed, with an AR near LMD or NAC.
pub fn command(random: &mut Random, fields: &mut Fields) -> Call {
    let nac = (fields.h as i64 / GRAINS_PER_COUNT) as u16;
    let near = random.pick(&[fields.lmd, nac, 0, 1, 65_535]);
    fields.ar = near.wrapping_add(random.pick(&[0, 1, 65_535]));
    fields.mode = random.pick(&[0x20, 0x10, 0x08, 0x02, 0x01, 0x00]) | random.pick(&[0, 0, 0xC4, 0x04]);
    if random.one_in(4) {
        fields.mode = random.byte();
    }
    let key = random.pick(&[0xA9, 0xA9, 0x56, 0x56, 0x57]);
    if random.one_in(2) {
        Call::Preview { key, reply_length: values::preview_length(random) }
    } else {
        Call::Write { address: 0x00, value: key }
    }
}
