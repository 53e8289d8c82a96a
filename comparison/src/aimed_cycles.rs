//! Windows and commands on gauges handed in, aimed at the grain that completes a cycle, the stop of CYCT and the age (paper 02, A5).

use crate::ageing;
use crate::fields::Fields;
use crate::gauges;
use crate::random::Random;
use crate::values;
use reference::compensation::dcmp;
use reference::cycles::{discharge, CYCLES_AN_AGE_STEP, CYCLES_MAX};
use reference::forms;
use reference::gauge::Gauge;
use reference::history::Call;
use reference::leak::GRAINS_PER_COUNT;
use reference::refusal::TEMPERATURE_MIN;

/// A look at ARTTE, which leaves everything as it is.
const READ_ARTTE: Call = Call::Read { address: 0x04, count: 2, reply_length: 2, place: 0 };

pub fn calls(random: &mut Random, fields: &mut Fields) -> Vec<Call> {
    match random.below(11) {
        0 | 1 => vec![to_a_cycle(random, fields)],
        2 => vec![to_the_stop(random, fields)],
        3 | 4 => vec![teaches(random, fields)],
        5 => vec![command(random, fields), without_discharge(random, fields)],
        6 | 7 => vec![aged_window(random, fields)],
        8 => vec![aged_rate(random, fields)],
        9 => vec![wide_term(random, fields)],
        _ => vec![greatest_term(random, fields)],
    }
}

fn cyct(fields: &Fields) -> u16 {
    fields.cycles.map_or(0, |cycles| cycles.cyct)
}

/// What the window of a call adds to the drain.
fn discharged(fields: &Fields, current: i32) -> i64 {
    discharge(fields.meaning().counted(current))
}

fn any_window(random: &mut Random, fields: &Fields, current: i32) -> Call {
    let configuration = fields.meaning();
    Call::Window {
        current,
        voltage: values::voltage(random, &configuration),
        temperature: values::temperature(random, &configuration),
    }
}

/// A drain that comes to some whole LMD × G, or to one grain beside that. The current may also be one that adds nothing.
fn to_a_cycle(random: &mut Random, fields: &mut Fields) -> Call {
    if random.one_in(3) {
        fields.lmd = 1 + random.amount(60) as u16;
        fields.set_charge(fields.h as i64);
    }
    let current = values::current(random, &fields.meaning());
    let whole = 1 + random.amount(50);
    let drain = whole * fields.full_charge() - discharged(fields, current) + random.range(-1, 1);
    fields.set_cycles(cyct(fields), drain);
    any_window(random, fields, current)
}

/// A CYCT that comes to its stop with the cycles of the window, or to one beside it, or that stands there already.
fn to_the_stop(random: &mut Random, fields: &mut Fields) -> Call {
    fields.lmd = 1 + random.amount(60) as u16;
    fields.set_charge(fields.h as i64);
    let current = -values::current(random, &fields.meaning()).abs();
    let drain = values::cycle_drain(random, fields.full_charge());
    let whole = (drain + discharged(fields, current)) / fields.full_charge();
    let before = match random.below(4) {
        0 => i64::from(CYCLES_MAX),
        1 => i64::from(CYCLES_MAX) - random.amount(whole),
        _ => i64::from(CYCLES_MAX) - whole + random.range(-1, 1),
    };
    fields.set_cycles(before.clamp(0, i64::from(CYCLES_MAX)) as u16, drain);
    any_window(random, fields, current)
}

/// A window that teaches, with a drain that is whole by the LMD before it and not by the one after, or the other way about.
fn teaches(random: &mut Random, fields: &mut Fields) -> Call {
    let call = gauges::learns(random, fields);
    let added = match call {
        Call::Window { current, .. } => discharged(fields, current),
        _ => 0,
    };
    let full = fields.full_charge();
    let sum = random.pick(&[1, 1, 2, 9]) * full + random.range(-full / 8, full / 8);
    fields.set_cycles(cyct(fields), sum - added);
    call
}

/// A command that makes LMD smaller than the drain, or any.
fn command(random: &mut Random, fields: &mut Fields) -> Call {
    let call = gauges::command(random, fields);
    if !random.one_in(2) {
        return call;
    }
    let drain = values::cycle_drain(random, fields.full_charge());
    fields.set_cycles(cyct(fields), drain);
    fields.ar = (1 + drain / GRAINS_PER_COUNT / random.range(1, 9)).min(65_535) as u16;
    fields.mode = 0x01;
    Call::Write { address: 0x00, value: 0x56 }
}

/// A window that adds nothing: of current 0, within DMF, or charging.
fn without_discharge(random: &mut Random, fields: &Fields) -> Call {
    let configuration = fields.meaning();
    let dmf = configuration.dmf();
    let charge = values::current(random, &configuration).abs();
    let current = random.pick(&[0, dmf, -dmf, dmf + 1, charge]);
    any_window(random, fields, current)
}

/// Coefficients with which a cell ages, and a CYCT at a step of age or beside one. LMD is great enough to show a D of some size.
fn grow_old(random: &mut Random, fields: &mut Fields) {
    if !random.one_in(4) {
        fields.configuration[7] = random.byte();
        fields.configuration[8] = random.byte() | 0x08;
        fields.configuration[9] = (1 + random.amount(30) as u8) << 3 | random.byte() & 0x07;
    }
    if random.one_in(2) {
        fields.lmd = 65_535 - random.amount(64_000) as u16;
    }
    let steps = 1 + random.amount(i64::from(CYCLES_MAX / CYCLES_AN_AGE_STEP) - 1);
    let cyct = i64::from(CYCLES_AN_AGE_STEP) * steps + random.pick(&[-1, 0, 0, 1, 15]);
    fields.set_cycles(cyct.min(i64::from(CYCLES_MAX)) as u16, values::cycle_drain(random, fields.full_charge()));
}

/// The gauge of the fields; none where a reference refuses them, which is found when the trial begins.
fn gauge(fields: &Fields) -> Option<Gauge> {
    forms::load(&fields.bytes()).ok()
}

/// A discharge of an old cell that holds about its D, so that CAC is near 0, or any charge.
fn aged_window(random: &mut Random, fields: &mut Fields) -> Call {
    grow_old(random, fields);
    let current = -values::current(random, &fields.meaning()).abs();
    let call = any_window(random, fields, current);
    match (gauge(fields), call) {
        (Some(gauge), Call::Window { temperature, .. }) if random.one_in(2) => {
            let d = dcmp(&Gauge { temp: temperature, ..gauge }, current.abs());
            fields.set_charge((d + random.range(-1, 1)) * GRAINS_PER_COUNT + discharged(fields, current));
        }
        _ => fields.set_charge(fields.h as i64),
    }
    call
}

/// An AR at which an old cell lasts some time, looked at.
fn aged_rate(random: &mut Random, fields: &mut Fields) -> Call {
    grow_old(random, fields);
    fields.ar = random.amount(65_535) as u16;
    fields.set_charge(fields.h as i64);
    if let Some(gauge) = gauge(fields) {
        let d = dcmp(&gauge, gauge.ar);
        let beyond = random.amount(i64::from(gauge.ar));
        fields.set_charge((d + beyond) * GRAINS_PER_COUNT);
    }
    READ_ARTTE
}

/// The greatest first term that DCMP can have, or one factor beside it.
fn greatest_term(random: &mut Random, fields: &mut Fields) -> Call {
    fields.configuration[7] |= 0x03;
    fields.configuration[8] |= 0xF8;
    fields.configuration[9] = 0xFF;
    fields.temp = (TEMPERATURE_MIN + random.range(0, 1) as i32) as u16;
    fields.ar = 65_535 - random.amount(3) as u16;
    fields.set_cycles(65_535 - random.range(0, 16) as u16, values::cycle_drain(random, fields.full_charge()));
    READ_ARTTE
}

/// A full cell with an AR whose first term is just above a power of two: cut to fewer bits, it would be small and ARTTE show it.
fn wide_term(random: &mut Random, fields: &mut Fields) -> Call {
    greatest_term(random, fields);
    fields.configuration[8] = 0xF8 - 8 * random.amount(3) as u8;
    fields.configuration[9] = 0xFF - 8 * random.amount(3) as u8;
    if random.one_in(2) {
        fields.set_cycles(values::cyct(random), 0);
    }
    fields.lmd = 65_535;
    fields.set_charge(fields.full_charge());
    if let Some(gauge) = gauge(fields) {
        let bits = random.pick(&[32, 32, 40, 48, 51, 51]);
        fields.ar = ((1i64 << bits) / ageing::first_factor(&gauge) + 1).min(65_535) as u16;
    }
    READ_ARTTE
}
