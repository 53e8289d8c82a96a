//! Saves that break one condition of acceptance and keep the others, each held to the conditions of its own form.

use crate::fields::{Cycles, Fields, CHGS, VDQ};
use crate::random::Random;
use crate::table::damage::Event;
use reference::cycles::CYCLE_DRAIN_LIMIT;
use reference::leak::GREATEST_DRAIN;
use reference::saved;

/// Numbers that are no form.
const NO_FORMS: [(u8, Event); 9] = [
    (0, Event::BrokenFormZero),
    (saved::FORM + 1, Event::BrokenFormNext),
    (255, Event::BrokenFormGreatest),
    (saved::FORM + 2, Event::BrokenFormOther),
    (0x81, Event::BrokenFormOther),
    (0x82, Event::BrokenFormOther),
    (0x83, Event::BrokenFormOther),
    (0x84, Event::BrokenFormOther),
    (0x85, Event::BrokenFormOther),
];

/// The least SI whose sixteenths two bytes do not hold: 4,096 × 16 would wrap to 0.
const WRAPS: i64 = 4_096;

pub fn broken(random: &mut Random, fields: &mut Fields) -> Event {
    match random.below(10) {
        0 => {
            let (form, event) = random.pick(&NO_FORMS);
            fields.form = form;
            event
        }
        1 => {
            fields.configuration[0] = 0;
            Event::BrokenIlmd
        }
        2 => {
            fields.lmd = 0;
            fields.h = 0;
            Event::BrokenLmd
        }
        3 => broken_charge(random, fields),
        4 => broken_drain(random, fields),
        5 => broken_current(random, fields),
        6 => broken_measure(random, fields),
        7 => broken_standby(random, fields),
        8 if fields.cycles.is_some() => broken_cycles(random, fields),
        _ => broken_flags(random, fields),
    }
}

fn broken_charge(random: &mut Random, fields: &mut Fields) -> Event {
    if random.one_in(2) {
        fields.h = random.pick(&[1 << 63, u64::MAX, (1 << 63) | fields.h]);
        return Event::BrokenChargeSign;
    }
    fields.h = fields.full_charge() as u64 + 1 + random.amount(1 << 62) as u64;
    Event::BrokenCharge
}

fn broken_drain(random: &mut Random, fields: &mut Fields) -> Event {
    match random.below(3) {
        0 => {
            fields.flags |= VDQ;
            fields.dcr = GREATEST_DRAIN as u64 + 1 + random.amount(1 << 62) as u64;
            Event::BrokenDrain
        }
        1 => {
            fields.flags |= VDQ;
            fields.dcr = random.pick(&[1 << 63, u64::MAX, (1 << 63) | fields.dcr]);
            Event::BrokenDrainSign
        }
        _ => {
            fields.flags &= !VDQ;
            fields.dcr = 1 + random.amount(GREATEST_DRAIN - 1) as u64;
            Event::BrokenRun
        }
    }
}

fn broken_current(random: &mut Random, fields: &mut Fields) -> Event {
    let dmf = i64::from(fields.meaning().dmf());
    let within = dmf > 0 && random.one_in(2);
    let amount = if within {
        if random.one_in(2) {
            dmf
        } else {
            random.range(1, dmf)
        }
    } else {
        28_012 + random.amount(32_767 - 28_012)
    };
    fields.c = if random.one_in(2) { amount as i16 } else { -amount as i16 };
    fields.flags = fields.flags & !CHGS | if fields.c > 0 { CHGS } else { 0 };
    if within {
        Event::BrokenDmf
    } else {
        Event::BrokenCurrent
    }
}

fn broken_measure(random: &mut Random, fields: &mut Fields) -> Event {
    if random.one_in(2) {
        fields.volt = random.pick(&[1, 2_599, 4_501, 65_535, 2_600 | 0x8000]);
        Event::BrokenVolt
    } else {
        fields.temp = random.pick(&[1, 1_011, 1_373, 65_535, 1_192 | 0x8000]);
        Event::BrokenTemp
    }
}

/// SI above what the form accepts: by one, by any amount, or so that sixteenths in two bytes would wrap into what is accepted.
fn broken_standby(random: &mut Random, fields: &mut Fields) -> Event {
    let greatest = i64::from(fields.greatest_si());
    let more = random.pick(&[0, greatest, greatest + 1]);
    let si = match random.below(4) {
        0 => greatest + 1,
        1 if fields.form == 1 => WRAPS * random.range(1, 15) + more,
        2 if fields.form == 1 => WRAPS * random.pick(&[1, 2, 15]) + random.range(0, greatest),
        _ => greatest + 1 + random.amount(65_534 - greatest),
    };
    fields.si = si as u16;
    let wide = fields.form == 1 && si >= WRAPS;
    match si {
        _ if si == greatest + 1 => Event::BrokenSiByOne,
        _ if wide && si % WRAPS <= greatest => Event::BrokenSiWrapped,
        _ if wide => Event::BrokenSiWide,
        _ => Event::BrokenSi,
    }
}

/// A cycle drain at its limit or above it (paper 02, A5). Every CYCT is accepted.
fn broken_cycles(random: &mut Random, fields: &mut Fields) -> Event {
    let Cycles { cyct, drain } = fields.cycles.unwrap_or_default();
    let limit = CYCLE_DRAIN_LIMIT as u64;
    let (drain, event) = match random.below(4) {
        0 => (limit, Event::BrokenCyclesAtLimit),
        1 => (random.pick(&[1 << 63, u64::MAX, (1 << 63) | drain]), Event::BrokenCyclesSign),
        // The least such bit alone is above the limit.
        2 => (drain | 1 << random.range(44, 62), Event::BrokenCyclesHigh),
        _ => (limit + 1 + random.amount(1 << 62) as u64, Event::BrokenCycles),
    };
    fields.cycles = Some(Cycles { cyct, drain });
    event
}

fn broken_flags(random: &mut Random, fields: &mut Fields) -> Event {
    if random.one_in(2) {
        fields.flags ^= CHGS;
        return Event::BrokenChgs;
    }
    fields.flags |= random.pick(&[0x40, 0x20, 0x08, 0x68]);
    Event::BrokenFlags
}
