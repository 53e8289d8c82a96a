//! Which events a call is. This only counts: no comparison rests on it.

use crate::counts::Counts;
use crate::cycles;
use crate::estimates;
use crate::fields;
use crate::previews;
use crate::rest_counts;
use crate::rests;
use crate::standby;
use crate::table::windows::Event;
use crate::table::{Kind, Part};
use crate::writes;
use reference::configuration::Configuration;
use reference::history::{Call, History};
use reference::leak::{leak, w, GRAINS_PER_COUNT, GRAINS_PER_UNIT, GREATEST_DRAIN};

/// How a gauge stands before or after a call: what the history has, and from the bytes what it does not have.
#[derive(Clone, Copy)]
pub struct Standing {
    pub configuration: Configuration,
    pub h: i64,
    pub lmd: i32,
    pub run: Option<i64>,
    pub mode: u8,
    pub ar: i32,
    pub si_sixteenths: i32,
    pub rest_count: u32,
    pub cycles: i32,
    pub cycle_drain: i64,
}

impl Standing {
    /// The bytes are those of the gauge whose history it is.
    pub fn of(history: &History, bytes: &[u8]) -> Standing {
        Standing {
            configuration: history.configuration,
            h: history.h(),
            lmd: history.l,
            run: history.run,
            mode: history.mode,
            ar: history.ar,
            si_sixteenths: i32::from(fields::si(bytes)),
            rest_count: history.rest_count(),
            cycles: history.cycles,
            cycle_drain: history.cycle_drain,
        }
    }
}

pub fn kind(call: &Call) -> Kind {
    match call {
        Call::Window { .. } => Kind::Window,
        Call::Rest { .. } => Kind::Rest,
        Call::Write { .. } => Kind::Write,
        Call::Read { .. } => Kind::Read,
        Call::Preview { .. } => Kind::Preview,
        Call::Estimate { .. } => Kind::Estimate,
    }
}

/// Counts the events of a call that was not refused.
pub fn count(counts: &mut Counts, part: Part, before: &Standing, after: &Standing, call: &Call) {
    match *call {
        Call::Window { current, voltage, temperature } => {
            window(counts, part, before, current, voltage, temperature);
            standby::count(counts, part, before, after, before.configuration.counted(current));
            rest_counts::window(counts, part, before, current);
            cycles::window(counts, part, before, after, (current, voltage, temperature));
        }
        Call::Rest { windows, temperature } => {
            rests::count(counts, part, before, after, windows, temperature);
            rest_counts::rest(counts, part, before, windows);
            cycles::rest(counts, part, before, after);
        }
        Call::Write { address, value } => writes::write(counts, part, before, address, value),
        Call::Read { address, count, .. } => writes::read(counts, part, before, address, count),
        Call::Preview { key, .. } => {
            previews::count(counts, part, before, key);
            cycles::preview(counts, part, before, key);
        }
        Call::Estimate { voltage } => estimates::count(counts, part, before, voltage),
    }
}

fn window(counts: &mut Counts, part: Part, before: &Standing, a: i32, v: i32, t: i32) {
    let c = before.configuration.counted(a);
    let leaked = leak(before.h, before.configuration.sd(), w(t));
    let h = before.h - leaked + GRAINS_PER_UNIT * i64::from(c);
    counts.add_if(part, Event::WithinDmf, c == 0 && a != 0);
    if c > 0 {
        counts.add_if(part, Event::ChargeEndsRun, before.run.is_some());
        return charging(counts, part, before, c, v, h);
    }
    let drained = before.run.map(|r| r + leaked - GRAINS_PER_UNIT * i64::from(c));
    let passes = matches!(drained, Some(r) if r > GREATEST_DRAIN);
    counts.add_if(part, Event::DrainAtGreatest, drained == Some(GREATEST_DRAIN));
    counts.add_if(part, Event::PassesIdle, passes && c == 0);
    if c < 0 {
        counts.add_if(part, Event::PassesInWindow, passes);
        let low = v <= before.configuration.e1() && v > before.configuration.edvf();
        counts.add_if(part, Event::PassesAtE1, passes && low);
        counts.add_if(part, Event::EmptyStop, h <= 0);
        counts.add_if(part, Event::EmptyStopAtTheGrain, h == 0 && before.h > 0);
        let run = drained.filter(|_| !passes);
        counts.add_if(part, Event::EmptyStopWithRun, h <= 0 && run.is_some() && v > before.configuration.e1());
        discharging(counts, part, before, Discharge { c, v, t, h, run });
    }
}

fn charging(counts: &mut Counts, part: Part, before: &Standing, c: i32, v: i32, h: i64) {
    let missing = i64::from(before.lmd) * GRAINS_PER_COUNT - h;
    let limit = 2 * before.configuration.taper();
    match (missing <= 0, c <= limit && v >= 4_100) {
        (true, true) => counts.add(part, Event::FullByBoth),
        (true, false) => counts.add(part, Event::FullByCharge),
        (false, true) => counts.add(part, Event::FullByTaper),
        (false, false) => {
            counts.add_if(part, Event::TaperMissedByCurrent, c == limit + 1 && v >= 4_100);
            counts.add_if(part, Event::TaperMissedByVoltage, c <= limit && v == 4_099);
            counts.add_if(part, Event::FullMissedByLess, missing < GRAINS_PER_UNIT);
        }
    }
    counts.add_if(part, Event::FullAtTheGrain, missing == 0);
}

/// A discharging window after step 3's sums: the charge before its empty stop, and the run if it has not passed.
struct Discharge {
    c: i32,
    v: i32,
    t: i32,
    h: i64,
    run: Option<i64>,
}

fn discharging(counts: &mut Counts, part: Part, before: &Standing, window: Discharge) {
    let configuration = &before.configuration;
    let warm = window.t >= configuration.cold_limit();
    let heavy = -window.c > configuration.standby_limit();
    if window.v <= configuration.edvf() {
        counts.add(part, Event::EdvfWindow);
        counts.add_if(part, Event::EdvfWindowWithRun, window.run.is_some() && warm && heavy);
        counts.add_if(part, Event::EmptyStopAndEdvf, window.h <= 0);
        return;
    }
    if window.v > configuration.e1() {
        return;
    }
    match (window.run, warm, heavy) {
        (None, _, _) => counts.add(part, Event::E1WithoutRun),
        (Some(_), false, true) => counts.add(part, Event::E1TooCold),
        (Some(_), true, false) => counts.add(part, Event::E1TooLight),
        (Some(_), false, false) => counts.add(part, Event::E1ColdAndLight),
        (Some(r), true, true) => {
            counts.add(part, Event::QualifiedRun);
            counts.add_if(part, Event::EmptyStopAndRun, window.h <= 0);
            counts.add(part, learned(r, before.lmd));
        }
    }
}

fn learned(r: i64, lmd: i32) -> Event {
    let taught = 16 * r / (15 * GRAINS_PER_COUNT);
    if taught > 65_535 {
        Event::LearnedGreatest
    } else if taught < i64::from(lmd - lmd / 8) {
        Event::LearnedEighth
    } else {
        Event::LearnedDrain
    }
}
