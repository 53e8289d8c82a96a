//! What a call does to the cycles and their drain (paper 02, A5). This only counts: no comparison rests on it.

use crate::counts::Counts;
use crate::events::Standing;
use crate::origin::Origin;
use crate::table::cycles::Event;
use crate::table::Part;
use reference::command::{self, Command};
use reference::cycles::{discharge, CYCLES_AN_AGE_STEP, CYCLES_MAX, CYCLE_DRAIN_LIMIT};
use reference::history::{Call, History};
use reference::leak::{leak, w, GRAINS_PER_COUNT, GRAINS_PER_UNIT};

fn full_charge(lmd: i32) -> i64 {
    i64::from(lmd) * GRAINS_PER_COUNT
}

/// Counts a gauge that was handed in, by its CYCT and its drain.
pub fn handed_in(counts: &mut Counts, part: Part, history: &History) {
    let (cycles, drain) = (history.cycles, history.cycle_drain);
    counts.add_if(part, Event::HandedInYoung, cycles == 0);
    counts.add_if(part, Event::HandedInBeforeAgeStep, cycles % CYCLES_AN_AGE_STEP == CYCLES_AN_AGE_STEP - 1);
    counts.add_if(part, Event::HandedInAtAgeStep, cycles > 0 && cycles % CYCLES_AN_AGE_STEP == 0);
    counts.add_if(part, Event::HandedInOneCycleLeft, cycles == CYCLES_MAX - 1);
    counts.add_if(part, Event::HandedInNoCycleLeft, cycles == CYCLES_MAX);
    let full = full_charge(history.l);
    counts.add_if(part, Event::HandedInWithoutDrain, drain == 0);
    counts.add_if(part, Event::HandedInDrainBelowLmd, drain == full - 1);
    counts.add_if(part, Event::HandedInDrainOfLmd, drain == full);
    counts.add_if(part, Event::HandedInDrainAboveLmd, drain > full);
    counts.add_if(part, Event::HandedInGreatestDrain, drain == CYCLE_DRAIN_LIMIT - 1);
}

/// Counts a window that was not refused, by the current, voltage and temperature handed in.
pub fn window(counts: &mut Counts, part: Part, before: &Standing, after: &Standing, (a, v, t): (i32, i32, i32)) {
    let c = before.configuration.counted(a);
    let sum = before.cycle_drain + discharge(c);
    let full = full_charge(before.lmd);
    let whole = sum / full;
    counts.add_if(part, Event::CycleMissedByLess, full - sum % full < GRAINS_PER_UNIT);
    counts.add_if(part, Event::CycleMissedByGrain, full - sum % full == 1);
    if whole > 0 {
        counted(counts, part, before, whole, sum % full);
        let event = match c {
            1.. => Event::CycleInCharge,
            0 if a == 0 => Event::CycleInIdle,
            0 => Event::CycleWithinDmf,
            _ => Event::CycleInDischarge,
        };
        counts.add(part, event);
    }
    if after.lmd != before.lmd {
        taught(counts, part, after, sum, whole);
    }
    let leaked = leak(before.h, before.configuration.sd(), w(t));
    counts.add_if(part, Event::DrainWithoutLeak, leaked > 0 && before.run.is_some() && c <= 0);
    if c < 0 {
        counts.add_if(part, Event::DrainBelowEmpty, before.h - leaked < discharge(c));
        counts.add_if(part, Event::DrainFromEmpty, before.h == 0);
        counts.add_if(part, Event::DrainInEdvf, v <= before.configuration.edvf());
        counts.add_if(part, Event::DrainWithoutRun, before.run.is_none());
    }
}

/// Some whole LMD × G leave the drain, and this is left in it.
fn counted(counts: &mut Counts, part: Part, before: &Standing, whole: i64, left: i64) {
    counts.add_if(part, Event::CyclesSeveral, whole > 1);
    counts.add_if(part, Event::CycleAtTheGrain, left == 0);
    counts.add_if(part, Event::CycleWaited, before.cycle_drain >= full_charge(before.lmd));
    let room = i64::from(CYCLES_MAX - before.cycles);
    let event = match whole - room {
        _ if room == 0 => Event::CycleAtStop,
        0 => Event::CycleToStop,
        1.. => Event::CyclePastStop,
        _ => Event::CycleCounted,
    };
    counts.add(part, event);
}

/// A window that taught another LMD, with this sum in the drain and so many cycles counted.
fn taught(counts: &mut Counts, part: Part, after: &Standing, sum: i64, whole: i64) {
    let by_taught = sum / full_charge(after.lmd);
    counts.add_if(part, Event::CycleTeachFewer, whole > by_taught);
    counts.add_if(part, Event::CycleTeachMore, whole < by_taught && whole > 0);
    counts.add_if(part, Event::CycleTeachNone, whole < by_taught && whole == 0);
    counts.add_if(part, Event::LearnedBelowDrain, after.cycle_drain >= full_charge(after.lmd));
}

/// Counts a cycle of a gauge that came from a form without cycles.
pub fn since_conversion(counts: &mut Counts, part: Part, origin: &Origin, before: &Standing, after: &Standing) {
    counts.add_if(part, Event::CycleFromOlder, after.cycles > before.cycles && origin.form < 4);
}

/// Counts a rest that was not refused.
pub fn rest(counts: &mut Counts, part: Part, before: &Standing, after: &Standing) {
    counts.add_if(part, Event::DrainKeptByRest, before.cycle_drain > 0 && after.h < before.h);
    counts.add_if(part, Event::CycleKeptByRest, before.cycle_drain >= full_charge(before.lmd));
}

/// Counts a command that was carried out.
pub fn command(counts: &mut Counts, part: Part, before: &Standing, picked: Command) {
    let (of_cycles, of_drain) = match picked {
        Command::Wrtnac => (Event::CyclesKeptByWrtnac, Event::DrainKeptByWrtnac),
        Command::Done => (Event::CyclesKeptByDone, Event::DrainKeptByDone),
        Command::Prst => (Event::CyclesKeptByPrst, Event::DrainKeptByPrst),
        Command::Frst => (Event::CyclesClearedByFrst, Event::DrainClearedByFrst),
        Command::Wrtlmd => (Event::CyclesKeptByWrtlmd, Event::DrainKeptByWrtlmd),
    };
    counts.add_if(part, of_cycles, before.cycles > 0);
    counts.add_if(part, of_drain, before.cycle_drain > 0);
    let smaller = picked == Command::Wrtlmd && before.cycle_drain < full_charge(before.lmd);
    counts.add_if(part, Event::WrtlmdBelowDrain, smaller && before.cycle_drain >= full_charge(before.ar));
}

/// Counts a preview that was not refused, of a gauge as it stands.
pub fn preview(counts: &mut Counts, part: Part, now: &Standing, key: u8) {
    let picked = command::decide(key, now.mode, now.ar);
    counts.add_if(part, Event::PreviewPrstCycles, picked == Ok(Command::Prst) && now.cycles > 0);
    counts.add_if(part, Event::PreviewFrstCycles, picked == Ok(Command::Frst) && now.cycles > 0);
}

/// Counts a call that was refused by its arguments though the drain has a whole LMD × G.
pub fn refused(counts: &mut Counts, part: Part, before: &Standing, call: &Call) {
    let event = match *call {
        Call::Window { .. } => Event::CycleKeptByRefusedWindow,
        Call::Write { address: command::CTRL, .. } => Event::CycleKeptByRefusedKey,
        _ => return,
    };
    counts.add_if(part, event, before.cycle_drain >= full_charge(before.lmd));
}
