//! What a call does to the count of rest windows (paper 02, A4 and A6). This only counts: no comparison rests on it.

use crate::counts::Counts;
use crate::events::Standing;
use crate::older::FORMER_STOP;
use crate::table::rest_counts::Event;
use crate::table::Part;
use reference::command::{Command, CTRL};
use reference::gauge::REST_COUNT_MAX;
use reference::history::Call;
use reference::refusal::{ESTIMATE_REST_MIN, REST_MAX};

/// The count from which four bytes are needed.
const WIDE: u32 = FORMER_STOP + 1;

/// Counts a gauge that was handed in, by its count.
pub fn handed_in(counts: &mut Counts, part: Part, rest_count: u32) {
    let low_bytes = rest_count % WIDE;
    let event = match rest_count {
        0 => Event::HandedInNone,
        1 => Event::HandedInOne,
        420 => Event::HandedIn420,
        421 => Event::HandedIn421,
        422 => Event::HandedIn422,
        423 => Event::HandedIn423,
        65_534 => Event::HandedIn65534,
        65_535 => Event::HandedIn65535,
        _ if rest_count < WIDE => Event::HandedInTwoBytes,
        65_536 => Event::HandedIn65536,
        4_294_967_294 => Event::HandedInOneBelowStop,
        4_294_967_295 => Event::HandedInStop,
        _ if low_bytes == 0 => Event::HandedInMultiple,
        _ if low_bytes < ESTIMATE_REST_MIN => Event::HandedInLowBytes,
        _ => Event::HandedInFourBytes,
    };
    counts.add(part, event);
}

/// Counts a window that was not refused, by the current handed in.
pub fn window(counts: &mut Counts, part: Part, before: &Standing, a: i32) {
    let (event, of_wide) = match before.configuration.counted(a) {
        1.. => (Event::CountClearedByCharge, Event::WideClearedByWindow),
        0 if a == 0 => (Event::CountKeptByIdle, Event::WideKeptByWindow),
        0 => (Event::CountKeptWithinDmf, Event::WideKeptByWindow),
        _ => (Event::CountClearedByDischarge, Event::WideClearedByWindow),
    };
    counts.add_if(part, event, before.rest_count > 0);
    counts.add_if(part, of_wide, before.rest_count >= WIDE);
}

/// Counts a rest that was not refused.
pub fn rest(counts: &mut Counts, part: Part, before: &Standing, windows: u32) {
    let count = before.rest_count;
    let sum = u64::from(count) + u64::from(windows);
    let brings_to = |least: u32| count < least && sum >= u64::from(least);
    counts.add_if(part, Event::CountToEstimate, brings_to(ESTIMATE_REST_MIN));
    counts.add_if(part, Event::CountTo65535, sum == u64::from(FORMER_STOP));
    counts.add_if(part, Event::CountTo65536, sum == u64::from(WIDE));
    counts.add_if(part, Event::CountPast65535, brings_to(WIDE));
    counts.add_if(part, Event::CountFrom65535, count == FORMER_STOP);
    counts.add_if(part, Event::CountAbove65535, count >= WIDE);
    at_the_stop(counts, part, count, sum, windows);
}

/// A rest that brings the count to its stop, or beside it, by the sum of both.
fn at_the_stop(counts: &mut Counts, part: Part, count: u32, sum: u64, windows: u32) {
    let stop = u64::from(REST_COUNT_MAX);
    let stands = count == REST_COUNT_MAX;
    counts.add_if(part, Event::CountOneBelowStop, sum == stop - 1);
    counts.add_if(part, Event::CountToStop, sum == stop);
    counts.add_if(part, Event::CountPastStop, sum > stop && !stands);
    counts.add_if(part, Event::CountTo2To32, sum == stop + 1 && !stands);
    counts.add_if(part, Event::CountIn32Bits, sum > stop && (sum as u32) < ESTIMATE_REST_MIN);
    counts.add_if(part, Event::CountOnAtStop, stands);
    counts.add_if(part, Event::CountOfMonthAtStop, stands && windows == REST_MAX);
}

/// Counts a rest that was made beside as many rests of 1 window.
pub fn one_by_one(counts: &mut Counts, part: Part, before: &Standing, windows: u32) {
    let passes = |stop: u32| before.rest_count < stop && u64::from(before.rest_count) + u64::from(windows) > u64::from(stop);
    counts.add_if(part, Event::OneByOnePast65535, passes(FORMER_STOP));
    counts.add_if(part, Event::OneByOnePastStop, passes(REST_COUNT_MAX));
}

/// Counts a command that was carried out.
pub fn command(counts: &mut Counts, part: Part, before: &Standing, picked: Command) {
    let (event, of_wide) = match picked {
        Command::Wrtnac => (Event::CountKeptByWrtnac, Event::WideKeptBySetting),
        Command::Done => (Event::CountKeptByDone, Event::WideKeptBySetting),
        Command::Prst => (Event::CountClearedByPrst, Event::WideClearedByPrst),
        Command::Frst => (Event::CountClearedByFrst, Event::WideClearedByFrst),
        Command::Wrtlmd => (Event::CountKeptByWrtlmd, Event::WideKeptBySetting),
    };
    counts.add_if(part, event, before.rest_count > 0);
    counts.add_if(part, of_wide, before.rest_count >= WIDE);
}

/// Counts a call that was refused by its arguments and could have moved the count.
pub fn refused(counts: &mut Counts, part: Part, before: &Standing, call: &Call) {
    let event = match *call {
        Call::Window { .. } => Event::CountKeptByRefusedWindow,
        Call::Rest { .. } => Event::CountKeptByRefusedRest,
        Call::Write { address: CTRL, .. } => Event::CountKeptByRefusedKey,
        _ => return,
    };
    counts.add_if(part, event, before.rest_count > 0);
    counts.add_if(part, Event::WideKeptByRefused, before.rest_count >= WIDE);
}
