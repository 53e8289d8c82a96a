//! Which events a rest of more than a day is (paper 02, A6). This only counts: no comparison rests on it.

use crate::counts::Counts;
use crate::rests::{Rest, DAY};
use crate::table::rests::Event;
use crate::table::Part;
use reference::leak::{nac, GREATEST_DRAIN};
use reference::refusal::REST_MAX;

pub fn count(counts: &mut Counts, part: Part, rest: &Rest) {
    let windows = rest.windows;
    let leaks = rest.leak() > 0;
    counts.add_if(part, Event::LongWithoutLeak, !leaks);
    counts.add_if(part, Event::LongOneBeforeStepEnds, rest.is_first_to_lose(windows + 1));
    counts.add_if(part, Event::LongLosesCountAtLast, rest.is_first_to_lose(windows));
    counts.add_if(part, Event::LongOneAfterStepEnds, rest.is_first_to_lose(windows - 1));
    if leaks {
        counts_lost(counts, part, rest);
    }
    run(counts, part, rest, leaks);
}

fn counts_lost(counts: &mut Counts, part: Part, rest: &Rest) {
    let lost = rest.counts_lost();
    let event = match lost {
        0 => Event::LongKeepsNac,
        1 => return,
        2..=999 => Event::LongLosesSeveral,
        1_000..=59_999 => Event::LongLosesMany,
        _ => Event::LongLosesMost,
    };
    counts.add(part, event);
    counts.add_if(part, Event::MonthKeepsNac, lost == 0 && rest.windows == i64::from(REST_MAX));
    counts.add_if(part, Event::LongLosesAll, lost > 1 && nac(rest.after.h) == 0);
}

fn run(counts: &mut Counts, part: Part, rest: &Rest, leaks: bool) {
    let (before, after) = (rest.before.run, rest.after.run);
    counts.add_if(part, Event::LongWithRun, leaks && after.is_some());
    counts.add_if(part, Event::LongWithoutRun, leaks && before.is_none());
    counts.add_if(part, Event::LongToGreatestDrain, after == Some(GREATEST_DRAIN) && before != after);
    if let Some(at) = rest.passes_at() {
        counts.add(part, Event::PassesInLongRest);
        counts.add_if(part, Event::PassesAfterADay, at > i64::from(DAY));
        counts.add_if(part, Event::PassesAtEndOfLongRest, at == rest.windows);
        let within = at < rest.windows && nac(rest.after.h) > 0;
        counts.add_if(part, Event::PassesWithinMonth, within && rest.windows == i64::from(REST_MAX));
    }
}
