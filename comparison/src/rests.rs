//! Which events a rest is (paper 02, A3 and A6). This only counts: no comparison rests on it.

use crate::counts::Counts;
use crate::events::Standing;
use crate::long_rests;
use crate::rest_steps::steps;
use crate::table::rests::Event;
use crate::table::Part;
use reference::leak::{nac, w, GRAINS_PER_COUNT, GREATEST_DRAIN};
use reference::refusal::{REST_LENGTH, REST_MAX, SAVED, TEMPERATURE};

/// A day, which was the longest rest before A6.
pub const DAY: u32 = 16_875;

/// A rest that was not refused.
pub struct Rest<'a> {
    pub before: &'a Standing,
    pub after: &'a Standing,
    pub windows: i64,
    /// SD × W.
    rate: i64,
}

impl Rest<'_> {
    /// What its first windows take each, in grains.
    pub fn leak(&self) -> i64 {
        nac(self.before.h) * self.rate
    }

    pub fn counts_lost(&self) -> i64 {
        nac(self.before.h) - nac(self.after.h)
    }

    /// Whether this window, counted from 1, is the first one to lose a count: the first which takes more than is left above whole counts.
    pub fn is_first_to_lose(&self, window: i64) -> bool {
        let (leak, remainder) = (self.leak(), self.before.h % GRAINS_PER_COUNT);
        leak > 0 && (window - 1) * leak <= remainder && remainder < window * leak
    }

    /// The window, counted from 1, in which a run passes, if one does.
    pub fn passes_at(&self) -> Option<i64> {
        let mut drain = self.before.run?;
        let mut window = 0;
        for step in steps(self.before.h, self.rate, self.windows) {
            drain += step.leak * step.windows;
            window += step.windows;
            if drain > GREATEST_DRAIN {
                return Some(window - (drain - GREATEST_DRAIN - 1) / step.leak);
            }
        }
        None
    }
}

/// Counts the events of a rest that was not refused.
pub fn count(counts: &mut Counts, part: Part, before: &Standing, after: &Standing, windows: u32, temperature: i32) {
    counts.add(part, length(windows));
    counts.add_if(part, Event::RestOf65536, windows == 65_536);
    let rate = before.configuration.sd() * w(temperature);
    let rest = Rest { before, after, windows: i64::from(windows), rate };
    counts.add_if(part, Event::RestWithoutSd, rate == 0 && nac(before.h) > 0);
    counts.add_if(part, Event::RestWithoutNac, rate > 0 && nac(before.h) == 0);
    if rest.leak() > 0 {
        first_step(counts, part, &rest);
        counts_lost(counts, part, &rest);
        last_step(counts, part, &rest);
    }
    run(counts, part, &rest);
    if windows > DAY {
        long_rests::count(counts, part, &rest);
    }
}

fn length(windows: u32) -> Event {
    match windows {
        1 => Event::RestOfOne,
        2 => Event::RestOfTwo,
        3..=99 => Event::RestOfFew,
        100..=16_873 => Event::RestOfMany,
        16_874 => Event::RestOneBelowADay,
        16_875 => Event::RestOfADay,
        16_876 => Event::RestOneAboveADay,
        16_877..=506_248 => Event::RestOfDays,
        506_249 => Event::RestOneBelowAMonth,
        _ => Event::RestOfAMonth,
    }
}

/// Where the rest ends by its first step.
fn first_step(counts: &mut Counts, part: Part, rest: &Rest) {
    let windows = rest.windows;
    counts.add_if(part, Event::RestKeepsNac, rest.counts_lost() == 0);
    counts.add_if(part, Event::RestOneBeforeStepEnds, rest.is_first_to_lose(windows + 1));
    counts.add_if(part, Event::RestLosesCountAtLast, windows > 1 && rest.is_first_to_lose(windows));
    counts.add_if(part, Event::RestOneAfterStepEnds, windows > 2 && rest.is_first_to_lose(windows - 1));
    let (leak, remainder) = (rest.leak(), rest.before.h % GRAINS_PER_COUNT);
    let to_the_grain = remainder > 0 && remainder % leak == 0;
    counts.add_if(part, Event::RestThroughWholeCount, to_the_grain && windows > remainder / leak);
}

fn counts_lost(counts: &mut Counts, part: Part, rest: &Rest) {
    let lost = rest.counts_lost();
    counts.add_if(part, Event::RestLosesCountEachWindow, lost == rest.windows && rest.windows > 1);
    counts.add_if(part, Event::RestLosesFewerThanWindows, lost >= 2 && lost < rest.windows);
    counts.add_if(part, Event::RestLosesThousand, lost >= 1_000);
    counts.add_if(part, Event::RestToNacZero, nac(rest.after.h) == 0);
}

/// Where the rest ends by a later step.
fn last_step(counts: &mut Counts, part: Part, rest: &Rest) {
    if let Some((1.., last)) = steps(rest.before.h, rest.rate, rest.windows).enumerate().last() {
        counts.add_if(part, Event::RestEndsWithLaterStep, last.loses_count && last.windows > 1);
        counts.add_if(part, Event::RestOnAtNacZero, last.leak == 0);
    }
}

fn run(counts: &mut Counts, part: Part, rest: &Rest) {
    let (before, after) = (rest.before.run, rest.after.run);
    counts.add_if(part, Event::RestWithRun, before.is_some());
    counts.add_if(part, Event::RestWithoutRun, before.is_none() && rest.after.h < rest.before.h);
    counts.add_if(part, Event::RestToGreatestDrain, after == Some(GREATEST_DRAIN) && before != after);
    if let (Some(_), None) = (before, after) {
        counts.add(part, Event::PassesInRest);
        passes(counts, part, rest);
    }
}

/// In which step of the rest a run passes, by the windows that each of them has.
fn passes(counts: &mut Counts, part: Part, rest: &Rest) {
    let at = rest.passes_at().unwrap_or(0);
    counts.add_if(part, Event::PassesAtEndOfRest, at == rest.windows && rest.windows > 1);
    let mut end = 0;
    for step in steps(rest.before.h, rest.rate, rest.windows) {
        end += step.windows;
        if end >= at {
            counts.add_if(part, Event::PassesWithinStep, end > at);
            counts.add_if(part, Event::PassesBeforeLaterStep, end < rest.windows && nac(rest.after.h) > 0);
            return;
        }
    }
}

/// Counts a rest that was refused with a number.
pub fn refused(counts: &mut Counts, part: Part, windows: u32, number: u32) {
    counts.add_if(part, Event::RestOfNone, number == REST_LENGTH && windows == 0);
    counts.add_if(part, Event::RestOneAboveAMonth, number == REST_LENGTH && windows == REST_MAX + 1);
    let low_bits = windows % (1 << 19);
    counts.add_if(part, Event::RestOfLowBits, number == REST_LENGTH && (1..=REST_MAX).contains(&low_bits));
}

/// Counts a rest that was made beside as many rests of 1 window and yielded this number.
pub fn one_by_one(counts: &mut Counts, part: Part, windows: u32, number: u32) {
    match number {
        0 => {
            counts.add(part, Event::OneByOne);
            counts.add_if(part, Event::OneByOneOfADay, windows == DAY);
            counts.add_if(part, Event::OneByOneOfDays, windows > DAY && windows < REST_MAX);
            counts.add_if(part, Event::OneByOneOfAMonth, windows == REST_MAX);
        }
        TEMPERATURE => counts.add(part, Event::OneByOneTemperature),
        SAVED => counts.add(part, Event::OneByOneSaved),
        _ => {}
    }
}
