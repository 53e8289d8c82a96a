//! A trial while it runs: the gauge on both sides, and the history that its calls give. Everything is compared after every step.

use crate::ageing;
use crate::begun::{Begun, LENT};
use crate::both::Both;
use crate::conversions;
use crate::counts::Counts;
use crate::cycles;
use crate::difference::{same, same_bytes, Difference};
use crate::estimates;
use crate::events::{self, Standing};
use crate::older;
use crate::one_by_one;
use crate::previews;
use crate::rest_counts;
use crate::rests;
use crate::step::Step;
use crate::table::Part;
use crate::trial::Start;
use reference::history::Call;
use reference::refusal::SAVED;

pub struct Running<'a> {
    now: Begun,
    part: Part,
    counts: &'a mut Counts,
}

impl<'a> Running<'a> {
    pub fn begin(start: &Start, part: Part, counts: &'a mut Counts) -> Result<Running<'a>, Difference> {
        let now = Begun::at(start, part, counts)?;
        let running = Running { now, part, counts };
        running.same_standing()?;
        Ok(running)
    }

    /// The bytes as they stand, the same on both sides.
    pub fn saved(self) -> Vec<u8> {
        self.now.both.reference
    }

    pub fn step(&mut self, step: &Step) -> Result<(), Difference> {
        match step {
            Step::Call(call) => self.call(call)?,
            Step::Update { form } => self.update(*form)?,
        }
        self.same_standing()
    }

    /// Makes a call on both sides and on the history, if there is one.
    fn call(&mut self, call: &Call) -> Result<(), Difference> {
        let before = self.standing();
        if let Call::Rest { windows, temperature } = *call {
            self.rest_one_by_one(&before, windows, temperature)?;
        }
        let number = self.now.both.call(call)?;
        self.counts.add_number(self.part, events::kind(call), number);
        if let (Some(history), Some(before)) = (&mut self.now.history, &before) {
            let answer = history.call(call);
            same("number and the history's number", number, answer.err().unwrap_or(0))?;
            conversions::since(self.counts, self.part, &self.now.origin, before, call, answer);
            self.now.origin.follow(history, answer.unwrap_or_default());
        }
        match (number, before, self.standing()) {
            (0, Some(before), Some(after)) => self.count_accepted(&before, &after, call),
            (_, before, _) => self.count_refused(before, call, number),
        }
        Ok(())
    }

    /// Makes a rest on copies of the shipped gauge, at once and one by one.
    fn rest_one_by_one(&mut self, before: &Option<Standing>, windows: u32, temperature: i32) -> Result<(), Difference> {
        if let Some(number) = one_by_one::compare(&self.now.both.shipped, windows, temperature)? {
            rests::one_by_one(self.counts, self.part, windows, number);
            if let (0, Some(before)) = (number, before) {
                rest_counts::one_by_one(self.counts, self.part, before, windows);
            }
        }
        Ok(())
    }

    fn count_accepted(&mut self, before: &Standing, after: &Standing, call: &Call) {
        events::count(self.counts, self.part, before, after, call);
        ageing::count(self.counts, self.part, before.cycles, &self.now.both.reference);
        cycles::since_conversion(self.counts, self.part, &self.now.origin, before, after);
    }

    /// Counts what is told of a refused call beside its number.
    fn count_refused(&mut self, before: Option<Standing>, call: &Call, number: u32) {
        if let Some(before) = &before {
            rest_counts::refused(self.counts, self.part, before, call);
            cycles::refused(self.counts, self.part, before, call);
        }
        let rest_count = before.map(|before| before.rest_count);
        match *call {
            Call::Preview { reply_length, .. } => previews::refused(self.counts, self.part, reply_length, number),
            Call::Rest { windows, .. } => rests::refused(self.counts, self.part, windows, number),
            Call::Estimate { voltage } => estimates::refused(self.counts, self.part, rest_count, voltage, number),
            _ => {}
        }
        if number == SAVED {
            conversions::refused(self.counts, self.part, &self.now.both.reference, call);
        }
    }

    /// The bytes in a form are converted, which gives the bytes again, but for what the form lacks. The history goes on.
    fn update(&mut self, form: u8) -> Result<(), Difference> {
        let before = self.now.both.reference.clone();
        let old = older::re_expressed(form, &before);
        let mut both = Both::new(&LENT);
        let number = both.convert(&old)?;
        conversions::count(self.counts, self.part, &old, &LENT, number);
        if let Some(history) = &mut self.now.history {
            same("number of converting a gauge", number, 0)?;
            let carried_over = older::carried_over(form, &before);
            same_bytes("converted bytes and those before the update", both.shipped.bytes(), &carried_over)?;
            conversions::update(self.counts, self.part, form, history);
            older::forget(form, history);
            self.now.both = both;
            self.now.origin.convert(form, history);
        }
        Ok(())
    }

    fn standing(&self) -> Option<Standing> {
        self.now.history.as_ref().map(|history| Standing::of(history, &self.now.both.reference))
    }

    /// Compares the registers, and what the history says of the gauge.
    fn same_standing(&self) -> Result<(), Difference> {
        self.now.both.same_registers()?;
        match &self.now.history {
            Some(history) => self.now.both.same_history(history),
            None => Ok(()),
        }
    }
}
