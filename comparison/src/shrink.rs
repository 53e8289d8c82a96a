//! Makes a failing trial shorter and its arguments simpler, as long as it still fails.

use crate::counts::Counts;
use crate::simplest;
use crate::step::Step;
use crate::table::Part;
use crate::trial::{Failure, Trial};
use reference::history::Call;
use reference::refusal::REST_MAX;

/// So many calls may be made in the search. A long trial then ends it with what was found until there.
const CALLS_IN_SEARCH: u64 = 10_000_000;

/// So many windows of a rest take about as long as a call.
const WINDOWS_OF_A_CALL: u64 = 100;

/// The arguments of a call, at most.
const ARGUMENTS: usize = 4;

/// The shortest trial found that still differs. Each pass can make way for another, so they are repeated until none helps.
pub fn shrink(trial: &Trial) -> Trial {
    let mut search = Search { calls_left: CALLS_IN_SEARCH };
    let mut best = trial.clone();
    loop {
        let mut smaller = search.drop_steps(&best);
        search.simplify_start(&mut smaller);
        search.simplify_together(&mut smaller);
        search.simplify_calls(&mut smaller);
        if smaller.text() == best.text() {
            return best;
        }
        best = smaller;
    }
}

struct Search {
    calls_left: u64,
}

impl Search {
    /// The trial's difference, if it has one and the search may still make its calls.
    fn failure(&mut self, trial: &Trial) -> Option<Failure> {
        let calls: u64 = trial.steps.iter().map(calls_of).sum();
        self.calls_left = self.calls_left.checked_sub(calls + 1)?;
        trial.run(Part::Lists, &mut Counts::new()).err()
    }

    fn fails(&mut self, trial: &Trial) -> bool {
        self.failure(trial).is_some()
    }

    /// Leaves out what follows the difference, then stretches of steps, long ones first.
    fn drop_steps(&mut self, trial: &Trial) -> Trial {
        let mut best = self.cut(trial);
        let mut stretch = best.steps.len();
        while stretch > 0 {
            let mut at = 0;
            while at < best.steps.len() {
                let mut candidate = best.clone();
                let end = (at + stretch).min(candidate.steps.len());
                candidate.steps.drain(at..end);
                if self.fails(&candidate) {
                    best = self.cut(&candidate);
                } else {
                    at += stretch;
                }
            }
            stretch /= 2;
        }
        best
    }

    /// The trial up to its difference.
    fn cut(&mut self, trial: &Trial) -> Trial {
        let mut cut = trial.clone();
        if let Some(failure) = self.failure(trial) {
            cut.steps.truncate(failure.steps);
        }
        cut
    }

    /// Tries simpler ways to start, then brings the bytes of the start towards those of the bench pack, one after the other.
    fn simplify_start(&mut self, trial: &mut Trial) {
        let unclaimed = Trial { start: simplest::unclaimed(&trial.start), steps: trial.steps.clone() };
        if !self.fails(&unclaimed) {
            return;
        }
        *trial = unclaimed;
        for start in simplest::other_starts(&trial.start) {
            self.take_if_fails(trial, Trial { start, steps: trial.steps.clone() });
        }
        for at in 0..simplest::bytes(&trial.start).len() {
            let mut candidate = trial.clone();
            if simplest::simplify(&mut candidate.start, at) {
                self.take_if_fails(trial, candidate);
            }
        }
    }

    fn take_if_fails(&mut self, trial: &mut Trial, candidate: Trial) {
        if self.fails(&candidate) {
            *trial = candidate;
        }
    }

    /// Tries the simplest value of an argument in all calls but the last at once, as long trials have many alike.
    fn simplify_together(&mut self, trial: &mut Trial) {
        for field in 0..ARGUMENTS {
            let mut candidate = trial.clone();
            let many = candidate.steps.len().saturating_sub(1);
            for step in &mut candidate.steps[..many] {
                if let (Step::Call(Call::Window { .. }), Some((_, simplest))) = (*step, argument(step, field, None)) {
                    argument(step, field, Some(simplest));
                }
            }
            self.take_if_fails(trial, candidate);
        }
    }

    fn simplify_calls(&mut self, trial: &mut Trial) {
        for index in (0..trial.steps.len()).rev() {
            for field in 0..ARGUMENTS {
                self.simplify_argument(trial, index, field);
            }
        }
    }

    /// Tries the simplest value of an argument, then ever smaller steps towards it.
    fn simplify_argument(&mut self, trial: &mut Trial, index: usize, field: usize) {
        let (mut value, simplest) = match argument(&mut trial.steps[index], field, None) {
            Some(found) => found,
            None => return,
        };
        let mut step = simplest - value;
        while step != 0 {
            let mut candidate = trial.clone();
            argument(&mut candidate.steps[index], field, Some(value + step));
            if self.fails(&candidate) {
                *trial = candidate;
                value += step;
                step = if (simplest - value).abs() < step.abs() { simplest - value } else { step };
            } else {
                step /= 2;
            }
        }
    }
}

/// What a step counts in the search.
fn calls_of(step: &Step) -> u64 {
    match *step {
        Step::Call(Call::Rest { windows, .. }) => 1 + u64::from(windows.min(REST_MAX)) / WINDOWS_OF_A_CALL,
        _ => 1,
    }
}

/// An argument of a step's call with its simplest value; sets it first if a value is given.
fn argument(step: &mut Step, field: usize, set: Option<i64>) -> Option<(i64, i64)> {
    macro_rules! field {
        ($place:expr, $simplest:expr) => {{
            if let Some(value) = set {
                *$place = value as _;
            }
            Some((*$place as i64, $simplest))
        }};
    }
    let call = match step {
        Step::Call(call) => call,
        Step::Update { .. } => return None,
    };
    match (call, field) {
        (Call::Window { current, .. }, 0) => field!(current, 0),
        (Call::Window { voltage, .. }, 1) => field!(voltage, 3_600),
        (Call::Window { temperature, .. }, 2) => field!(temperature, 1_192),
        (Call::Rest { windows, .. }, 0) => field!(windows, 1),
        (Call::Rest { temperature, .. }, 1) => field!(temperature, 1_192),
        (Call::Write { value, .. }, 0) => field!(value, 0),
        (Call::Read { address, .. }, 0) => field!(address, 0),
        (Call::Read { count, .. }, 1) => field!(count, 1),
        (Call::Read { reply_length, .. }, 2) => field!(reply_length, 128),
        (Call::Read { place, .. }, 3) => field!(place, 0),
        (Call::Preview { key, .. }, 0) => field!(key, 0xA9),
        (Call::Preview { reply_length, .. }, 1) => field!(reply_length, 128),
        (Call::Estimate { voltage }, 0) => field!(voltage, 3_700),
        _ => None,
    }
}
