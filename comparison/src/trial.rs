//! A trial: a gauge to start from and steps on it. It is run on both sides and stops at the first difference.

use crate::counts::Counts;
use crate::difference::{hexadecimal, Difference};
use crate::running::Running;
use crate::step::Step;
use crate::table::Part;
use reference::saved;

#[derive(Clone)]
pub enum Start {
    /// A freshly opened gauge.
    Opened([u8; 10]),
    /// Bytes handed in. If it is known whether the calls accept them, both sides have to say so.
    Saved { bytes: Vec<u8>, accepted: Option<bool> },
    /// Bytes of any form, converted into lent ones, which may hold anything before. If it is known whether loading reads the old
    /// ones, both sides have to say so.
    Converted { old: Vec<u8>, lent: Vec<u8>, readable: Option<bool> },
}

#[derive(Clone)]
pub struct Trial {
    pub start: Start,
    pub steps: Vec<Step>,
}

/// A difference, and how many steps it took.
pub struct Failure {
    pub steps: usize,
    pub difference: Difference,
}

impl Trial {
    /// The saved bytes at the end, which both sides agree on.
    pub fn run(&self, part: Part, counts: &mut Counts) -> Result<Vec<u8>, Failure> {
        let failed = |steps| move |difference| Failure { steps, difference };
        let mut running = Running::begin(&self.start, part, counts).map_err(failed(0))?;
        for (index, step) in self.steps.iter().enumerate() {
            running.step(step).map_err(failed(index + 1))?;
        }
        Ok(running.saved())
    }

    /// The trial as it is printed: how the gauge came about, then a line for each step, or for several in a row that are alike.
    pub fn text(&self) -> String {
        let mut lines = vec![self.start.text()];
        let mut rest = &self.steps[..];
        while let [step, ..] = rest {
            let alike = rest.iter().take_while(|next| *next == step).count();
            let times = if alike > 1 { format!("  {alike} times") } else { String::new() };
            lines.push(format!("  {}{times}\n", step.text()));
            rest = &rest[alike..];
        }
        lines.concat()
    }
}

impl Start {
    /// The conversion of a whole gauge.
    pub fn converted(old: Vec<u8>) -> Start {
        Start::Converted { old, lent: vec![0xEE; saved::LENGTH], readable: Some(true) }
    }

    fn text(&self) -> String {
        match self {
            Start::Opened(configuration) => format!("  open    {}\n", hexadecimal(configuration)),
            Start::Saved { bytes, .. } => format!("  saved   {}\n", hexadecimal(bytes)),
            Start::Converted { old, lent, .. } => {
                format!("  convert {}\n  into    {}\n", hexadecimal(old), hexadecimal(lent))
            }
        }
    }
}
