//! The second implementation, gauge and history, on the lines of a list.

use crate::line::{self, Command, Line};
use crate::step::Step;
use reference::calls;
use reference::command::CTRL;
use reference::fixing::{FixingPoint, FixingPoints};
use reference::gauge::Gauge;
use reference::history::{Call, History};
use reference::refusal::{REGISTERS, SAVED};
use reference::saved;
use reference::trace::Trace;

#[derive(Default)]
pub struct Second {
    trace: Option<Trace>,
    windows: u64,
    calls: Calls,
}

/// How many there were.
#[derive(Clone, Copy, Debug, Default, PartialEq, Eq)]
pub struct Calls {
    pub made: usize,
    pub refused: usize,
}

impl Second {
    pub fn saved(&self) -> Option<&[u8; saved::LENGTH]> {
        self.trace.as_ref().map(Trace::saved)
    }

    pub fn history(&self) -> Option<&History> {
        self.trace.as_ref().map(Trace::history)
    }

    /// Takes a line, which stands in a row of the table.
    pub fn step(&mut self, row: usize, line: Line) -> Step {
        let from = self.windows;
        let answer = self.answer(&line);
        self.calls.made += 1;
        match answer {
            Ok(_) => self.windows += length(&line),
            Err(_) => self.calls.refused += 1,
        }
        let (number, points) = match answer {
            Ok(points) => (0, points),
            Err(number) => (number, FixingPoints::default()),
        };
        Step { row, line: Some(line), from, to: self.windows, number, gauge: self.gauge(), points }
    }

    /// A round that began at so many windows and whose calls have no rows.
    pub fn round(&self, row: usize, from: u64) -> Step {
        Step { row, line: None, from, to: self.windows, number: 0, gauge: self.gauge(), points: FixingPoints::default() }
    }

    pub fn windows(&self) -> u64 {
        self.windows
    }

    pub fn calls(&self) -> Calls {
        self.calls
    }

    fn gauge(&self) -> Option<Gauge> {
        self.saved().and_then(|bytes| saved::load(bytes).ok())
    }

    fn answer(&mut self, line: &Line) -> Result<FixingPoints, u32> {
        match line {
            Line::Open(bytes) => {
                self.trace = Some(Trace::open(bytes)?);
                Ok(FixingPoints::of(FixingPoint::Opening))
            }
            Line::Load(bytes) => {
                self.trace = Some(Trace::load(bytes)?);
                Ok(FixingPoints::default())
            }
            Line::One(call) => self.trace.as_mut().ok_or(SAVED)?.call(call),
            Line::Command(command) => self.command(command),
            Line::Preview(command) => self.prepared(command)?.call(&line::preview(command.key())),
        }
    }

    /// A copy with AR and MODE written for the command. No fixing point is made by that.
    fn prepared(&self, command: &Command) -> Result<Trace, u32> {
        let mut copy = self.trace.ok_or(SAVED)?;
        let mode = saved::load(copy.saved())?.mode;
        for write in command.prepares(mode) {
            copy.call(&write)?;
        }
        Ok(copy)
    }

    /// A command is given to the copy, which takes the gauge's place if the key is not refused.
    fn command(&mut self, command: &Command) -> Result<FixingPoints, u32> {
        let mut copy = self.prepared(command)?;
        let points = copy.write(CTRL, command.key())?;
        self.trace = Some(copy);
        Ok(points)
    }

    /// The bytes that an accepted read copies; none for another call.
    pub fn read(&self, line: &Line) -> Vec<u8> {
        let mut reply = [0; REGISTERS as usize];
        match (line, self.saved()) {
            (&Line::One(Call::Read { address, count, .. }), Some(bytes)) => match calls::read(bytes, address, count, &mut reply, 0)
            {
                0 => reply[..count as usize].to_vec(),
                _ => Vec::new(),
            },
            _ => Vec::new(),
        }
    }

    /// The command that an accepted preview says would be obeyed, and all registers as they would stand; none for another call.
    pub fn preview(&self, line: &Line) -> Option<(u8, [u8; REGISTERS as usize])> {
        let (trace, key) = match line {
            Line::One(Call::Preview { key, .. }) => (self.trace?, *key),
            Line::Preview(command) => (self.prepared(command).ok()?, command.key()),
            _ => return None,
        };
        let (mut command, mut registers) = (0, [0; REGISTERS as usize]);
        (calls::preview(trace.saved(), key, &mut registers, &mut command) == 0).then_some((command, registers))
    }
}

/// The windows that an accepted call takes.
fn length(line: &Line) -> u64 {
    match line {
        Line::One(Call::Window { .. }) => 1,
        Line::One(Call::Rest { windows, .. }) => u64::from(*windows),
        _ => 0,
    }
}

#[cfg(test)]
mod tests {
    use crate::examples::steps;
    use reference::fixing::FixingPoint::{Done, Opening};

    const OPEN: &str = "open 04 5E 77 05 21 10 00 00 6C 15";

    #[test]
    fn without_a_gauge_every_call_answers_14() {
        let numbers = |lines| steps(lines).iter().map(|step| step.number).collect::<Vec<_>>();
        assert_eq!(numbers(&["open 04", "window 1 2 3", "done", "load 00", "read 0x00 1"]), [1, 14, 14, 14, 14]);
        assert_eq!(numbers(&["open 04", "preview 0xA9", "preview done", "estimate 3700"]), [1, 14, 14, 14]);
        assert_eq!(numbers(&[OPEN, "open 00 5E 77 05 21 10 00 00 6C 15", "window 9 3700 1192"]), [0, 2, 0]);
    }

    #[test]
    fn a_refused_command_changes_nothing() {
        let steps = steps(&[OPEN, "nac 500", "lmd 0", "done"]);
        assert_eq!(steps[2].number, 11);
        assert_eq!(steps[2].gauge, steps[1].gauge);
        assert!(steps[0].points.contains(Opening) && steps[3].points.contains(Done));
        assert_eq!(steps[3].nac(), 1024);
    }

    #[test]
    fn a_preview_moves_nothing() {
        let steps = steps(&[OPEN, "nac 500", "preview nac 9", "preview lmd 0", "preview 0xA9", "write 0x01 0x10", "preview 0xA9"]);
        assert_eq!(steps.iter().map(|step| step.number).collect::<Vec<_>>(), [0, 0, 0, 11, 9, 0, 0]);
        assert!(steps[2..5].iter().all(|step| step.gauge == steps[1].gauge && step.points.is_empty() && !step.moves()));
        assert_eq!(steps[6].gauge, steps[5].gauge);
    }

    #[test]
    fn an_estimate_moves_nothing() {
        let steps = steps(&[OPEN, "rest 421 1192", "estimate 3700", "rest 1 1192", "estimate 3700", "estimate 4201"]);
        assert_eq!(steps.iter().map(|step| step.number).collect::<Vec<_>>(), [0, 0, 15, 0, 0, 16]);
        assert_eq!(
            steps.iter().map(|step| step.estimate().map(|(_, found)| found.counts)).collect::<Vec<_>>()[2..],
            [None, None, Some(358), None]
        );
        assert!(steps[4].gauge == steps[3].gauge && steps[4].points.is_empty() && !steps[4].moves());
    }

    #[test]
    fn windows_and_rests_take_time() {
        let steps = steps(&[OPEN, "window 9 3700 1192", "rest 100 1192", "rest 0 1192", "done"]);
        assert_eq!(
            steps.iter().map(|step| (step.from, step.to)).collect::<Vec<_>>(),
            [(0, 0), (0, 1), (1, 101), (101, 101), (101, 101)]
        );
    }
}
