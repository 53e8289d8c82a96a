//! Holds every row of the table to the second implementation and to its history.

use crate::line;
use crate::parts::{self, Part, Repeat};
use crate::second::{Calls, Second};
use crate::shown::{estimated, shown, time, would_be, REGISTERS};
use crate::step::Step;
use crate::table::{self, Row};
use reference::gauge::Gauge;
use reference::history::History;
use reference::leak;

/// The steps of a table and how many calls were made, or the first row where something differs.
pub fn steps(table: &str) -> Result<(Vec<Step>, Calls), String> {
    let table = table::read(table)?;
    let refused = table.calls.refused;
    let mut agreement = Agreement::default();
    agreement.rows(&parts::parts(table)?)?;
    let calls = agreement.second.calls();
    if calls.refused != refused {
        return Err(format!("{refused} calls are said to be refused, the second implementation refuses {}", calls.refused));
    }
    Ok((agreement.steps, calls))
}

#[derive(Default)]
struct Agreement {
    second: Second,
    steps: Vec<Step>,
}

impl Agreement {
    /// Parts call by call: the number of the first call that is refused in them, or 0.
    fn rows(&mut self, parts: &[Part]) -> Result<u32, String> {
        first_refusal(parts, |part| match part {
            Part::Call(row) => self.row(row).map_err(|what| in_row(row, &what)),
            Part::Repeat(repeat) => self.repeat(repeat),
        })
    }

    fn row(&mut self, row: &Row) -> Result<u32, String> {
        let step = step(&mut self.second, row)?;
        let number = step.number;
        self.steps.push(step);
        Ok(number)
    }

    /// Every round, and the row after it. The rounds between the first and the last have no other.
    fn repeat(&mut self, repeat: &Repeat) -> Result<u32, String> {
        let last = repeat.ends.len() - 1;
        first_refusal(repeat.ends.iter().enumerate(), |(at, end)| {
            let from = self.second.windows();
            let number = match at {
                0 => self.rows(&repeat.first)?,
                _ if at == last => self.last(repeat, end)?,
                _ => self.again(&repeat.first)?,
            };
            standing(end, number, &self.second).map_err(|what| in_row(end, &what))?;
            if 0 < at && at < last {
                self.steps.push(self.second.round(end.line, from));
            }
            Ok(number)
        })
    }

    fn last(&mut self, repeat: &Repeat, end: &Row) -> Result<u32, String> {
        if !parts::same_calls(&repeat.first, &repeat.last) {
            return Err(in_row(end, "the calls are not those of round 1"));
        }
        self.rows(&repeat.last)
    }

    /// A round without rows: only the history is held to it call by call.
    fn again(&mut self, parts: &[Part]) -> Result<u32, String> {
        first_refusal(parts, |part| match part {
            Part::Call(row) => {
                let step = self.second.step(row.line, line::parse(row.call)?);
                history(&self.second, &step).map_err(|what| in_row(row, &what))?;
                Ok(step.number)
            }
            Part::Repeat(repeat) => first_refusal(&repeat.ends, |_| self.again(&repeat.first)),
        })
    }
}

fn first_refusal<T>(made: impl IntoIterator<Item = T>, mut number: impl FnMut(T) -> Result<u32, String>) -> Result<u32, String> {
    made.into_iter().try_fold(0, |first, made| number(made).map(|number| if first == 0 { number } else { first }))
}

fn in_row(row: &Row, what: &str) -> String {
    format!("row {} ({}): {what}", row.line, row.call)
}

fn step(second: &mut Second, row: &Row) -> Result<Step, String> {
    let line = line::parse(row.call)?;
    let step = second.step(row.line, line.clone());
    standing(row, step.number, second)?;
    let read: Vec<String> = second.read(&line).iter().map(|byte| format!("{byte:02X}")).collect();
    same("read", &row.bytes.join(" "), &read.join(" "))?;
    let preview = second.preview(&line).map_or(String::new(), |(command, registers)| would_be(command, &registers));
    same("preview", &row.would_be.join(" "), &preview)?;
    let estimate = step.estimate().map_or(String::new(), |(_, estimate)| estimated(&estimate));
    same("estimate", &row.estimate.join(" "), &estimate)?;
    history(second, &step)?;
    Ok(step)
}

/// Number, time and registers of a row.
fn standing(row: &Row, number: u32, second: &Second) -> Result<(), String> {
    same("number", row.number, &number.to_string())?;
    same("time", row.time, &time(second.windows()))?;
    for ((register, &printed), own) in REGISTERS.iter().zip(&row.registers).zip(&shown(second.saved())) {
        same(register.name, printed, own)?;
    }
    Ok(())
}

fn history(second: &Second, step: &Step) -> Result<(), String> {
    match (&step.gauge, second.history()) {
        (Some(gauge), Some(history)) => demand_3(gauge, history),
        _ => Ok(()),
    }
}

fn same(what: &str, printed: &str, own: &str) -> Result<(), String> {
    if printed == own {
        Ok(())
    } else {
        Err(format!("{what} is `{printed}`, the second implementation has `{own}`"))
    }
}

/// NAC, LMD and VDQ are those of the history. The table shows what the gauge has: the registers were compared before.
fn demand_3(gauge: &Gauge, history: &History) -> Result<(), String> {
    let of_gauge = (i64::from(gauge.nac()), gauge.lmd, gauge.vdq());
    let of_history = (leak::nac(history.h()), history.l, history.run.is_some());
    if of_gauge == of_history {
        Ok(())
    } else {
        Err(format!("NAC, LMD and VDQ are {of_gauge:?}, the history has {of_history:?}"))
    }
}

#[cfg(test)]
mod tests {
    use super::*;
    use crate::examples::{REPEATED, TABLE};

    fn refused(from: &str, to: &str) -> String {
        assert!(TABLE.contains(from));
        steps(&TABLE.replacen(from, to, 1)).err().unwrap()
    }

    #[test]
    fn the_example_agrees() {
        let (steps, calls) = steps(TABLE).unwrap();
        assert_eq!((calls.made, calls.refused), (9, 1));
        assert_eq!(
            steps.iter().map(|step| (step.to, step.number, step.nac())).collect::<Vec<_>>()[3..],
            [(3, 0, 1019), (3, 5, 1019), (3, 0, 1019), (3, 0, 1019), (425, 0, 1019), (425, 0, 1019)]
        );
    }

    #[test]
    fn a_wrong_register() {
        let what = "row 5 (window -3000 3600 1192): CAC is `893`, the second implementation has `892`";
        assert_eq!(refused("892", "893"), what);
        let what = "row 4 (window 20 4150 1192): FLAGS is `CI+VDQ`, the second implementation has `CHGS+CI+VDQ`";
        assert_eq!(refused("CHGS+CI+VDQ", "CI+VDQ"), what);
    }

    #[test]
    fn a_wrong_number() {
        let what = "row 6 (window 0 3600 1373): number is `4`, the second implementation has `5`";
        assert_eq!(refused("0:00:15.36      5", "0:00:15.36      4"), what);
    }

    #[test]
    fn a_wrong_time() {
        let what = "row 3 (window 2 3700 1192): time is `0:00:05.13`, the second implementation has `0:00:05.12`";
        assert_eq!(refused("0:00:05.12", "0:00:05.13"), what);
    }

    #[test]
    fn a_wrong_call_or_read() {
        assert_eq!(refused("window 2 3700 1192", "sleep"), "row 3 (sleep): `sleep` is no call that replay prints");
        assert_eq!(refused("FB 03", "FB 04"), "row 7 (read 0x0C 2): read is `FB 04`, the second implementation has `FB 03`");
    }

    #[test]
    fn a_wrong_preview() {
        let what = |from, to| refused(from, to).replace("the second implementation has ", "");
        let own = "900 1024 87 CI 773 15 0x40 900 58 1192 3600 897 3000 65535 10 5400 3000 0 by WRTNAC";
        let (other, done) = (own.replacen("773", "774", 1), own.replace("WRTNAC", "DONE"));
        assert_eq!(what("773", "774"), format!("row 9 (preview nac 900): preview is `{other}`, `{own}`"));
        assert_eq!(what("by WRTNAC", "by DONE"), format!("row 9 (preview nac 900): preview is `{done}`, `{own}`"));
        assert_eq!(what("would be", "will be"), format!("row 9 (preview nac 900): preview is ``, `{own}`"));
        let write = what("preview nac 900", "write 0x02 0x00");
        assert_eq!(write, format!("row 9 (write 0x02 0x00): preview is `{own}`, ``"));
    }

    #[test]
    fn a_wrong_estimate() {
        let what = |from, to| refused(from, to).replace("the second implementation has ", "");
        assert_eq!(what("849 d", "848 d"), "row 12 (estimate 4003): estimate is `848 distance -170`, `849 distance -170`");
        assert_eq!(what("-170", "170"), "row 12 (estimate 4003): estimate is `849 distance 170`, `849 distance -170`");
        assert_eq!(what(" estimate   8", " guess   8"), "row 12 (estimate 4003): estimate is ``, `849 distance -170`");
        assert_eq!(
            what("estimate 4003", "estimate 3999"),
            "row 12 (estimate 3999): estimate is `849 distance -170`, `843 distance -176`"
        );
        assert_eq!(what("estimate 4003", "read 0x00 1"), "row 12 (read 0x00 1): read is ``, `00`");
        assert_eq!(what("estimate 4003", "estimate 4201"), "row 12 (estimate 4201): number is `0`, `16`");
    }

    #[test]
    fn every_round_is_made() {
        let (steps, calls) = steps(REPEATED).unwrap();
        assert_eq!((calls.made, calls.refused), (10, 0));
        let cycles = |step: &Step| step.gauge.map(|gauge| gauge.cyct);
        assert_eq!(steps.iter().map(cycles).collect::<Vec<_>>(), [0, 0, 1, 2, 3, 3, 5, 5].map(Some));
        assert_eq!(
            steps.iter().filter(|step| step.is_round()).map(|step| (step.from, step.to)).collect::<Vec<_>>(),
            [(1, 2), (2, 3)]
        );
    }

    #[test]
    fn a_wrong_round() {
        let refused = |from: &str, to: &str| {
            assert!(REPEATED.contains(from));
            steps(&REPEATED.replacen(from, to, 1)).err().unwrap()
        };
        let what = "row 8 (round 3 of 4): CYCT is `4`, the second implementation has `3`";
        assert_eq!(refused("3 round", "4 round"), what);
        let what = "row 7 (round 2 of 4): number is `3`, the second implementation has `0`";
        assert_eq!(refused("0:00:10.24      0", "0:00:10.24      3"), what);
        let what = "row 11 (round 4 of 4): the calls are not those of round 1";
        assert_eq!(refused("3 lmd 30", "3 lmd 31"), what);
        let what = "1 calls are said to be refused, the second implementation refuses 0";
        assert_eq!(refused("none refused", "1 refused"), what);
    }

    #[test]
    fn a_history_that_differs() {
        let mut second = Second::default();
        let open = line::parse("open 04 5E 77 05 21 10 00 00 6C 15").unwrap();
        let gauge = second.step(2, open).gauge.unwrap();
        let history = *second.history().unwrap();
        assert_eq!(demand_3(&gauge, &history), Ok(()));
        let other = History { l: 1025, ..history };
        assert_eq!(
            demand_3(&gauge, &other).unwrap_err(),
            "NAC, LMD and VDQ are (0, 1024, false), the history has (0, 1025, false)"
        );
    }
}
