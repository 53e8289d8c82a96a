//! For `compare-rounded`: each window beside a gauge that sums rounded steps, and the true charge of the cell.

use crate::axis;
use crate::line::Line;
use crate::rounded::Rounded;
use crate::step::{hours, Step};
use reference::configuration::Configuration;
use reference::gauge::EDVF;
use reference::history::Call;
use std::fmt::Write;

/// Windows of the hour before.
const HOUR: usize = 703;

/// How both gauges stand after a window.
pub struct Row {
    hour: f64,
    current: i32,
    flags: u8,
    nac: i64,
    held: f64,
    rounded: i64,
    rounded_held: f64,
    truth: f64,
}

/// The rows of a list that has an opening and windows and nothing else, with one true charge for each window.
pub fn rows(steps: &[Step], truth: &str) -> Result<Vec<Row>, String> {
    let (open, windows) = steps.split_first().ok_or("no call to compare")?;
    let mut rounded = Rounded::opened(opened(open)?);
    let measured = windows.iter().map(measured).collect::<Result<Vec<_>, _>>()?;
    let charges = truth.lines().map(charge).collect::<Result<Vec<_>, _>>()?;
    if charges.len() != windows.len() {
        return Err(format!("{} windows, but {} true charges", windows.len(), charges.len()));
    }
    Ok(windows.iter().zip(measured).zip(charges).map(|((step, three), truth)| row(&mut rounded, step, three, truth)).collect())
}

fn opened(step: &Step) -> Result<Configuration, String> {
    let gauge = step.gauge.filter(|_| matches!(step.line, Some(Line::Open(_)))).ok_or_else(|| other(step))?;
    Ok(gauge.configuration)
}

/// Current, voltage and temperature of a window that is not refused.
fn measured(step: &Step) -> Result<[i32; 3], String> {
    match step.line {
        Some(Line::One(Call::Window { current, voltage, temperature })) if !step.refused() => Ok([current, voltage, temperature]),
        _ => Err(other(step)),
    }
}

fn charge(line: &str) -> Result<f64, String> {
    line.parse().map_err(|_| format!("`{line}` is no charge"))
}

fn row(rounded: &mut Rounded, step: &Step, [current, voltage, temperature]: [i32; 3], truth: f64) -> Row {
    rounded.window(current, voltage, temperature);
    Row {
        hour: hours(step.to),
        current,
        flags: step.flags(),
        nac: i64::from(step.nac()),
        held: step.held(),
        rounded: rounded.nac(),
        rounded_held: rounded.held(),
        truth,
    }
}

fn other(step: &Step) -> String {
    format!("row {}: only one opening and windows that are not refused can be compared", step.row)
}

/// One line a window: hour; NAC and charge held; the same of the gauge that sums rounded steps; true charge.
pub fn table(rows: &[Row]) -> String {
    let mut text = String::from("hour nac held rounded rounded_held true\n");
    for Row { hour, nac, held, rounded, rounded_held, truth, .. } in rows {
        let _ = writeln!(text, "{hour:.6} {nac} {held:.3} {rounded} {rounded_held:.3} {truth:.3}");
    }
    text
}

/// `top`: the greatest charge of both gauges and the cell; `top_tic` of its axis. `dark`: the hour of the first EDVF window, or -1. If there
/// is one: `dark_nac` and `dark_rounded` are shown in the window before it; from `empty` on NAC is 0, and `empty_rounded` is shown there;
/// `load` is the mean discharge of the hour before.
pub fn marks(rows: &[Row]) -> String {
    let top = rows.iter().map(|row| (row.nac.max(row.rounded) as f64).max(row.truth)).fold(1.0, f64::max);
    let dark = rows.iter().position(|row| row.flags & EDVF != 0).filter(|&at| at > 0);
    let axis = format!("top = {top:.3}\ntop_tic = {}\n", axis::counts(top.ceil() as i64));
    axis + &dark.map_or(String::from("dark = -1\n"), |at| at_dark(rows, at))
}

fn at_dark(rows: &[Row], at: usize) -> String {
    let empty = rows[..at].iter().rposition(|row| row.nac > 0).map_or(0, |last| last + 1);
    let before = &rows[at - 1];
    format!(
        "dark = {:.6}\ndark_nac = {}\ndark_rounded = {}\nempty = {:.6}\nempty_rounded = {}\nload = {:.1}\n",
        rows[at].hour,
        before.nac,
        before.rounded,
        rows[empty].hour,
        rows[empty.min(at - 1)].rounded,
        load(&rows[at.saturating_sub(HOUR)..at]),
    )
}

fn load(rows: &[Row]) -> f64 {
    let drains: Vec<i32> = rows.iter().filter(|row| row.current < 0).map(|row| -row.current).collect();
    f64::from(drains.iter().sum::<i32>()) / drains.len().max(1) as f64
}

#[cfg(test)]
mod tests {
    use super::*;
    use crate::examples;

    const OPEN: &str = "open 04 5E 77 05 21 10 00 00 6C 15";
    const OTHER: &str = "only one opening and windows that are not refused can be compared";

    #[test]
    fn windows_after_one_opening() {
        let steps = examples::steps(&[OPEN, "window 1000 3700 1192", "window -100 2800 1192"]);
        let rows = rows(&steps, "1.422\n1.280\n").unwrap();
        assert!(table(&rows).ends_with("\n0.001422 1 1.422 1 1.422 1.422\n0.002844 0 0.000 0 0.000 1.280\n"));
        let empty = "empty = 0.002844\nempty_rounded = 1\nload = 0.0\n";
        assert_eq!(marks(&rows), format!("top = 1.422\ntop_tic = 1\ndark = 0.002844\ndark_nac = 1\ndark_rounded = 1\n{empty}"));
    }

    #[test]
    fn anything_else_is_an_error() {
        let error = |lines: &[&str], truth| rows(&examples::steps(lines), truth).err().unwrap();
        assert_eq!(error(&[OPEN, "rest 5 1192"], "0\n"), format!("row 3: {OTHER}"));
        assert_eq!(error(&[OPEN, "window 5 3700 2000"], "0\n"), format!("row 3: {OTHER}"));
        assert_eq!(error(&["open 04"], ""), format!("row 2: {OTHER}"));
        assert_eq!(error(&[OPEN, "window 5 3700 1192"], ""), "1 windows, but 0 true charges");
        assert_eq!(error(&[OPEN, "window 5 3700 1192"], "much\n"), "`much` is no charge");
        assert_eq!(error(&[], ""), "no call to compare");
    }
}
