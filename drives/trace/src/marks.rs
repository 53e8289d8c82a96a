//! What gnuplot needs beside the tables, as its variables.

use crate::axis;
use crate::second::Calls;
use crate::step::{hours, Step};
use crate::tables::kinds;

/// - `end`: the last hour, at least one window; `unit`, `per_hour` and `time_tic` of the axis of time;
/// - `greatest`: the greatest LMD; `count_tic` of the axis of counts;
/// - `calls`, `refused`: how many there are, those without rows among them; `crosses`: the refused ones that have rows;
/// - `dark`: how often the handset goes dark; `rounds`: how many stretches of rounds there are whose calls have no rows;
/// - `kind`: the names of the kinds of points; `made`: the numbers of those that there are; `bands`: the same of bands.
pub struct Marks<'a> {
    pub steps: &'a [Step],
    pub calls: Calls,
    pub crosses: usize,
    pub dark: usize,
    pub rounds: usize,
    pub made: Vec<usize>,
    pub bands: Vec<usize>,
}

impl Marks<'_> {
    pub fn text(&self) -> String {
        let end = hours(self.steps.last().map_or(0, |step| step.to).max(1));
        let axis::Time { unit, per_hour, tic } = axis::time(end);
        let greatest = self.steps.iter().filter_map(|step| step.gauge).map(|gauge| gauge.lmd).max().unwrap_or(0);
        let names = kinds();
        [
            format!("end = {end:.6}\nunit = '{unit}'\nper_hour = {per_hour:?}\ntime_tic = {tic:?}"),
            format!("greatest = {greatest}\ncount_tic = {}", axis::counts(i64::from(greatest))),
            format!("calls = {}\nrefused = {}\ncrosses = {}", self.calls.made, self.calls.refused, self.crosses),
            format!("dark = {}\nrounds = {}", self.dark, self.rounds),
            format!("array kind[{}] = ['{}']", names.len(), names.join("', '")),
            format!("made = '{}'\nbands = '{}'\n", words(&self.made), words(&self.bands)),
        ]
        .join("\n")
    }
}

/// Numbers in ascending order, each once.
fn words(numbers: &[usize]) -> String {
    let mut numbers = numbers.to_vec();
    numbers.sort_unstable();
    numbers.dedup();
    numbers.iter().map(usize::to_string).collect::<Vec<_>>().join(" ")
}

#[cfg(test)]
mod tests {
    use super::*;
    use crate::examples;

    const CALLS: Calls = Calls { made: 2, refused: 0 };

    #[test]
    fn a_list_of_commands_is_one_window_wide() {
        let steps = examples::steps(&["open 08 5E 77 05 21 10 00 00 6C 15", "nac 9"]);
        let (made, bands) = (vec![3, 1, 3], vec![5]);
        let text = Marks { steps: &steps, calls: CALLS, crosses: 0, dark: 0, rounds: 0, made, bands }.text();
        assert!(text.starts_with(
            "end = 0.001422\nunit = 'seconds'\nper_hour = 3600.0\ntime_tic = 0.5\ngreatest = 2048\ncount_tic = 256\n"
        ));
        assert!(text.contains("\ncalls = 2\nrefused = 0\ncrosses = 0\ndark = 0\nrounds = 0\n"));
        assert!(text.ends_with("\nmade = '1 3'\nbands = '5'\n"));
    }

    #[test]
    fn the_greatest_capacity_may_be_one_that_is_gone() {
        let steps = examples::steps(&["open 01 5E 77 05 21 10 00 00 6C 15", "lmd 1825", "lmd 200"]);
        let (made, bands) = (Vec::new(), Vec::new());
        let text = Marks { steps: &steps, calls: CALLS, crosses: 0, dark: 0, rounds: 0, made, bands }.text();
        assert!(text.contains("greatest = 1825\n"));
    }
}
