//! Tables for pictures of a list of calls.
//!
//!     trace [--rounded TRUE] TABLE FOLDER
//!
//! TABLE is what `replay --all` printed for any list. The calls of its rows are made on the second implementation, those of a repeated part as
//! often as there, and the first row where anything that is shown differs, or where the history of demand 3 does, is an error. The tables
//! go to FOLDER: `curves`, `bands`, `points`, `dark`, `refused`, `estimates`, `rounds` and `marks`. With `--rounded` also `beside` and
//! `beside-marks`, for `compare-rounded`; TRUE has the true charge of the cell after each window.

mod agreement;
mod axis;
mod beside;
#[cfg(test)]
mod examples;
mod line;
mod marks;
mod parts;
mod rounded;
mod second;
mod shown;
mod step;
mod table;
mod tables;

use marks::Marks;
use second::Calls;
use std::{env, fs, path::Path, process::ExitCode};
use step::Step;

fn main() -> ExitCode {
    match run(&env::args().skip(1).collect::<Vec<_>>()) {
        Ok(()) => ExitCode::SUCCESS,
        Err(what) => {
            eprintln!("trace: {what}");
            ExitCode::FAILURE
        }
    }
}

fn run(arguments: &[String]) -> Result<(), String> {
    let (truth, table, folder) = match arguments {
        [table, folder] => (None, table, folder),
        [option, truth, table, folder] if option == "--rounded" => (Some(truth), table, folder),
        _ => return Err(String::from("usage: trace [--rounded TRUE] TABLE FOLDER")),
    };
    let (steps, calls) = agreement::steps(&read(table)?)?;
    if steps.iter().all(|step| step.gauge.is_none()) {
        return Err(String::from("nothing to draw: no gauge was opened or loaded"));
    }
    let folder = Path::new(folder);
    if let Some(truth) = truth {
        let rows = beside::rows(&steps, &read(truth)?)?;
        put(folder, "beside", &beside::table(&rows))?;
        put(folder, "beside-marks", &beside::marks(&rows))?;
    }
    write(&steps, calls, folder)
}

fn write(steps: &[Step], calls: Calls, folder: &Path) -> Result<(), String> {
    let moves: Vec<&Step> = steps.iter().filter(|step| step.moves()).collect();
    let (bands, points) = (tables::bands(&moves), tables::points(&moves));
    let (dark, refused) = (tables::dark(&moves), tables::refused(steps));
    put(folder, "curves", &tables::curves(&moves))?;
    put(folder, "bands", &lines(&bands, |(band, from, to)| format!("{band} {from:.6} {to:.6}")))?;
    put(folder, "points", &lines(&points, |(kind, hour, nac)| format!("{kind} {hour:.6} {nac}")))?;
    put(folder, "dark", &lines(&dark, |(hour, labelled)| format!("{hour:.6} {labelled}")))?;
    put(folder, "refused", &lines(&refused, |hour| format!("{hour:.6}")))?;
    let estimates = lines(&tables::estimates(steps), |(hour, v, counts, distance)| format!("{hour:.6} {v} {counts} {distance}"));
    put(folder, "estimates", &estimates)?;
    let rounds = tables::rounds(&moves);
    put(folder, "rounds", &lines(&rounds, |(from, to)| format!("{from:.6} {to:.6}")))?;
    let made = points.iter().map(|point| point.0).collect();
    let bands = bands.iter().map(|band| band.0).collect();
    put(
        folder,
        "marks",
        &Marks { steps, calls, crosses: refused.len(), dark: dark.len(), rounds: rounds.len(), made, bands }.text(),
    )
}

fn lines<T>(rows: &[T], line: impl Fn(&T) -> String) -> String {
    rows.iter().map(|row| line(row) + "\n").collect()
}

fn put(folder: &Path, name: &str, text: &str) -> Result<(), String> {
    let path = folder.join(name);
    fs::write(&path, text).map_err(|e| format!("{}: {e}", path.display()))
}

fn read(path: &str) -> Result<String, String> {
    fs::read_to_string(path).map_err(|e| format!("{path}: {e}"))
}
