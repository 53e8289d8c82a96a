//! The table that `replay --all` prints, row by row.

use crate::second::Calls;
use crate::shown::REGISTERS;

/// A row of the table, as text.
#[derive(Debug)]
pub struct Row<'a> {
    /// Its line in the table, from 1.
    pub line: usize,
    pub time: &'a str,
    pub number: &'a str,
    /// In the order of the heading.
    pub registers: Vec<&'a str>,
    pub call: &'a str,
    /// What stands below the row of an accepted read.
    pub bytes: Vec<&'a str>,
    /// What stands below the row of an accepted preview: the registers in the order of the heading, `by`, the command.
    pub would_be: Vec<&'a str>,
    /// What stands below the row of an accepted estimate: counts, `distance`, the distance.
    pub estimate: Vec<&'a str>,
}

/// What the table has, in its order.
#[derive(Debug)]
pub enum Item<'a> {
    /// The row of a call.
    Call(Row<'a>),
    /// The line above the rows of a repeated part, and how many rounds there are.
    Repeat { line: usize, rounds: u32 },
    /// The row after a round: which one, of how many.
    Round { row: Row<'a>, round: u32, of: u32 },
}

#[derive(Debug)]
pub struct Table<'a> {
    pub items: Vec<Item<'a>>,
    /// As the table says at its end.
    pub calls: Calls,
}

/// How the line below an accepted preview begins.
const WOULD_BE: &str = "would be ";

/// The same of an accepted estimate.
const ESTIMATE: &str = "estimate ";

/// The line above a repeated part.
const REPEAT: &str = "repeat ";

/// A table that does not end with the number of its calls is cut off, and an error.
pub fn read(table: &str) -> Result<Table<'_>, String> {
    let mut lines = table.lines().enumerate();
    let heading: Vec<&str> = lines.next().map_or(Vec::new(), |(_, line)| line.split_ascii_whitespace().collect());
    if heading != expected_heading() {
        return Err(String::from("the first line is not the heading of replay --all"));
    }
    let (mut items, mut counted) = (Vec::new(), None);
    for (at, text) in lines {
        match text.strip_prefix('#') {
            None => items.push(row(at + 1, text).map(item)?),
            Some(remark) => match repeat(remark) {
                Some(rounds) => items.push(Item::Repeat { line: at + 1, rounds }),
                None if items.last_mut().map_or(false, |above| takes(above, remark)) => (),
                None => counted = counted.or_else(|| calls(remark)),
            },
        }
    }
    let calls = counted.ok_or("the table does not end with its number of calls")?;
    Ok(Table { items, calls })
}

/// The row of a call or, with `round 2 of 360` in its place, of a round.
fn item(row: Row<'_>) -> Item<'_> {
    match row.call.split_ascii_whitespace().collect::<Vec<_>>()[..] {
        ["round", round, "of", of] => match (round.parse(), of.parse()) {
            (Ok(round), Ok(of)) => Item::Round { row, round, of },
            _ => Item::Call(row),
        },
        _ => Item::Call(row),
    }
}

fn expected_heading() -> Vec<&'static str> {
    let names = REGISTERS.iter().map(|register| register.name);
    ["time", "number"].into_iter().chain(names).chain(["call"]).collect()
}

fn row(line: usize, text: &str) -> Result<Row<'_>, String> {
    let mut rest = text;
    let mut words = Vec::new();
    for _ in 0..REGISTERS.len() + 2 {
        let (word, after) = rest.trim_start().split_once(' ').ok_or_else(|| format!("row {line} has too few columns: `{text}`"))?;
        words.push(word);
        rest = after;
    }
    let (time, number, registers) = (words[0], words[1], words.split_off(2));
    Ok(Row { line, time, number, registers, call: rest.trim(), bytes: Vec::new(), would_be: Vec::new(), estimate: Vec::new() })
}

/// What an accepted call hands out stands below its row: ` 0x0C: FB 03`, `  would be 900 1024 .. by WRTNAC` or `  estimate 849 distance
/// -170`. Whether the remark is one of these; then the row has its words.
fn takes<'a>(above: &mut Item<'a>, remark: &'a str) -> bool {
    let row = match above {
        Item::Call(row) => row,
        _ => return false,
    };
    let text = remark.trim_start();
    if remark.starts_with(" 0x") {
        row.bytes.extend(remark.split_ascii_whitespace().skip(1));
    } else if let Some(registers) = text.strip_prefix(WOULD_BE) {
        row.would_be = registers.split_ascii_whitespace().collect();
    } else if let Some(estimate) = text.strip_prefix(ESTIMATE) {
        row.estimate = estimate.split_ascii_whitespace().collect();
    } else {
        return false;
    }
    true
}

/// The rounds of ` repeat 360`.
fn repeat(remark: &str) -> Option<u32> {
    remark.trim_start().strip_prefix(REPEAT)?.parse().ok()
}

/// The numbers of ` 7125 calls, 3 refused`.
fn calls(remark: &str) -> Option<Calls> {
    match remark.split_ascii_whitespace().collect::<Vec<_>>()[..] {
        [made, "call," | "calls,", refused, "refused"] => {
            let refused = if refused == "none" { 0 } else { refused.parse().ok()? };
            Some(Calls { made: made.parse().ok()?, refused })
        }
        _ => None,
    }
}

#[cfg(test)]
mod tests {
    use super::*;
    use crate::examples::{HEADING, REPEATED, TABLE};

    fn rows(table: &str) -> Result<Vec<Row<'_>>, String> {
        let call = |item| if let Item::Call(row) = item { Some(row) } else { None };
        Ok(read(table)?.items.into_iter().filter_map(call).collect())
    }

    #[test]
    fn columns_by_their_place() {
        let rows = rows(TABLE).unwrap();
        assert_eq!(rows.len(), 9);
        assert_eq!((rows[2].line, rows[2].time, rows[2].number), (4, "0:00:10.24", "0"));
        assert_eq!((rows[2].registers[0], rows[2].registers[16], rows[2].call), ("1024", "3000", "window 20 4150 1192"));
        assert_eq!(rows[5].bytes, ["FB", "03"]);
        assert_eq!((rows[6].would_be.len(), rows[6].would_be[0], &rows[6].would_be[18..]), (20, "900", &["by", "WRTNAC"][..]));
        assert!(rows.iter().enumerate().all(|(at, row)| row.would_be.is_empty() == (at != 6)));
        assert_eq!(rows[8].estimate, ["849", "distance", "-170"]);
        assert!(rows[..8].iter().all(|row| row.estimate.is_empty()));
    }

    #[test]
    fn calls_at_the_end() {
        assert_eq!(read(TABLE).unwrap().calls, Calls { made: 9, refused: 1 });
        assert_eq!(calls(" 1 call, none refused"), Some(Calls { made: 1, refused: 0 }));
        assert_eq!(calls(" refused with 5 (temperature out of range): 1, first standard input:5"), None);
    }

    #[test]
    fn rounds_are_no_calls() {
        let table = read(REPEATED).unwrap();
        let round = |item: &Item| if let Item::Round { round, of, .. } = *item { Some((round, of)) } else { None };
        let rounds: Vec<_> = table.items.iter().filter_map(round).collect();
        assert_eq!(rounds, [(1, 4), (2, 4), (3, 4), (4, 4)]);
        assert!(matches!(table.items[1], Item::Repeat { line: 3, rounds: 4 }));
        assert_eq!((rows(REPEATED).unwrap().len(), table.calls.made), (6, 10));
    }

    #[test]
    fn a_table_of_another_form_is_an_error() {
        assert_eq!(rows("nac lmd rsoc flags\n").unwrap_err(), "the first line is not the heading of replay --all");
        assert_eq!(rows("").unwrap_err(), "the first line is not the heading of replay --all");
        assert_eq!(rows(&format!("{HEADING}0:00:00.00 0 0\n")).unwrap_err(), "row 2 has too few columns: `0:00:00.00 0 0`");
    }

    #[test]
    fn a_table_that_is_cut_off_is_an_error() {
        let cut = TABLE.split("# 9 calls").next().unwrap();
        assert_eq!(rows(cut).unwrap_err(), "the table does not end with its number of calls");
    }
}
