//! The parts of a table: calls, and what is repeated.

use crate::table::{Item, Row, Table};
use std::iter::Peekable;
use std::vec::IntoIter;

#[derive(Debug)]
pub enum Part<'a> {
    Call(Row<'a>),
    Repeat(Repeat<'a>),
}

/// A repeated part. Of its rounds the first and the last have rows call by call, and each has one after it.
#[derive(Debug)]
pub struct Repeat<'a> {
    pub first: Vec<Part<'a>>,
    /// Empty if the first round is the only one.
    pub last: Vec<Part<'a>>,
    pub ends: Vec<Row<'a>>,
}

type Items<'a> = Peekable<IntoIter<Item<'a>>>;

/// The parts of a table. Rounds that are not as the table announces them, or rows of another number of calls than were made, are an error.
pub fn parts(table: Table<'_>) -> Result<Vec<Part<'_>>, String> {
    let mut items = table.items.into_iter().peekable();
    let parts = part(&mut items)?;
    if let Some(Item::Round { row, .. }) = items.next() {
        return Err(format!("row {} ({}): a round of no repeat", row.line, row.call));
    }
    match calls(&parts) {
        rows if rows == table.calls.made => Ok(parts),
        rows => Err(format!("the table has the rows of {rows} calls, but {} calls were made", table.calls.made)),
    }
}

/// How many calls were made in all rounds.
fn calls(parts: &[Part]) -> usize {
    let of_part = |part: &Part| match part {
        Part::Call(_) => 1,
        Part::Repeat(repeat) => repeat.ends.len() * calls(&repeat.first),
    };
    parts.iter().map(of_part).sum()
}

/// Whether two rounds make the same calls.
pub fn same_calls(one: &[Part], other: &[Part]) -> bool {
    let same = |one: &Part, other: &Part| match (one, other) {
        (Part::Call(one), Part::Call(other)) => one.call == other.call,
        (Part::Repeat(one), Part::Repeat(other)) => one.ends.len() == other.ends.len() && same_calls(&one.first, &other.first),
        _ => false,
    };
    one.len() == other.len() && one.iter().zip(other).all(|(one, other)| same(one, other))
}

/// To the end of the round or of the table.
fn part<'a>(items: &mut Items<'a>) -> Result<Vec<Part<'a>>, String> {
    let mut found = Vec::new();
    loop {
        match items.next_if(|item| !matches!(item, Item::Round { .. })) {
            Some(Item::Call(row)) => found.push(Part::Call(row)),
            Some(Item::Repeat { line, rounds }) => found.push(Part::Repeat(repeat(items, line, rounds)?)),
            _ => return Ok(found),
        }
    }
}

fn repeat<'a>(items: &mut Items<'a>, line: usize, rounds: u32) -> Result<Repeat<'a>, String> {
    let round = |items: &mut Items<'a>, number| match items.next() {
        Some(Item::Round { row, round, of }) if (round, of) == (number, rounds) => Ok(row),
        _ => Err(format!("row {line} (repeat {rounds}): round {number} has no row where it ends")),
    };
    let first = part(items)?;
    let mut last = Vec::new();
    let mut ends = vec![round(items, 1)?];
    for number in 2..=rounds {
        if number == rounds {
            last = part(items)?;
        }
        ends.push(round(items, number)?);
    }
    Ok(Repeat { first, last, ends })
}

#[cfg(test)]
mod tests {
    use super::*;
    use crate::examples::{REPEATED, TABLE};
    use crate::table;

    fn of(text: &str) -> Result<Vec<Part<'_>>, String> {
        parts(table::read(text)?)
    }

    #[test]
    fn calls_and_a_repeat() {
        let parts = of(REPEATED).unwrap();
        match &parts[..] {
            [Part::Call(open), Part::Repeat(repeat), Part::Call(after)] => {
                assert_eq!((&open.call[..7], after.call), ("open 04", "rest 1 1192"));
                assert_eq!((repeat.first.len(), repeat.last.len(), repeat.ends.len()), (2, 2, 4));
                assert!(same_calls(&repeat.first, &repeat.last) && !same_calls(&repeat.first, &repeat.last[..1]));
            }
            other => panic!("{other:?}"),
        }
    }

    #[test]
    fn a_row_gone_is_an_error() {
        let cut = TABLE.replace("# 9 calls", "# 8 calls");
        assert_eq!(of(&cut).unwrap_err(), "the table has the rows of 9 calls, but 8 calls were made");
        let gone = |with: &str| of(&REPEATED.lines().filter(|line| !line.contains(with)).collect::<Vec<_>>().join("\n")).err();
        assert_eq!(gone("round 3 of 4").unwrap(), "row 3 (repeat 4): round 3 has no row where it ends");
        assert_eq!(gone("round 4 of 4").unwrap(), "row 3 (repeat 4): round 4 has no row where it ends");
        assert_eq!(gone("# repeat 4").unwrap(), "row 5 (round 1 of 4): a round of no repeat");
        assert_eq!(gone("rest 1 1192").unwrap(), "the table has the rows of 9 calls, but 10 calls were made");
    }
}
