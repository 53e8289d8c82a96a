//! How often each event and each number occurred, in each part of the run. What never occurred was not compared.

use crate::table::{Kind, Listed, Part, KINDS, NUMBERS, NUMBERS_OF_A_CALL, PARTS, TABLES};

/// A count for each part.
type Row = [u64; PARTS.len()];

/// The entries of the estimate's table: 3,000 to 4,200 mV in steps of 4 (paper 02, A4).
const ENTRIES: usize = 301;
const ENTRIES_NAME: &str = "entries of the estimate's table met, with LMD of 1,000 or more";

/// The parts in which an estimate has to meet every one of them.
const PARTS_OF_ENTRIES: &[Part] = &[Part::Lists, Part::Gauges];

pub struct Counts {
    /// For each event of each table.
    events: Vec<Vec<Row>>,
    numbers: [[Row; NUMBERS_OF_A_CALL]; KINDS],
    entries: Vec<Row>,
}

impl Counts {
    pub fn new() -> Counts {
        let none = [0; PARTS.len()];
        let events = TABLES.iter().map(|(_, rows)| vec![none; rows.len()]).collect();
        Counts { events, numbers: [[none; NUMBERS_OF_A_CALL]; KINDS], entries: vec![none; ENTRIES] }
    }

    pub fn add<E: Listed>(&mut self, part: Part, event: E) {
        self.events[E::TABLE as usize][event.row()][part as usize] += 1;
    }

    pub fn add_if<E: Listed>(&mut self, part: Part, event: E, occurred: bool) {
        if occurred {
            self.add(part, event);
        }
    }

    pub fn add_number(&mut self, part: Part, kind: Kind, number: u32) {
        let number = (number as usize).min(NUMBERS_OF_A_CALL - 1);
        self.numbers[kind as usize][number][part as usize] += 1;
    }

    /// Counts an estimate by its entry of the table.
    pub fn add_entry(&mut self, part: Part, entry: usize) {
        self.entries[entry][part as usize] += 1;
    }

    /// How many entries of the table were met in each part.
    fn entries_met(&self) -> Row {
        std::array::from_fn(|part| self.entries.iter().filter(|entry| entry[part] > 0).count() as u64)
    }

    /// Prints the table and tells how many events and numbers never occurred where they have to.
    pub fn print(&self, texts_compared: bool) -> usize {
        let names: Vec<String> = PARTS.iter().map(|(_, name)| format!(" {name:>12}")).collect();
        println!("{:62}{}", "", names.concat());
        let mut missing = 0;
        for (table, rows) in TABLES {
            for (&(name, parts), counts) in rows.iter().zip(&self.events[table as usize]) {
                missing += print_row(name, counts, 1, parts, texts_compared);
            }
        }
        missing += print_row(ENTRIES_NAME, &self.entries_met(), ENTRIES as u64, PARTS_OF_ENTRIES, texts_compared);
        for &(kind, call, numbers, parts) in NUMBERS {
            for &number in numbers {
                let name = match number {
                    0 => format!("{call} done"),
                    _ => format!("{call} refused {number}"),
                };
                missing += print_row(&name, &self.numbers[kind as usize][number as usize], 1, parts, texts_compared);
            }
        }
        missing
    }
}

/// Prints one row; 1 if the event did not occur as often as it has to in a part in which it has to.
fn print_row(name: &str, counts: &Row, least: u64, parts: &[Part], texts_compared: bool) -> usize {
    print!("{name:62}");
    let mut missing = false;
    for (part, _) in PARTS {
        let count = counts[part as usize];
        let needed = parts.contains(&part) && (part != Part::Texts || texts_compared);
        missing |= needed && count < least;
        let cell = match (count, needed) {
            (0, true) => String::from("NEVER"),
            (_, true) if count < least => format!("ONLY {count}"),
            (0, false) => String::from("-"),
            _ => count.to_string(),
        };
        print!(" {cell:>12}");
    }
    println!();
    usize::from(missing)
}
