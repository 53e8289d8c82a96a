//! What can occur in a run: its parts, the events, a table for each subject, and the numbers of the calls, each with the parts in which
//! it has to occur.

/// The parts of a run.
#[derive(Clone, Copy, PartialEq, Eq)]
pub enum Part {
    /// Lists of calls from opening.
    Lists,
    /// Calls on gauges handed in as saved bytes, which no list need reach, converted first or not.
    Gauges,
    /// Calls on damaged bytes of the newest form, and openings.
    Damaged,
    /// Calls on bytes of an older form, damaged or whole, and what is converted of them.
    Older,
    /// Texts for the bench program.
    Texts,
}

pub const PARTS: [(Part, &str); 5] =
    [(Part::Lists, "lists"), (Part::Gauges, "gauges"), (Part::Damaged, "damaged"), (Part::Older, "older"), (Part::Texts, "texts")];

/// The name of an event and the parts in which it has to occur.
pub type Row = (&'static str, &'static [Part]);

/// The tables, one for each subject, in the order in which they are printed.
#[derive(Clone, Copy, PartialEq, Eq)]
pub enum Table {
    Windows,
    Rests,
    RestCounts,
    Cycles,
    Ageing,
    Host,
    Estimates,
    Conversions,
    Damage,
    Texts,
}

/// An event of one of the tables.
pub trait Listed: Copy {
    const TABLE: Table;

    /// Its row there.
    fn row(self) -> usize;
}

macro_rules! events {
    ($table:ident; $($event:ident $name:literal $($part:ident)*,)*) => {
        #[derive(Clone, Copy, PartialEq, Eq)]
        pub enum Event { $($event,)* }

        impl super::Listed for Event {
            const TABLE: super::Table = super::Table::$table;

            fn row(self) -> usize {
                self as usize
            }
        }

        pub const ROWS: &[super::Row] = &[$(($name, &[$(Part::$part),*]),)*];
    };
}

pub mod ageing;
pub mod conversions;
pub mod cycles;
pub mod damage;
pub mod estimates;
pub mod host;
pub mod rest_counts;
pub mod rests;
pub mod texts;
pub mod windows;

pub const TABLES: [(Table, &[Row]); 10] = [
    (Table::Windows, windows::ROWS),
    (Table::Rests, rests::ROWS),
    (Table::RestCounts, rest_counts::ROWS),
    (Table::Cycles, cycles::ROWS),
    (Table::Ageing, ageing::ROWS),
    (Table::Host, host::ROWS),
    (Table::Estimates, estimates::ROWS),
    (Table::Conversions, conversions::ROWS),
    (Table::Damage, damage::ROWS),
    (Table::Texts, texts::ROWS),
];

// Each table stands at its own number, by which the counts of its events are found.
const _: () = {
    let mut at = 0;
    while at < TABLES.len() {
        assert!(TABLES[at].0 as usize == at);
        at += 1;
    }
};

/// The eight calls, for the counts of their numbers.
#[derive(Clone, Copy, PartialEq, Eq)]
pub enum Kind {
    Open,
    Convert,
    Window,
    Rest,
    Write,
    Read,
    Preview,
    Estimate,
}

/// So many calls have numbers, and so many numbers are counted of each: 0, the work done, and the refusals.
pub const KINDS: usize = 8;
pub const NUMBERS_OF_A_CALL: usize = 17;

/// For each call its numbers and the parts in which they have to occur.
pub const NUMBERS: &[(Kind, &str, &[u32], &[Part])] = &[
    (Kind::Open, "open", &[0], &[Part::Lists, Part::Damaged]),
    (Kind::Open, "open", &[1, 2, 13], &[Part::Damaged]),
    (Kind::Convert, "convert", &[0], &[Part::Lists, Part::Gauges, Part::Damaged, Part::Older]),
    (Kind::Convert, "convert", &[14, 13], &[Part::Damaged, Part::Older]),
    (Kind::Window, "window", &[0], &[Part::Lists, Part::Gauges, Part::Older]),
    (Kind::Window, "window", &[3, 4, 5], &[Part::Lists, Part::Gauges]),
    (Kind::Window, "window", &[14], &[Part::Damaged, Part::Older]),
    (Kind::Rest, "rest", &[0], &[Part::Lists, Part::Gauges, Part::Older]),
    (Kind::Rest, "rest", &[6, 5], &[Part::Lists, Part::Gauges]),
    (Kind::Rest, "rest", &[14], &[Part::Damaged, Part::Older]),
    (Kind::Write, "write", &[0], &[Part::Lists, Part::Gauges, Part::Older]),
    (Kind::Write, "write", &[7, 8, 9, 10, 11], &[Part::Lists, Part::Gauges]),
    (Kind::Write, "write", &[14], &[Part::Damaged, Part::Older]),
    (Kind::Read, "read", &[0], &[Part::Lists, Part::Gauges, Part::Older]),
    (Kind::Read, "read", &[12, 13], &[Part::Lists, Part::Gauges]),
    (Kind::Read, "read", &[14], &[Part::Damaged, Part::Older]),
    (Kind::Preview, "preview", &[0], &[Part::Lists, Part::Gauges, Part::Older]),
    (Kind::Preview, "preview", &[8, 9, 10, 11, 13], &[Part::Lists, Part::Gauges]),
    (Kind::Preview, "preview", &[14], &[Part::Damaged, Part::Older]),
    (Kind::Estimate, "estimate", &[0], &[Part::Lists, Part::Gauges, Part::Older]),
    (Kind::Estimate, "estimate", &[15, 16], &[Part::Lists, Part::Gauges]),
    (Kind::Estimate, "estimate", &[14], &[Part::Damaged, Part::Older]),
];
