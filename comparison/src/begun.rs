//! How a trial begins: a gauge is opened, handed in or converted, on both sides, and a history begins at it.

use crate::both::Both;
use crate::conversions;
use crate::counts::Counts;
use crate::cycles;
use crate::difference::{same, Difference};
use crate::origin::Origin;
use crate::rest_counts;
use crate::table::{Kind, Part};
use crate::trial::Start;
use reference::configuration::Configuration;
use reference::gauge::Gauge;
use reference::history::History;
use reference::refusal::SAVED;
use reference::{forms, saved};

/// What bytes hold that are lent to an opening or to a conversion of a whole gauge.
pub const LENT: [u8; saved::LENGTH] = [0xEE; saved::LENGTH];

pub struct Begun {
    pub both: Both,
    /// None where the bytes hold no gauge.
    pub history: Option<History>,
    pub origin: Origin,
}

impl Begun {
    pub fn at(start: &Start, part: Part, counts: &mut Counts) -> Result<Begun, Difference> {
        match start {
            Start::Opened(configuration) => {
                let mut both = Both::new(&LENT);
                let number = both.open(configuration)?;
                counts.add_number(part, Kind::Open, number);
                same("number of opening", number, 0)?;
                let history = Configuration::new(configuration).map(History::opened).expect("ILMD above 0");
                Ok(Begun { both, history: Some(history), origin: Origin::newest() })
            }
            Start::Saved { bytes, accepted } => {
                let held = saved::load(bytes);
                same_if_known("saved bytes accepted", held.is_ok(), *accepted)?;
                let history = history_of(held);
                if let Some(history) = &history {
                    rest_counts::handed_in(counts, part, history.rest_count());
                    cycles::handed_in(counts, part, history);
                }
                Ok(Begun { both: Both::new(bytes), history, origin: Origin::newest() })
            }
            Start::Converted { old, lent, readable } => {
                let mut both = Both::new(lent);
                let number = both.convert(old)?;
                conversions::count(counts, part, old, lent, number);
                same_if_known("old bytes read", number != SAVED, *readable)?;
                Ok(Begun::converted(both, old, lent, number))
            }
        }
    }

    /// The history begins at what the old bytes hold. Where they are refused, the lent bytes are left, with a gauge or not.
    fn converted(both: Both, old: &[u8], lent: &[u8], number: u32) -> Begun {
        let history = history_of(if number == 0 { forms::load(old) } else { saved::load(lent) });
        let mut origin = Origin::newest();
        if let (0, Some(history)) = (number, &history) {
            origin.convert(old[0], history);
        }
        Begun { both, history, origin }
    }
}

fn same_if_known(what: &str, found: bool, known: Option<bool>) -> Result<(), Difference> {
    known.map_or(Ok(()), |known| same(what, found, known))
}

fn history_of(held: Result<Gauge, u32>) -> Option<History> {
    held.ok().map(|gauge| History::begun(&gauge))
}
