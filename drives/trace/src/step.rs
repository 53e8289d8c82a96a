//! One call of a list, or one round of calls that have no rows, and how the gauge stands after it.

use crate::line::Line;
use reference::estimate::{self, Estimate};
use reference::fixing::FixingPoints;
use reference::gauge::Gauge;
use reference::history::Call;
use reference::leak::GRAINS_PER_COUNT;

/// A row of the table, on which the two implementations agree.
pub struct Step {
    /// The row's line in the table.
    pub row: usize,
    /// None for a round.
    pub line: Option<Line>,
    /// Windows since the first call, before this one and after it.
    pub from: u64,
    pub to: u64,
    /// 0, or the number with which the call was refused; 0 for a round.
    pub number: u32,
    /// After the call; none before the first opening that is not refused.
    pub gauge: Option<Gauge>,
    /// None of a round.
    pub points: FixingPoints,
}

impl Step {
    pub fn is_round(&self) -> bool {
        self.line.is_none()
    }

    pub fn refused(&self) -> bool {
        self.number != 0
    }

    /// Not refused, and no read, preview or estimate: the steps from which curves, bands and points are drawn.
    pub fn moves(&self) -> bool {
        let looks = matches!(
            self.line,
            Some(Line::One(Call::Read { .. } | Call::Preview { .. } | Call::Estimate { .. }) | Line::Preview(_))
        );
        !self.refused() && !looks
    }

    /// The voltage of an estimate that the gauge accepts, and what it gives; none for another call.
    pub fn estimate(&self) -> Option<(i32, Estimate)> {
        match (&self.line, &self.gauge) {
            (&Some(Line::One(Call::Estimate { voltage })), Some(gauge)) => {
                Some((voltage, estimate::estimate(gauge, voltage).ok()?))
            }
            _ => None,
        }
    }

    pub fn flags(&self) -> u8 {
        self.gauge.map_or(0, |gauge| gauge.flags)
    }

    pub fn nac(&self) -> i32 {
        self.gauge.map_or(0, |gauge| gauge.nac())
    }

    /// The charge with its fraction, in counts.
    pub fn held(&self) -> f64 {
        self.gauge.map_or(0.0, |gauge| gauge.h as f64 / GRAINS_PER_COUNT as f64)
    }
}

/// Windows of 5.12 s as hours.
pub fn hours(windows: u64) -> f64 {
    windows as f64 * 5.12 / 3600.0
}
