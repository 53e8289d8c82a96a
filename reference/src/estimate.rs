//! The charge of a rested cell by its voltage (paper 02, A4).
//!
//! The paper stores a table of 301 entries and gives its rule: the floored straight line between nine points. Here no table is stored,
//! each entry is worked out by that rule where it is needed. So a wrong entry of a stored table shows against it.

use crate::gauge::Gauge;
use crate::refusal::{self, ESTIMATE_VOLTAGE_MIN};

/// The points, in mV and permille of LMD.
const POINTS: [(i32, i32); 9] =
    [(3000, 0), (3400, 40), (3600, 140), (3700, 350), (3800, 560), (3900, 700), (4000, 830), (4100, 930), (4200, 1000)];

/// From one entry of the table to the next, in mV.
pub const STEP: i32 = 4;

/// An estimate in counts, and its signed distance from NAC, from −65,535 to 65,535.
#[derive(Clone, Copy, Debug, PartialEq, Eq)]
pub struct Estimate {
    pub counts: i32,
    pub distance: i32,
}

/// The estimate of a gauge at a voltage in mV. The gauge is not moved. Refuses 15, 16.
pub fn estimate(gauge: &Gauge, voltage: i32) -> Result<Estimate, u32> {
    refusal::estimate(gauge.rest_count, voltage)?;
    let counts = counts(voltage, gauge.lmd);
    Ok(Estimate { counts, distance: counts - gauge.nac() })
}

/// floor(permille × LMD / 1,000), for a voltage of the table.
pub fn counts(voltage: i32, lmd: i32) -> i32 {
    permille(voltage) * lmd / 1_000
}

/// The table's permille for a voltage in its range: that of the entry at it, or else of the next one below.
pub fn permille(voltage: i32) -> i32 {
    on_the_line(voltage - (voltage - ESTIMATE_VOLTAGE_MIN) % STEP)
}

/// The straight line between the points, floored. It never falls, so the division that cuts is the floor.
fn on_the_line(voltage: i32) -> i32 {
    let between = POINTS.windows(2).find(|ends| voltage <= ends[1].0);
    let ((v0, p0), (v1, p1)) = between.map(|ends| (ends[0], ends[1])).expect("a voltage of the table");
    p0 + (p1 - p0) * (voltage - v0) / (v1 - v0)
}
