//! Cycles: what the windows discharge, in whole capacities (paper 02, A5).

use crate::gauge::Gauge;
use crate::leak::{GRAINS_PER_COUNT, GRAINS_PER_UNIT};

/// Where CYCT stops.
pub const CYCLES_MAX: i32 = 65_535;

/// The cycle drain of a gauge is below this, in grains. It need not be below LMD × G: WRTLMD or a qualified run can make LMD smaller.
pub const CYCLE_DRAIN_LIMIT: i64 = 65_535 * GRAINS_PER_COUNT;

/// So many cycles are one step of age.
pub const CYCLES_AN_AGE_STEP: i32 = 16;

/// A window adds its counted discharge to the drain, in full, below empty too; the leak is no part of it. Then every whole LMD × G in
/// the drain is a cycle and leaves it, at the stop of CYCT too. A window without discharge adds 0 and counts what is whole. LMD is
/// that before the window, so this comes before its steps.
pub fn count(gauge: &mut Gauge) {
    gauge.cycle_drain += discharge(gauge.c);
    let whole = gauge.cycle_drain / gauge.full_charge();
    gauge.cycle_drain %= gauge.full_charge();
    gauge.cyct = (i64::from(gauge.cyct) + whole).min(i64::from(CYCLES_MAX)) as i32;
}

/// The counted discharge of a window, in grains: 0 where it charges or has no counted current.
pub fn discharge(c: i32) -> i64 {
    GRAINS_PER_UNIT * i64::from((-c).max(0))
}
