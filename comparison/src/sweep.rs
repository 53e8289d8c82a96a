//! The estimate's table from end to end (paper 02, A4).

use crate::random::Random;
use reference::estimate::STEP;
use reference::refusal::{ESTIMATE_VOLTAGE_MAX, ESTIMATE_VOLTAGE_MIN};

/// For each entry of the table a voltage that takes it: its own, or one between it and the next.
pub fn voltages(random: &mut Random) -> impl Iterator<Item = i32> + '_ {
    (ESTIMATE_VOLTAGE_MIN..=ESTIMATE_VOLTAGE_MAX).step_by(STEP as usize).map(|entry| {
        let above = random.range(0, i64::from(STEP) - 1) as i32;
        (entry + above).min(ESTIMATE_VOLTAGE_MAX)
    })
}
