//! A gauge that sums rounded steps: the fault of the gauge shipped before, as the user describes it.
//!
//! The rule. The charge is kept in steps of 1/256 count: the register pair NAC and one byte of fraction. A window changes it by
//! current and leak together, as paper 01 has them, and this change is brought to whole steps before it is summed: the part of a
//! step that is left over is dropped, as a division of whole numbers in C does it. Nothing else differs: the counted current,
//! the full test, the empty stop and the EDVF window are those of paper 01. It learns nothing; LMD is the design capacity.

use reference::configuration::Configuration;
use reference::leak::{self, GRAINS_PER_COUNT, GRAINS_PER_UNIT};
use reference::window::is_full;

const STEPS_PER_COUNT: i64 = 256;

pub struct Rounded {
    configuration: Configuration,
    steps: i64,
}

impl Rounded {
    pub fn opened(configuration: Configuration) -> Rounded {
        Rounded { configuration, steps: 0 }
    }

    pub fn nac(&self) -> i64 {
        self.steps / STEPS_PER_COUNT
    }

    /// The charge with its fraction, in counts.
    pub fn held(&self) -> f64 {
        self.steps as f64 / STEPS_PER_COUNT as f64
    }

    /// A window with arguments in range.
    pub fn window(&mut self, a: i32, v: i32, t: i32) {
        let c = self.configuration.counted(a);
        self.steps += whole_steps(GRAINS_PER_UNIT * i64::from(c) - self.leak(t));
        if is_full(c, v, self.configuration.taper(), self.grains(), self.full()) {
            self.steps = i64::from(self.configuration.design_capacity()) * STEPS_PER_COUNT;
        }
        if c < 0 && (self.steps <= 0 || v <= self.configuration.edvf()) {
            self.steps = 0;
        }
    }

    fn leak(&self, t: i32) -> i64 {
        leak::leak(self.grains(), self.configuration.sd(), leak::w(t))
    }

    fn grains(&self) -> i64 {
        self.steps * GRAINS_PER_COUNT / STEPS_PER_COUNT
    }

    fn full(&self) -> i64 {
        i64::from(self.configuration.design_capacity()) * GRAINS_PER_COUNT
    }
}

/// A change in grains as whole steps; the division drops what is left over, in either direction.
fn whole_steps(grains: i64) -> i64 {
    grains * STEPS_PER_COUNT / GRAINS_PER_COUNT
}

#[cfg(test)]
mod tests {
    use super::*;
    use reference::bench::BENCH_PACK;

    #[test]
    fn a_step_drops_what_is_left_over() {
        assert_eq!(whole_steps(-100 * GRAINS_PER_UNIT), -36); // of 36.4
        assert_eq!(whole_steps(100 * GRAINS_PER_UNIT), 36);
        assert_eq!(whole_steps(-5 * GRAINS_PER_UNIT), -1); // of 1.8
    }

    #[test]
    fn full_and_edvf_set_it_right() {
        let mut rounded = Rounded::opened(Configuration::new(&BENCH_PACK).unwrap());
        rounded.window(20, 4150, 1192);
        assert_eq!(rounded.nac(), 1024);
        rounded.window(-100, 2800, 1192);
        assert_eq!(rounded.nac(), 0);
    }
}
