//! What a qualified run teaches (paper 01, step 4).

use crate::leak::GRAINS_PER_COUNT;

/// The new LMD for a run's drain and the old LMD: floor(16 × DCR / (15 × G)), at least the old one less its eighth, at most 65,535.
pub fn learned(drain: i64, old_lmd: i32) -> i32 {
    let taught = 16 * drain / (15 * GRAINS_PER_COUNT);
    let least = i64::from(old_lmd - old_lmd / 8);
    taught.max(least).min(65_535) as i32
}

/// The charge after a qualified run: floor(LMD / 16) × G of the new LMD.
pub fn charge_after(lmd: i32) -> i64 {
    i64::from(lmd / 16) * GRAINS_PER_COUNT
}
