//! Grains and the leak of a window (paper 01, "Grains and leak").

/// G: a count in grains.
pub const GRAINS_PER_COUNT: i64 = 135_000_000;

/// What a unit of counted current brings in one window, in grains.
pub const GRAINS_PER_UNIT: i64 = 192_000;

/// The drain that a run may have at most, in grains: 65,535 × G. A run passes strictly above it.
pub const GREATEST_DRAIN: i64 = 65_535 * GRAINS_PER_COUNT;

/// The temperatures, in quarter kelvins, at which the band rises.
const BAND_RISES: [i32; 7] = [1092, 1132, 1172, 1212, 1252, 1292, 1332];
const BAND_TABLE: [i64; 8] = [1, 2, 4, 8, 16, 32, 64, 128];

/// W of a temperature.
pub fn w(t: i32) -> i64 {
    let band = BAND_RISES.iter().filter(|&&rise| t >= rise).count();
    BAND_TABLE[band]
}

/// NAC = floor(h / G). The charge held is never below 0 between two calls, so the division that cuts is the floor.
pub fn nac(h: i64) -> i64 {
    h / GRAINS_PER_COUNT
}

/// The leak of a window that begins with charge h. It is below G for every count held, so a leak alone never takes h below 0.
pub fn leak(h: i64, sd: i64, w: i64) -> i64 {
    nac(h) * sd * w
}
