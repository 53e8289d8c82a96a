//! The newest form of the saved bytes: what saving writes, and the only form that the calls take, converting aside (paper 02, A1).

use crate::forms::{self, FORM_5};
use crate::gauge::Gauge;
use crate::refusal;

pub const FORM: u8 = 5;
pub const LENGTH: usize = FORM_5.length();

/// The gauge that bytes of the newest form hold, or 14. An older form is 14 here; `forms::load` reads it.
pub fn load(saved: &[u8]) -> Result<Gauge, u32> {
    match saved.first() {
        Some(&FORM) => forms::held(&FORM_5, saved).ok_or(refusal::SAVED),
        _ => Err(refusal::SAVED),
    }
}

/// The bytes of a gauge, at the places that `forms` names. Every value of a gauge that a call leaves fits its field.
pub fn store(gauge: &Gauge, saved: &mut [u8; LENGTH]) {
    saved[0] = FORM;
    saved[1..11].copy_from_slice(&gauge.configuration.bytes);
    saved[11..19].copy_from_slice(&gauge.h.to_le_bytes());
    saved[19..27].copy_from_slice(&gauge.dcr.to_le_bytes());
    let pairs = [gauge.lmd, gauge.si_sixteenths, gauge.c, gauge.volt, gauge.temp, gauge.ar];
    for (place, value) in saved[27..39].chunks_exact_mut(2).zip(pairs) {
        place.copy_from_slice(&(value as u16).to_le_bytes());
    }
    saved[39] = gauge.mode;
    saved[40] = gauge.flags;
    FORM_5.put_behind_first(gauge, saved);
}
