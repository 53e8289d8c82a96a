//! The forms of the saved bytes, and reading bytes of any of them (paper 01, "Saved gauge"; paper 02, A1, A4, A5 and A6).
//!
//! Every form begins with the 41 bytes of paper 01: form at 0; configuration at 1; h at 11 and DCR at 19, 8 bytes each; LMD at 27, SI
//! at 29, c at 31, VOLT at 33, TEMP at 35 and AR at 37, 2 bytes each; MODE at 39; FLAGS at 40. Numbers stand low byte first. What
//! follows on these bytes is in the table, where each form is the one before it with what its request changed.

use crate::acceptance;
use crate::configuration::Configuration;
use crate::cycles::CYCLE_DRAIN_LIMIT;
use crate::gauge::{Gauge, SIXTEENTHS};
use crate::refusal;

/// The bytes that every form begins with, and all bytes of forms 1 and 2.
const FIRST: usize = 41;

/// A form: the unit of its SI, and how many bytes it has for each field behind the first 41, in this order. It has none for a field
/// that it lacks, which is read as 0.
#[derive(Clone, Copy)]
pub struct Form {
    /// In sixteenths.
    si_unit: i32,
    rest_count: usize,
    cyct: usize,
    cycle_drain: usize,
}

/// Paper 01.
const FORM_1: Form = Form { si_unit: SIXTEENTHS, rest_count: 0, cyct: 0, cycle_drain: 0 };
/// A1: SI in sixteenths.
const FORM_2: Form = Form { si_unit: 1, ..FORM_1 };
/// A4: the count of rest windows.
const FORM_3: Form = Form { rest_count: 2, ..FORM_2 };
/// A5: CYCT and the cycle drain.
const FORM_4: Form = Form { cyct: 2, cycle_drain: 8, ..FORM_3 };
/// A6: the wider count in place of the two bytes.
pub const FORM_5: Form = Form { rest_count: 4, ..FORM_4 };

impl Form {
    const fn cyct_at(&self) -> usize {
        FIRST + self.rest_count
    }

    const fn cycle_drain_at(&self) -> usize {
        self.cyct_at() + self.cyct
    }

    pub const fn length(&self) -> usize {
        self.cycle_drain_at() + self.cycle_drain
    }

    /// Puts the fields behind the first 41 bytes in their places. Those of every gauge fit the newest form.
    pub fn put_behind_first(&self, gauge: &Gauge, saved: &mut [u8]) {
        put(saved, FIRST, self.rest_count, u64::from(gauge.rest_count));
        put(saved, self.cyct_at(), self.cyct, gauge.cyct as u64);
        put(saved, self.cycle_drain_at(), self.cycle_drain, gauge.cycle_drain as u64);
    }
}

/// Loading: the gauge that bytes of any form hold, carried over, or 14.
pub fn load(saved: &[u8]) -> Result<Gauge, u32> {
    let held = match saved.first() {
        Some(1) => held(&FORM_1, saved),
        Some(2) => held(&FORM_2, saved),
        Some(3) => held(&FORM_3, saved),
        Some(4) => held(&FORM_4, saved),
        Some(5) => held(&FORM_5, saved),
        _ => None,
    };
    held.ok_or(refusal::SAVED)
}

/// The gauge of bytes in a form. None for a length that is not the form's or a broken condition.
///
/// SI is at most 2 × S0 in units, which is 32 × S0 in sixteenths (paper 02, A1); the product is wider than two bytes, so none wraps. The
/// cycle drain is below 65,535 × G (A5). The count of rest windows and CYCT may be any number that their bytes hold.
/// Always inlined: handed back by a call of its own, the gauge would be copied once more in every call of the handset.
#[inline(always)]
pub fn held(form: &Form, saved: &[u8]) -> Option<Gauge> {
    if saved.len() != form.length() {
        return None;
    }
    let gauge = Gauge {
        configuration: Configuration::new(&saved[1..11]).ok()?,
        h: grains(saved, 11, 8),
        dcr: grains(saved, 19, 8),
        lmd: pair(saved, 27),
        si_sixteenths: form.si_unit * pair(saved, 29),
        c: i32::from(i16::from_le_bytes([saved[31], saved[32]])),
        volt: pair(saved, 33),
        temp: pair(saved, 35),
        ar: pair(saved, 37),
        mode: saved[39],
        flags: saved[40],
        rest_count: number(saved, FIRST, form.rest_count) as u32,
        cyct: number(saved, form.cyct_at(), form.cyct) as i32,
        cycle_drain: grains(saved, form.cycle_drain_at(), form.cycle_drain),
    };
    let standby_accepted = gauge.si_sixteenths <= SIXTEENTHS * gauge.configuration.standby_limit();
    let cycles_accepted = (0..CYCLE_DRAIN_LIMIT).contains(&gauge.cycle_drain);
    (acceptance::accepted(&gauge) && standby_accepted && cycles_accepted).then_some(gauge)
}

/// So many bytes as a number, up to eight of them; 0 for none.
#[inline(always)]
fn number(saved: &[u8], at: usize, width: usize) -> u64 {
    let mut bytes = [0; 8];
    bytes[..width].copy_from_slice(&saved[at..at + width]);
    u64::from_le_bytes(bytes)
}

fn pair(saved: &[u8], at: usize) -> i32 {
    number(saved, at, 2) as i32
}

/// A charge or drain, as a signed number: what would be 2^63 or more comes out below 0 and is refused for that.
fn grains(saved: &[u8], at: usize, width: usize) -> i64 {
    number(saved, at, width) as i64
}

fn put(saved: &mut [u8], at: usize, width: usize, number: u64) {
    saved[at..at + width].copy_from_slice(&number.to_le_bytes()[..width]);
}
