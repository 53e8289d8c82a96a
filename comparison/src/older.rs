//! Gauges in older forms of the saved bytes, made of gauges in the newest (paper 02, A1, A4, A5 and A6).

use crate::fields::{Cycles, Fields, RestCount};
use crate::random::Random;
use reference::history::History;
use reference::saved;

/// The length of forms 1 and 2, of form 3 and of form 4.
pub const LENGTH_1_AND_2: usize = 41;
pub const LENGTH_3: usize = 43;
pub const LENGTH_4: usize = 53;

/// The numbers of all forms, each with its length.
pub const FORMS: [(u8, usize); 5] =
    [(1, LENGTH_1_AND_2), (2, LENGTH_1_AND_2), (3, LENGTH_3), (4, LENGTH_4), (saved::FORM, saved::LENGTH)];

/// Where the count of rest windows stopped in the versions that had forms 3 and 4 (paper 02, A4).
pub const FORMER_STOP: u32 = 65_535;

/// The fields of a gauge in a form, as the version that had the form would hold it. What the form lacks is left out: the cycles before
/// form 4, the count of rest windows before form 3, and in form 1 the parts of a unit of SI. Forms 3 and 4 have the count up to the
/// 65,535 at which their versions stopped.
pub fn in_form(form: u8, fields: &Fields) -> Fields {
    let mut fields = Fields { form, ..fields.clone() };
    if form < 5 {
        fields.rest_count = fields.rest_count.map(|count| RestCount::TwoBytes(count.windows().min(FORMER_STOP) as u16));
    }
    if form < 4 {
        fields.cycles = None;
    }
    if form < 3 {
        fields.rest_count = None;
    }
    if form < 2 {
        fields.si /= 16;
    }
    fields
}

/// The fields in any older form.
pub fn any(random: &mut Random, fields: &Fields) -> Fields {
    in_form(random.pick(&[1, 2, 3, 4]), fields)
}

/// The gauge of these bytes in a form. The bytes as they are where they hold no gauge.
pub fn re_expressed(form: u8, bytes: &[u8]) -> Vec<u8> {
    match saved::load(bytes) {
        Ok(_) => in_form(form, &Fields::of(bytes)).bytes(),
        Err(_) => bytes.to_vec(),
    }
}

/// The gauge of these bytes after a form has held it: 0 for what the form lacks.
pub fn carried_over(form: u8, bytes: &[u8]) -> Vec<u8> {
    let held = in_form(form, &Fields::of(bytes));
    let carried = Fields {
        form: saved::FORM,
        si: if form == 1 { 16 * held.si } else { held.si },
        rest_count: Some(RestCount::FourBytes(held.rest_count.map_or(0, RestCount::windows))),
        cycles: held.cycles.or_else(|| Some(Cycles::default())),
        ..held
    };
    carried.bytes()
}

/// The history of such a gauge: it begins anew with what the form lacks, has counted to 65,535 at most in forms 3 and 4, and goes on
/// with all else.
pub fn forget(form: u8, history: &mut History) {
    if form < 5 {
        history.rest_windows = history.rest_windows.min(u64::from(FORMER_STOP));
    }
    if form < 4 {
        history.cycles = 0;
        history.cycle_drain = 0;
    }
    if form < 3 {
        history.rest_windows = 0;
    }
}
