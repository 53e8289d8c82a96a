//! The conditions of 14 that every form of the saved bytes has (paper 01, "Saved gauge"). What a form asks beyond them stands in
//! `forms`.

use crate::gauge::{Gauge, CHGS, CI, EDV1, EDVF, VDQ};
use crate::leak::GREATEST_DRAIN;
use crate::refusal;

/// All but length, form, ILMD, SI and the cycle drain.
pub fn accepted(gauge: &Gauge) -> bool {
    charge_accepted(gauge) && measures_accepted(gauge) && flags_accepted(gauge)
}

/// LMD > 0, h ≤ LMD × G, DCR ≤ 65,535 × G and 0 without VDQ.
fn charge_accepted(gauge: &Gauge) -> bool {
    let greatest_dcr = if gauge.vdq() { GREATEST_DRAIN } else { 0 };
    gauge.lmd > 0 && (0..=gauge.full_charge()).contains(&gauge.h) && (0..=greatest_dcr).contains(&gauge.dcr)
}

/// c in range and 0 or beyond DMF, VOLT and TEMP 0 or in range.
fn measures_accepted(gauge: &Gauge) -> bool {
    refusal::current_in_range(gauge.c)
        && (gauge.c == 0 || gauge.iav() > gauge.configuration.dmf())
        && (gauge.volt == 0 || refusal::voltage_in_range(gauge.volt))
        && (gauge.temp == 0 || refusal::temperature_in_range(gauge.temp))
}

/// CHGS exactly if c > 0, flag bits without a name 0.
fn flags_accepted(gauge: &Gauge) -> bool {
    (gauge.flags & CHGS != 0) == (gauge.c > 0) && gauge.flags & !(CHGS | CI | VDQ | EDV1 | EDVF) == 0
}
