//! What the compensated registers show: DCMP, CAC, FCAC and the times (paper 01, "Registers"; the age: paper 02, A5).

use crate::cycles::CYCLES_AN_AGE_STEP;
use crate::gauge::Gauge;

/// A time that is not known, not in this direction, or longer than its register holds.
const NO_TIME: i64 = 65_535;

/// The denominator of DCMP, 32,768, times the 32 by which the age is divided: one ceiling over the joined fraction (paper 02, A5).
const DENOMINATOR: i64 = 32 * 32_768;

/// DCMP(I), in counts: the ceiling of the quotient, at least 0. Its first term ages, DCOFF does not. The greatest first term is
/// 2,689,602,566,261,820.
pub fn dcmp(gauge: &Gauge, i: i32) -> i64 {
    let configuration = &gauge.configuration;
    let slope = 128 + configuration.tcgn() * degrees_below(gauge);
    let offset = 32 * 4_096 * configuration.dcoff() * i64::from(configuration.ilmd());
    let dividend = configuration.dcgn() * (i64::from(i) * aged(gauge) * slope - offset);
    (dividend.max(0) + DENOMINATOR - 1) / DENOMINATOR
}

/// What DCGN is multiplied by for the cell's age, in parts of 32: 32 + TCGN × quotient × GAF, with the whole quotient of CYCT / 16.
fn aged(gauge: &Gauge) -> i64 {
    let quotient = i64::from(gauge.cyct / CYCLES_AN_AGE_STEP);
    32 + gauge.configuration.tcgn() * quotient * gauge.configuration.gaf()
}

/// dt, in quarter kelvins: how far TEMP is below 4 × (273 + TOFF); 0 if TEMP is not measured yet.
fn degrees_below(gauge: &Gauge) -> i64 {
    if gauge.temp == 0 {
        return 0;
    }
    i64::from((gauge.configuration.cold_limit() - gauge.temp).max(0))
}

/// D: the compensation of the last current if it discharged, else DCMP(0).
fn d(gauge: &Gauge) -> i64 {
    dcmp(gauge, if gauge.c < 0 { gauge.iav() } else { 0 })
}

pub fn cac(gauge: &Gauge) -> i64 {
    (i64::from(gauge.nac()) - d(gauge)).max(0)
}

pub fn fcac(gauge: &Gauge) -> i64 {
    (i64::from(gauge.lmd) - d(gauge)).max(0)
}

pub fn rsoc(gauge: &Gauge) -> i64 {
    i64::from(100 * gauge.nac() / gauge.lmd)
}

pub fn tte(gauge: &Gauge) -> i64 {
    if gauge.c < 0 {
        minutes(60 * cac(gauge), gauge.iav())
    } else {
        NO_TIME
    }
}

pub fn ttf(gauge: &Gauge) -> i64 {
    if gauge.c > 0 {
        minutes(90 * i64::from(gauge.lmd - gauge.nac()), gauge.iav())
    } else {
        NO_TIME
    }
}

/// By the SI that is shown, not by its sixteenths (paper 02, A1).
pub fn stte(gauge: &Gauge) -> i64 {
    minutes(60 * i64::from(gauge.nac()), gauge.si())
}

pub fn artte(gauge: &Gauge) -> i64 {
    let at_rate = (i64::from(gauge.nac()) - dcmp(gauge, gauge.ar)).max(0);
    minutes(60 * at_rate, gauge.ar)
}

/// The floored quotient; 65,535 above it or with divisor 0.
fn minutes(dividend: i64, divisor: i32) -> i64 {
    if divisor == 0 {
        NO_TIME
    } else {
        (dividend / i64::from(divisor)).min(NO_TIME)
    }
}
