//! The five steps of a window (paper 01, "A window"), and what it does to the count of rest windows and to the cycles (paper 02, A4
//! and A5).

use crate::cycles;
use crate::gauge::{Gauge, CHGS, CI, EDV1, EDVF, VDQ};
use crate::leak::{self, GRAINS_PER_UNIT};
use crate::learning;

/// From this voltage on, in mV, a charge that has tapered off is full.
const FULL_VOLTAGE: i32 = 4_100;

/// The full test of step 3, of the charge after step 2. Charging is asked for in both cases: c > 0 stands before the bracket.
pub fn is_full(c: i32, v: i32, taper: i32, h: i64, full_charge: i64) -> bool {
    c > 0 && (h >= full_charge || (c <= 2 * taper && v >= FULL_VOLTAGE))
}

/// A window with arguments in range.
pub fn window(gauge: &mut Gauge, a: i32, v: i32, t: i32) {
    gauge.c = gauge.configuration.counted(a);
    gauge.volt = v;
    gauge.temp = t;
    cycles::count(gauge);
    step_1(gauge);
    step_2(gauge);
    step_3(gauge);
    step_4(gauge);
    step_5(gauge);
    end_rest(gauge);
}

/// CHGS, and the leak by the NAC from before the window, charging or not. VOLT, TEMP and c (so IAV too) are set by now.
fn step_1(gauge: &mut Gauge) {
    if gauge.c > 0 {
        gauge.flags |= CHGS;
    } else {
        gauge.flags &= !CHGS;
    }
    gauge.take_leak(leak::w(gauge.temp));
}

/// The current. h may be below 0 until step 3. A run that passes here is over and does not teach in step 4.
fn step_2(gauge: &mut Gauge) {
    let charge = GRAINS_PER_UNIT * i64::from(gauge.c);
    gauge.h += charge;
    if gauge.c > 0 {
        gauge.flags &= !(VDQ | EDV1 | EDVF);
        gauge.dcr = 0;
    } else if gauge.vdq() {
        gauge.dcr -= charge;
    }
    gauge.end_run_that_passes();
}

/// Full, or empty stop, which keeps VDQ.
fn step_3(gauge: &mut Gauge) {
    let taper = gauge.configuration.taper();
    if is_full(gauge.c, gauge.volt, taper, gauge.h, gauge.full_charge()) {
        gauge.fill();
    } else if gauge.c < 0 && gauge.h <= 0 {
        gauge.h = 0;
    }
}

/// The end-of-discharge voltages. A window that falls past E1 to EDVF does not teach; an empty stop in step 3 shuts nothing out.
fn step_4(gauge: &mut Gauge) {
    if gauge.c >= 0 {
        return;
    }
    if gauge.volt <= gauge.configuration.edvf() {
        gauge.h = 0;
        gauge.flags |= EDVF | EDV1;
        gauge.end_run();
    } else if gauge.volt <= gauge.configuration.e1() {
        gauge.flags |= EDV1;
        if qualifies(gauge) {
            gauge.lmd = learning::learned(gauge.dcr, gauge.lmd);
            gauge.h = learning::charge_after(gauge.lmd);
            gauge.flags &= !CI;
        }
        gauge.end_run();
    }
}

fn qualifies(gauge: &Gauge) -> bool {
    gauge.vdq() && gauge.temp >= gauge.configuration.cold_limit() && gauge.iav() > gauge.configuration.standby_limit()
}

/// The standby current follows light discharges, in sixteenths (paper 02, A1). It stays exactly where the SI shown is the load.
fn step_5(gauge: &mut Gauge) {
    if gauge.c < 0 && gauge.iav() <= gauge.configuration.standby_limit() {
        gauge.si_sixteenths = 15 * gauge.si_sixteenths / 16 + gauge.iav();
    }
}

/// A counted current ends the rest. A window without one is no rest window either: it neither counts nor clears (paper 02, A4).
fn end_rest(gauge: &mut Gauge) {
    if gauge.c != 0 {
        gauge.rest_count = 0;
    }
}
