//! A rest of n windows at t (paper 01, the last paragraph of "A window"; the count: paper 02, A4 and A6).

use crate::gauge::{Gauge, CHGS, REST_COUNT_MAX};
use crate::leak;

/// A rest with arguments in range. TEMP, c, IAV and CHGS are the same after each of the n windows, so they are set once.
pub fn rest(gauge: &mut Gauge, windows: u32, t: i32) {
    gauge.temp = t;
    gauge.c = 0;
    gauge.flags &= !CHGS;
    let w = leak::w(t);
    for _ in 0..windows {
        gauge.take_leak(w);
        gauge.end_run_that_passes();
    }
    gauge.rest_count = counted(gauge.rest_count, windows);
}

/// The count after so many windows more: the sum is formed in 64 bits, so that it does not wrap before it stops.
fn counted(rest_count: u32, windows: u32) -> u32 {
    let sum = u64::from(rest_count) + u64::from(windows);
    sum.min(u64::from(REST_COUNT_MAX)) as u32
}
