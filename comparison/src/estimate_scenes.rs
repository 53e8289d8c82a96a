//! Scenes with a rested cell: the count of rest windows, and estimates (paper 02, A4).

use crate::host;
use crate::rests::DAY;
use crate::sweep;
use crate::values;
use crate::writer::Writer;
use reference::estimate;
use reference::refusal::{ESTIMATE_REST_MIN, ESTIMATE_VOLTAGE_MAX, ESTIMATE_VOLTAGE_MIN};

/// A rest up to what an estimate asks for, or one window beside it, and what follows on it.
pub fn rested(writer: &mut Writer) {
    if writer.random.one_in(2) {
        begin_anew(writer);
    }
    let target = i64::from(ESTIMATE_REST_MIN) + writer.random.pick(&[-1, -1, 0, 0, 0, 1, 200]);
    rest_to(writer, target);
    some_estimates(writer);
    match writer.random.below(6) {
        0 => writer.rest(1, 1_192),
        1 => set_by_estimate(writer),
        2 => far_from_nac(writer),
        3 => host::command(writer),
        4 => idle_window(writer),
        _ => begin_anew(writer),
    }
    some_estimates(writer);
}

/// All entries of the table, with a capacity that shows every permille.
pub fn whole_table(writer: &mut Writer) {
    rest_to(writer, i64::from(ESTIMATE_REST_MIN));
    let capacity = 65_535 - writer.random.amount(64_535);
    writer.command(Some(capacity), 0x01, 0x56);
    let voltages: Vec<i32> = sweep::voltages(&mut writer.random).collect();
    for voltage in voltages {
        writer.estimate(voltage);
    }
}

/// The count begins anew: by a current, or by a reset.
pub fn begin_anew(writer: &mut Writer) {
    match writer.random.below(4) {
        0 => writer.command(None, 0x08, 0xA9),
        1 => writer.command(None, 0x02, 0xA9),
        _ => {
            let amount = writer.configuration.dmf() + 1;
            let current = writer.random.pick(&[amount, -amount]);
            let (voltage, temperature) = (writer.voltage_above_e1(), writer.temperature());
            writer.window(current, voltage, temperature);
        }
    }
}

/// Rests until the count would come to a target, in pieces, now and then with a window between them that does not count.
pub fn rest_to(writer: &mut Writer, target: i64) {
    let mut left = target - i64::from(writer.history.rest_count());
    while left > 0 {
        let whole = left.min(i64::from(DAY));
        let windows = if writer.random.one_in(3) { writer.random.range(1, whole) } else { whole };
        let temperature = writer.temperature();
        writer.rest(windows, temperature);
        if writer.random.one_in(3) {
            idle_window(writer);
        }
        left -= windows;
    }
}

/// A window whose current does not count: 0, or DMF either way.
pub fn idle_window(writer: &mut Writer) {
    let dmf = writer.configuration.dmf();
    let current = writer.random.pick(&[0, dmf, -dmf]);
    let voltage = values::voltage(&mut writer.random, &writer.configuration);
    let temperature = writer.temperature();
    writer.window(current, voltage, temperature);
}

pub fn some_estimates(writer: &mut Writer) {
    for _ in 0..writer.random.range(1, 3) {
        let voltage = values::estimate_voltage(&mut writer.random);
        writer.estimate(voltage);
    }
}

/// NAC is set to the estimate, or to one count beside it, and the estimate made again.
fn set_by_estimate(writer: &mut Writer) {
    let least = i64::from(ESTIMATE_VOLTAGE_MIN);
    let voltage = writer.random.range(least, i64::from(ESTIMATE_VOLTAGE_MAX)) as i32;
    let beside = writer.random.pick(&[-1, 0, 0, 1]);
    let ar = i64::from(estimate::counts(voltage, writer.history.l)) + beside;
    writer.estimate(voltage);
    writer.command(Some(ar), 0x20, 0xA9);
    writer.estimate(voltage);
}

/// The greatest capacity, full and then empty: the estimate is as far from NAC as it can be.
fn far_from_nac(writer: &mut Writer) {
    writer.command(Some(65_535), 0x01, 0x56);
    writer.command(None, 0x10, 0xA9);
    writer.estimate(ESTIMATE_VOLTAGE_MIN);
    writer.command(Some(0), 0x20, 0xA9);
    writer.estimate(ESTIMATE_VOLTAGE_MAX);
}
