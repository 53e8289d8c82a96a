//! Scenes with rests of more than a day, up to thirty days, and with a count that two bytes do not hold (paper 02, A6).

use crate::estimate_scenes::{begin_anew, idle_window, rest_to, some_estimates};
use crate::host;
use crate::older::FORMER_STOP;
use crate::rests::DAY;
use crate::values;
use crate::writer::Writer;
use reference::leak::{w, GRAINS_PER_COUNT, GRAINS_PER_UNIT};
use reference::refusal::{CURRENT_MAX, ESTIMATE_REST_MIN, TEMPERATURE_MAX, TEMPERATURE_MIN};

/// The hottest band, and all temperatures.
const HOTTEST: (i32, i32) = (1_332, TEMPERATURE_MAX);
const ANY: (i32, i32) = (TEMPERATURE_MIN, TEMPERATURE_MAX);

/// So many rests that end beside a step are made one after the other. For each, so many charges are tried to find one whose first step
/// is longer than a day.
const STEPS: usize = 6;
const CHARGES_TRIED: usize = 60;

/// A handset on the shelf, whose cell leaks: a long rest of one kind or another, and estimates after it.
pub fn stored(writer: &mut Writer) {
    match writer.random.below(10) {
        0..=2 => leaves_few(writer),
        3 | 4 => leaves_none(writer),
        5 | 6 => keeps_nac(writer),
        7 => (0..STEPS).for_each(|_| beside_a_step(writer)),
        8 => without_leak(writer),
        _ => from_full(writer),
    }
    some_estimates(writer);
}

fn rest(writer: &mut Writer, windows: i64, (least, greatest): (i32, i32)) {
    let temperature = writer.random.range(i64::from(least), i64::from(greatest)) as i32;
    writer.rest(windows, temperature);
}

/// A full cell, with a run.
fn from_full(writer: &mut Writer) {
    writer.start_run();
    let windows = values::more_than_a_day(&mut writer.random);
    rest(writer, windows, ANY);
}

/// A great capacity, full, with a run or without, in the hottest band, where SD 15 leaves some hundreds of counts after a month.
fn leaves_few(writer: &mut Writer) {
    let capacity = 65_535 - writer.random.amount(3_000);
    writer.command(Some(capacity), 0x01, 0x56);
    let full = writer.random.pick(&[0x10, 0x20]);
    writer.command(Some(capacity), full, 0xA9);
    let days = writer.random.one_in(3);
    let windows = if days { values::some_days(&mut writer.random) } else { values::about_a_month(&mut writer.random) };
    rest(writer, windows, HOTTEST);
}

/// Few counts, which SD 15 brings to NAC 0 in the hottest band.
fn leaves_none(writer: &mut Writer) {
    let counts = writer.random.range(2, 60);
    writer.command(Some(counts), 0x20, 0xA9);
    let windows = values::about_a_month(&mut writer.random);
    rest(writer, windows, HOTTEST);
}

/// An empty cell holds what one window charges. The current brings it to one count and nearly another, of which a month takes less than
/// that where SD × W is at most 266.
fn keeps_nac(writer: &mut Writer) {
    writer.command(Some(2), 0x01, 0x56);
    writer.command(Some(0), 0x20, 0xA9);
    let nearly_two = (2 * GRAINS_PER_COUNT / GRAINS_PER_UNIT) as i32;
    writer.window(nearly_two, 3_700, 1_192);
    let windows = values::about_a_month(&mut writer.random);
    rest(writer, windows, (TEMPERATURE_MIN, 1_251));
}

/// A charge whose first step is longer than a day, and a rest that ends with it or one window beside it.
fn beside_a_step(writer: &mut Writer) {
    writer.command(Some(1_000), 0x01, 0x56);
    writer.command(Some(0), 0x20, 0xA9);
    for _ in 0..CHARGES_TRIED {
        let (current, temperature) = (writer.random.range(704, i64::from(CURRENT_MAX)), writer.temperature());
        let charge = GRAINS_PER_UNIT * current;
        let leak = charge / GRAINS_PER_COUNT * writer.configuration.sd() * w(temperature);
        let windows = charge % GRAINS_PER_COUNT / leak + 1;
        if (i64::from(DAY) + 2..4 * i64::from(DAY)).contains(&windows) {
            writer.window(current as i32, 3_700, temperature);
            let beside = writer.random.range(-1, 1);
            return writer.rest(windows + beside, temperature);
        }
    }
}

/// An empty cell.
fn without_leak(writer: &mut Writer) {
    writer.command(Some(0), 0x20, 0xA9);
    let windows = values::more_than_a_day(&mut writer.random);
    rest(writer, windows, ANY);
}

/// Rests, at once or in days, to a count at which two bytes end or beside it, or to one that two bytes would bring below what an estimate
/// asks for, and what follows on it.
pub fn wide_count(writer: &mut Writer) {
    let two_bytes = i64::from(FORMER_STOP);
    let target = match writer.random.below(3) {
        0 => two_bytes + writer.random.range(0, 1),
        1 => two_bytes + 1 + writer.random.range(1, i64::from(ESTIMATE_REST_MIN) - 1),
        _ => two_bytes + writer.random.range(0, 600),
    };
    if writer.random.one_in(3) {
        rest(writer, two_bytes + 1, ANY);
    }
    rest_to(writer, target);
    some_estimates(writer);
    for _ in 0..3 {
        on_a_wide_count(writer);
        some_estimates(writer);
    }
    begin_anew(writer);
    some_estimates(writer);
}

/// What counts on, keeps the count, clears it, or carries it over an update.
fn on_a_wide_count(writer: &mut Writer) {
    match writer.random.below(8) {
        0 | 1 => {
            let (windows, temperature) = (writer.random.range(1, 600), writer.temperature());
            writer.rest(windows, temperature);
        }
        2 => idle_window(writer),
        3 => host::command(writer),
        4 => {
            let call = host::out_of_range(&mut writer.random, &writer.configuration);
            writer.call(call);
        }
        5 => writer.update(),
        _ => {
            let form = writer.random.pick(&[3, 4]);
            writer.update_from(form);
            let (windows, temperature) = (writer.random.range(1, 600), writer.temperature());
            writer.rest(windows, temperature);
        }
    }
}
