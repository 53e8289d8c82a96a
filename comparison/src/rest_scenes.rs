//! Scenes with rests, some of them aimed at the window that loses a count (paper 02, A3).

use crate::values;
use crate::writer::Writer;
use reference::leak::w;
use reference::refusal::TEMPERATURE_MAX;

/// A rest, mostly short; now and then of a day, whose windows are many.
pub fn rest(writer: &mut Writer) {
    let temperature = writer.temperature();
    let windows = match writer.random.below(40) {
        0 => values::about_a_day(&mut writer.random),
        1..=4 => writer.random.range(1, 600),
        5..=9 => 1,
        10..=14 => {
            let at_most = 1 + writer.random.amount(600);
            beside_a_step(writer, temperature, at_most)
        }
        _ => writer.random.range(1, 20),
    };
    writer.rest(windows, temperature);
}

/// A scene that brings a rest to what loses counts.
pub fn aimed(writer: &mut Writer) {
    match writer.random.below(3) {
        0 => great_leak(writer),
        1 => last_count(writer),
        _ => few_grains(writer),
    }
}

/// A great capacity, full, with a run or without, and a rest in the hottest band: where SD is great, most windows lose a count.
fn great_leak(writer: &mut Writer) {
    let capacity = writer.random.pick(&[65_535, 65_535, 40_000, 10_000]);
    writer.command(Some(capacity), 0x01, 0x56);
    let full = writer.random.pick(&[0x10, 0x20]);
    writer.command(Some(capacity), full, 0xA9);
    let temperature = writer.random.range(1_332, i64::from(TEMPERATURE_MAX)) as i32;
    let windows = if writer.random.one_in(20) { writer.random.range(1_000, 2_500) } else { writer.random.range(2, 30) };
    writer.rest(windows, temperature);
}

/// One count, which the first window of the rest leaves below; the others have no leak.
fn last_count(writer: &mut Writer) {
    writer.command(Some(1), 0x20, 0xA9);
    let (windows, temperature) = (writer.random.range(1, 20), writer.temperature());
    writer.rest(windows, temperature);
}

/// Some counts and few grains more, and a rest that ends beside the window which takes the last of these grains.
///
/// An empty cell has no leak, so it holds what one window charges: with 704 units 1 count and 168,000 grains, with 10,547 units
/// 15 counts and 24,000 grains, which is a multiple of the leak wherever SD × W divides 1,600.
fn few_grains(writer: &mut Writer) {
    writer.command(Some(0), 0x20, 0xA9);
    let (current, temperature) = (writer.random.pick(&[704, 10_547, 10_547]), writer.temperature());
    writer.window(current, 3_700, temperature);
    let windows = beside_a_step(writer, temperature, 600);
    writer.rest(windows, temperature);
}

fn beside_a_step(writer: &mut Writer, temperature: i32, at_most: i64) -> i64 {
    let rate = writer.configuration.sd() * w(temperature);
    values::rest_length(&mut writer.random, writer.history.h(), rate, at_most)
}
