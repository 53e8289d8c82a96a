//! Scenes with cycles: many of them, at the grain, waiting for a window, in the window that teaches, and the age that they bring (paper
//! 02, A5).

use crate::host;
use crate::values;
use crate::writer::Writer;
use reference::cycles::CYCLES_MAX;
use reference::leak::{GRAINS_PER_COUNT, GRAINS_PER_UNIT};
use reference::refusal::CURRENT_MAX;

/// At most so many windows bring a drain near a whole LMD.
const WINDOWS_TO_A_CYCLE: usize = 14;

/// At most so many windows of the greatest current bring CYCT to its stop where LMD is one count.
const WINDOWS_TO_THE_STOP: usize = 1_650;

pub fn cycles(writer: &mut Writer) {
    match writer.random.below(8) {
        0 | 1 => old(writer),
        2 => to_a_cycle(writer),
        3 => at_the_grain(writer),
        4 | 5 => waiting(writer),
        6 => taught_less(writer),
        _ => taught_more(writer),
    }
}

/// CYCT comes to its stop, with the last window aimed at it or beside it, and goes on there. That alone is some 1,650 windows.
pub fn to_the_stop(writer: &mut Writer) {
    writer.command(Some(1), 0x01, 0x56);
    for _ in 0..WINDOWS_TO_THE_STOP {
        if i64::from(CYCLES_MAX - writer.history.cycles) * GRAINS_PER_COUNT <= GRAINS_PER_UNIT * i64::from(CURRENT_MAX) {
            break;
        }
        discharge(writer, CURRENT_MAX);
    }
    let left = i64::from(CYCLES_MAX - writer.history.cycles) + writer.random.range(-1, 1);
    let units = (left * GRAINS_PER_COUNT - writer.history.cycle_drain) / GRAINS_PER_UNIT + 1;
    discharge(writer, units.clamp(1, i64::from(CURRENT_MAX)) as i32);
    for _ in 0..3 {
        discharge(writer, CURRENT_MAX);
    }
    in_use(writer);
}

/// A window that only counts, above E1.
fn discharge(writer: &mut Writer, units: i32) {
    let (voltage, temperature) = (writer.voltage_above_e1(), writer.temperature());
    writer.window(-units, voltage, temperature);
}

/// A window that adds nothing to the drain: of current 0, within DMF, or charging.
fn without_discharge(writer: &mut Writer) {
    let dmf = writer.configuration.dmf();
    let charge = values::current(&mut writer.random, &writer.configuration).abs();
    let current = writer.random.pick(&[0, dmf, -dmf, dmf + 1, charge]);
    let (voltage, temperature) = (writer.voltage_above_e1(), writer.temperature());
    writer.window(current, voltage, temperature);
}

/// A small capacity grows old in a few windows; then the cell is used with a greater one, where the age shows.
fn old(writer: &mut Writer) {
    let capacity = 1 + writer.random.amount(30);
    writer.command(Some(capacity), 0x01, 0x56);
    for _ in 0..writer.random.range(1, 6) {
        let units = CURRENT_MAX - writer.random.amount(20_000) as i32;
        discharge(writer, units);
    }
    in_use(writer);
}

/// A great capacity, full or partly, loads of all sizes, an AR, and what a host does with it.
fn in_use(writer: &mut Writer) {
    let capacity = 65_535 - writer.random.amount(64_000);
    writer.command(Some(capacity), 0x01, 0x56);
    let nac = writer.random.range(0, capacity);
    let mode = writer.random.pick(&[0x10, 0x20]);
    writer.command(Some(nac), mode, 0xA9);
    for _ in 0..writer.random.range(1, 6) {
        let units = values::current(&mut writer.random, &writer.configuration).abs();
        discharge(writer, units);
    }
    let [low, high] = (writer.random.amount(65_535) as u16).to_le_bytes();
    writer.write(0x02, low);
    writer.write(0x03, high);
    if writer.random.one_in(3) {
        host::command(writer);
    }
}

/// A discharge that completes a cycle, with one unit less or more, or another one.
fn to_a_cycle(writer: &mut Writer) {
    let capacity = 1 + writer.random.amount(40);
    writer.command(Some(capacity), 0x01, 0x56);
    for _ in 0..writer.random.range(1, 5) {
        let units = writer.discharge_to_cycle() + writer.random.range(-1, 1);
        discharge(writer, units.clamp(0, i64::from(CURRENT_MAX)) as i32);
    }
}

/// Whole cycles to the grain: eight counts are 5,625 units, so a cell without drain comes to a multiple of them exactly.
fn at_the_grain(writer: &mut Writer) {
    writer.command(None, 0x02, 0xA9);
    let capacity = 8 * writer.random.pick(&[1, 1, 2, 4]);
    writer.command(Some(capacity), 0x01, 0x56);
    for _ in 0..writer.random.range(1, 3) {
        let times = writer.random.range(1, 4) as i32;
        discharge(writer, 5_625 * times);
    }
}

/// A drain of some counts, a capacity made smaller by WRTLMD, and then a rest or a refused call, which count nothing, and a window.
fn waiting(writer: &mut Writer) {
    let capacity = writer.random.range(200, 65_535);
    writer.command(Some(capacity), 0x01, 0x56);
    for _ in 0..writer.random.range(1, 5) {
        let units = CURRENT_MAX - writer.random.amount(20_000) as i32;
        discharge(writer, units);
    }
    let counts = writer.history.cycle_drain / GRAINS_PER_COUNT;
    let smaller = counts / writer.random.range(1, 8) + writer.random.range(-1, 1);
    writer.command(Some(smaller.max(1)), 0x01, 0x56);
    match writer.random.below(6) {
        0 => {
            let (windows, temperature) = (writer.random.range(1, 20), writer.temperature());
            writer.rest(windows, temperature);
        }
        1 => {
            let call = host::out_of_range(&mut writer.random, &writer.configuration);
            writer.call(call);
        }
        2 => writer.write(0x00, 0xA9),
        3 => writer.command(None, 0x08, 0xA9),
        _ => {}
    }
    without_discharge(writer);
}

/// A drain between seven eighths of LMD and all of it, and a short run that teaches an eighth less: by the new LMD a cycle is whole, by
/// the old one none. The next window counts it.
fn taught_less(writer: &mut Writer) {
    let capacity = writer.random.range(200, 500);
    writer.command(Some(capacity), 0x01, 0x56);
    for _ in 0..WINDOWS_TO_A_CYCLE {
        let left = writer.discharge_to_cycle();
        let target = capacity * GRAINS_PER_COUNT / GRAINS_PER_UNIT / writer.random.range(9, 60);
        if left <= target {
            break;
        }
        discharge(writer, (left - target).min(i64::from(CURRENT_MAX)) as i32);
    }
    writer.start_run();
    let heavy = writer.heavy().min(2_000);
    teach(writer, heavy);
    without_discharge(writer);
}

/// A run of a whole LMD, whose last window completes a cycle and teaches a greater LMD, which has no cycle in the drain.
fn taught_more(writer: &mut Writer) {
    let capacity = writer.random.range(40, 400);
    writer.command(None, 0x02, 0xA9);
    writer.command(Some(capacity), 0x01, 0x56);
    writer.start_run();
    for _ in 0..WINDOWS_TO_A_CYCLE {
        if writer.discharge_to_cycle() <= i64::from(CURRENT_MAX) {
            break;
        }
        discharge(writer, CURRENT_MAX);
    }
    let units = writer.discharge_to_cycle() + writer.random.range(-1, 40);
    teach(writer, units.clamp(1, i64::from(CURRENT_MAX)) as i32);
    without_discharge(writer);
}

/// A window at E1, warm enough.
fn teach(writer: &mut Writer, units: i32) {
    let cold = i64::from(writer.configuration.cold_limit());
    let (voltage, temperature) = (writer.voltage_at_e1(), writer.random.range(cold, 1_372) as i32);
    writer.window(-units, voltage, temperature);
}
