//! Short scenes of a cell's use, from which lists are put together.

use crate::host;
use crate::rest_scenes;
use crate::values;
use crate::writer::Writer;
use reference::refusal::CURRENT_MAX;

/// One window of a run in so many has an update of the firmware before it.
const UPDATE_EVERY: u64 = 100;

/// One window of a run in so many has a look at a command before it.
const LOOK_EVERY: u64 = 50;

/// Any window in range.
pub fn any_window(writer: &mut Writer) {
    let current = values::current(&mut writer.random, &writer.configuration);
    let voltage = values::voltage(&mut writer.random, &writer.configuration);
    let temperature = writer.temperature();
    writer.window(current, voltage, temperature);
}

/// NAC is set a few counts below LMD, then charged to full, one unit less or more at the end.
pub fn charge_up(writer: &mut Writer) {
    if writer.random.one_in(2) {
        let below = writer.random.range(0, 60);
        let ar = i64::from(writer.history.l) - below;
        writer.command(Some(ar), 0x20, 0xA9);
    }
    for _ in 0..writer.random.range(1, 4) {
        let temperature = writer.temperature();
        let needed = writer.charge_to_full(temperature) + writer.random.range(-1, 1);
        let current = needed.clamp(1, i64::from(CURRENT_MAX)) as i32;
        let voltage = writer.random.pick(&[3_700, 4_099, 4_100, 4_500]);
        writer.window(current, voltage, temperature);
    }
}

/// A charge at the taper limit and at 4,100 mV, each met or missed by one.
pub fn taper(writer: &mut Writer) {
    let limit = 2 * writer.configuration.taper();
    for _ in 0..writer.random.range(1, 4) {
        let current = limit + writer.random.range(-1, 1) as i32;
        let voltage = 4_100 + writer.random.range(-1, 1) as i32;
        let temperature = writer.temperature();
        writer.window(current.max(0), voltage, temperature);
    }
}

/// A small capacity, a run, and a discharge to the last grain and on, with one unit less or more at the end.
pub fn drain_empty(writer: &mut Writer) {
    let capacity = 1 + writer.random.amount(120);
    writer.command(Some(capacity), 0x01, 0x56);
    if !writer.random.one_in(4) {
        writer.start_run();
    }
    for _ in 0..writer.random.range(2, 8) {
        let temperature = writer.temperature();
        let needed = writer.discharge_to_empty(temperature) + writer.random.range(-1, 1);
        let current = needed.clamp(1, i64::from(CURRENT_MAX)) as i32;
        let voltage = writer.voltage_above_e1();
        writer.window(-current, voltage, temperature);
    }
    if writer.random.one_in(2) {
        end_of_discharge(writer);
    }
}

/// A run of some windows and rests that comes to its end at E1 or EDVF.
pub fn run(writer: &mut Writer) {
    if !writer.random.one_in(8) {
        writer.start_run();
    }
    for _ in 0..writer.random.amount(30) {
        if writer.random.one_in(10) {
            rest_scenes::rest(writer);
            continue;
        }
        if writer.random.one_in(UPDATE_EVERY) {
            writer.update();
        }
        if writer.random.one_in(LOOK_EVERY) {
            host::look(writer);
        }
        let current = values::current(&mut writer.random, &writer.configuration);
        let discharge = if writer.random.one_in(20) { current } else { -current.abs() };
        let voltage = writer.voltage_above_e1();
        let temperature = writer.temperature();
        writer.window(discharge, voltage, temperature);
    }
    end_of_discharge(writer);
}

/// One window at E1 or EDVF: qualified, or missed for one reason or another.
pub fn end_of_discharge(writer: &mut Writer) {
    let cold = writer.configuration.cold_limit();
    let warm = cold + writer.random.amount(i64::from(1_372 - cold)) as i32;
    let heavy = writer.heavy();
    let light = writer.configuration.standby_limit().max(1);
    let at_e1 = writer.voltage_at_e1();
    let edvf = writer.configuration.edvf().max(2_600);
    let (current, voltage, temperature) = match writer.random.below(8) {
        0 => (light, at_e1, warm),
        1 => (heavy, at_e1, cold - 1),
        2 => (light, at_e1, cold - 1),
        3 => (heavy, edvf, warm),
        4 => (heavy, at_e1, cold),
        _ => (heavy, at_e1, warm),
    };
    writer.window(-current, voltage, temperature);
}

/// A drain of about 65,535 counts. It takes some 1,650 windows at the greatest current, and the cell is empty for most of them.
pub fn long_run(writer: &mut Writer) {
    let capacity = writer.random.pick(&[1, 100, 1_024, 30_000, 60_000, 65_535]);
    writer.command(Some(capacity), 0x01, 0x56);
    writer.command(None, 0x10, 0xA9);
    let windows = if writer.random.one_in(2) { writer.random.range(1_500, 1_646) } else { 1_700 };
    let last_at_e1 = writer.random.one_in(2);
    for _ in 0..windows {
        let least = i64::from(CURRENT_MAX) - writer.random.amount(50);
        let passes = writer.history.r() + 192_000 * i64::from(CURRENT_MAX) > 65_535 * 135_000_000;
        let voltage = if passes && last_at_e1 { writer.voltage_at_e1() } else { writer.voltage_above_e1() };
        let temperature = if passes { 1_372 } else { writer.temperature() };
        writer.window(-least as i32, voltage, temperature);
        if writer.history.run.is_none() {
            break;
        }
    }
    end_of_discharge(writer);
}

/// A run whose drain comes to exactly 65,535 × G, where the configuration's SD allows it, and then on.
///
/// 65,535 × G is 46,079,296 units over a window and 168,000 grains more, which the leak has to bring. With LMD 2, after DONE, the
/// first window leaks from two counts and the others from one, so n windows of rest and the discharging one that empties the cell
/// leak (n + 2) × SD × 64 at 1,292 to 1,331 quarter kelvins. An empty cell leaks no more.
pub fn exact_run(writer: &mut Writer) {
    let sd = writer.configuration.sd();
    if sd == 0 || 2_625 % sd != 0 {
        return;
    }
    let temperature = writer.random.range(1_292, 1_331) as i32;
    writer.command(Some(2), 0x01, 0x56);
    writer.command(None, 0x10, 0xA9);
    writer.rest(2_625 / sd - 2, temperature);
    for _ in 0..46_079_296 / CURRENT_MAX {
        let voltage = writer.voltage_above_e1();
        writer.window(-CURRENT_MAX, voltage, temperature);
    }
    let last = 46_079_296 % CURRENT_MAX;
    let voltage = if writer.random.one_in(2) { writer.voltage_at_e1() } else { writer.voltage_above_e1() };
    writer.window(-last, voltage, temperature);
    end_of_discharge(writer);
}

/// A steady light load near S0, at which the standby current settles within a few dozen windows, and then perhaps another load, a
/// reset or an update of the firmware.
pub fn standby(writer: &mut Writer) {
    let s0 = i64::from(writer.configuration.s0());
    for _ in 0..writer.random.range(1, 2) {
        let load = s0 + writer.random.range(-3, 3);
        let current = -load.clamp(1, (2 * s0).max(1)) as i32;
        let voltage = writer.voltage_above_e1();
        let temperature = writer.temperature();
        for _ in 0..writer.random.range(1, 45) {
            writer.window(current, voltage, temperature);
        }
    }
    match writer.random.below(4) {
        0 => writer.command(None, 0x08, 0xA9),
        1 => writer.command(None, 0x02, 0xA9),
        _ => writer.update(),
    }
}
