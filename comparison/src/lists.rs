//! Lists of calls, put together from scenes.

use crate::cycle_scenes;
use crate::estimate_scenes;
use crate::host;
use crate::long_rest_scenes;
use crate::random::Random;
use crate::rest_scenes;
use crate::scenes;
use crate::trial::Trial;
use crate::writer::Writer;
use reference::history::Call;

/// One list in so many has a long run, which alone is some 1,650 windows.
const LONG_RUN_EVERY: u64 = 100;

/// One list in so many has a count of rest windows that two bytes do not hold, which is 65,536 windows and more, and one has the whole
/// table of an estimate, 301 calls.
const WIDE_COUNT_EVERY: u64 = 100;
const WHOLE_TABLE_EVERY: u64 = 400;

/// One list in so many is of a handset that is stored for up to a month at once, which is 506,250 windows.
const STORED_EVERY: u64 = 120;

/// One list in so many brings CYCT to its stop, which alone is some 1,650 windows.
const OLD_AGE_EVERY: u64 = 400;

/// One scene in so many is a steady light load, which is some dozens of windows.
const STANDBY_EVERY: u64 = 80;

/// One scene in so many is a rest that is long enough for an estimate, which is some hundreds of windows.
const RESTED_EVERY: u64 = 100;

/// One scene in so many is an update of the firmware.
const UPDATE_EVERY: u64 = 40;

/// A list from opening.
pub fn list(mut random: Random) -> Trial {
    if random.one_in(STORED_EVERY) {
        return stored(Writer::leaking(random));
    }
    written(Writer::new(random))
}

/// A handset is stored and then used.
fn stored(mut writer: Writer) -> Trial {
    long_rest_scenes::stored(&mut writer);
    for _ in 0..writer.random.range(1, 6) {
        scene(&mut writer);
    }
    writer.trial()
}

/// A list that goes on from any gauge; every second one is of a handset that was updated mid-drive, with a gauge in an older form.
pub fn begun(random: Random) -> Trial {
    written(Writer::begun(random))
}

fn written(mut writer: Writer) -> Trial {
    if writer.random.one_in(LONG_RUN_EVERY) {
        if writer.random.one_in(4) {
            scenes::exact_run(&mut writer);
        } else {
            scenes::long_run(&mut writer);
        }
    }
    if writer.random.one_in(WIDE_COUNT_EVERY) {
        long_rest_scenes::wide_count(&mut writer);
    }
    if writer.random.one_in(WHOLE_TABLE_EVERY) {
        estimate_scenes::whole_table(&mut writer);
    }
    if writer.random.one_in(OLD_AGE_EVERY) {
        cycle_scenes::to_the_stop(&mut writer);
    }
    let scenes = writer.random.range(3, 30);
    for _ in 0..scenes {
        scene(&mut writer);
    }
    writer.trial()
}

fn scene(writer: &mut Writer) {
    if writer.random.one_in(STANDBY_EVERY) {
        return scenes::standby(writer);
    }
    if writer.random.one_in(UPDATE_EVERY) {
        return writer.update();
    }
    if writer.random.one_in(RESTED_EVERY) {
        return estimate_scenes::rested(writer);
    }
    let kind = writer.random.below(26);
    match kind {
        0..=2 => (0..writer.random.amount(12)).for_each(|_| scenes::any_window(writer)),
        3 | 4 => scenes::charge_up(writer),
        5 | 6 => scenes::taper(writer),
        7 | 8 => scenes::drain_empty(writer),
        9..=11 => scenes::run(writer),
        12 => scenes::end_of_discharge(writer),
        13 => rest_scenes::rest(writer),
        14 | 15 => host::command(writer),
        16 => host::capacity(writer),
        17 => host::look(writer),
        18 => rest_scenes::aimed(writer),
        24 | 25 => cycle_scenes::cycles(writer),
        _ => {
            let call = any_call(kind, writer);
            writer.call(call);
        }
    }
}

/// A single call, of one kind for each number from 19 to 23.
fn any_call(kind: u64, writer: &mut Writer) -> Call {
    match kind {
        19 => host::any_write(&mut writer.random),
        20 => host::any_read(&mut writer.random),
        21 => host::any_preview(&mut writer.random),
        22 => host::any_estimate(&mut writer.random),
        _ => host::out_of_range(&mut writer.random, &writer.configuration),
    }
}
