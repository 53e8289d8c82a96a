//! What the host does: writes, commands, previews, reads and estimates; and calls that are refused.

use crate::random::Random;
use crate::values;
use crate::writer::Writer;
use reference::configuration::Configuration;
use reference::history::Call;
use reference::refusal::{CURRENT_MAX, REST_MAX, TEMPERATURE_MAX, TEMPERATURE_MIN, VOLTAGE_MAX, VOLTAGE_MIN};

/// Gives a command.
pub fn command(writer: &mut Writer) {
    let (ar, mode, key) = any_command(writer);
    writer.command(ar, mode, key);
}

/// Looks at a command and does not give it: its bits stay in MODE.
pub fn look(writer: &mut Writer) {
    let (ar, mode, key) = any_command(writer);
    writer.prepare(ar, mode);
    writer.preview(key);
}

/// What a command is given by: an AR near what it is compared with, or none; a MODE with one command bit, several or none; and a key,
/// now and then no command's.
fn any_command(writer: &mut Writer) -> (Option<i64>, u8, u8) {
    let near = writer.random.range(-1, 1);
    let nac = writer.history.h() / 135_000_000;
    let ar = match writer.random.below(6) {
        0 => Some(i64::from(writer.history.l) + near),
        1 => Some(nac + near),
        2 => Some(0),
        3 => Some(writer.random.amount(65_535)),
        4 => Some(65_535),
        _ => None,
    };
    let bit = writer.random.pick(&[0x20, 0x10, 0x08, 0x02, 0x01, 0x00]);
    let others = match writer.random.below(4) {
        0 => writer.random.byte(),
        1 => writer.random.byte() & 0xC4,
        2 => writer.random.byte() & (bit | (bit.max(1) - 1)),
        _ => 0,
    };
    let key = writer.random.pick(&[0xA9, 0xA9, 0xA9, 0x56, 0x56, 0x57]);
    (ar, bit | others, key)
}

/// WRTLMD or FRST, so that the capacity of a list moves.
pub fn capacity(writer: &mut Writer) {
    if writer.random.one_in(3) {
        writer.command(None, 0x02, 0xA9);
    } else {
        let ar = writer.random.amount(65_535);
        writer.command(Some(ar), 0x01, 0x56);
    }
}

/// A write anywhere, or only a key.
pub fn any_write(random: &mut Random) -> Call {
    let address = match random.below(4) {
        0 => random.next() as u32,
        1 => random.pick(&[4, 0x7F, 0x80, 0x100, 0x101, 0x1_0000, u32::MAX, 0x8000_0000]),
        _ => random.below(5) as u32,
    };
    let value = if random.one_in(2) { random.pick(&[0xA9, 0x56]) } else { random.byte() };
    Call::Write { address, value }
}

/// A preview by the MODE and AR that stand there, of either key or of another byte.
pub fn any_preview(random: &mut Random) -> Call {
    let key = match random.below(8) {
        0 => random.byte(),
        1 => random.pick(&[0x00, 0x55, 0x57, 0xA8, 0xAA, 0xC5, 0xFF]),
        2..=4 => 0x56,
        _ => 0xA9,
    };
    Call::Preview { key, reply_length: values::preview_length(random) }
}

/// An estimate, whether the cell has rested or not.
pub fn any_estimate(random: &mut Random) -> Call {
    Call::Estimate { voltage: values::estimate_voltage(random) }
}

/// A read within the map and the reply, or one beyond either, up to the greatest numbers.
pub fn any_read(random: &mut Random) -> Call {
    if random.one_in(20) {
        return Call::Read { address: 0, count: 128, reply_length: 130, place: random.below(4) as u32 };
    }
    let great = [u32::MAX, u32::MAX - 1, 0x8000_0000, 1 << 16, 256];
    let address = match random.below(12) {
        0 => random.pick(&great),
        1 => random.range(124, 130) as u32,
        2 => 0,
        _ => random.below(0x80) as u32,
    };
    let count = match random.below(12) {
        0 => random.pick(&great),
        1 => 128u32.wrapping_sub(address).wrapping_add(random.below(3) as u32).wrapping_sub(1),
        2 => 0,
        3 => random.below(130) as u32,
        _ => random.range(1, 4) as u32,
    };
    let reply_length = random.pick(&[0, 1, 2, 4, 10, 64, 127, 128, 129, 200]);
    let place = match random.below(8) {
        0 => random.pick(&great),
        1 | 2 => (reply_length as u32).wrapping_sub(count).wrapping_add(random.below(3) as u32).wrapping_sub(1),
        3 => random.below(200) as u32,
        _ => 0,
    };
    Call::Read { address, count, reply_length, place }
}

/// A window or rest with one or more arguments beyond their range.
pub fn out_of_range(random: &mut Random, configuration: &Configuration) -> Call {
    let mut current = values::current(random, configuration);
    let mut voltage = values::voltage(random, configuration);
    let mut temperature = values::temperature(random, configuration);
    let broken = 1 + random.below(7);
    if broken & 2 != 0 {
        voltage = values::beyond(random, VOLTAGE_MIN, VOLTAGE_MAX);
    }
    if broken & 4 != 0 {
        temperature = values::beyond(random, TEMPERATURE_MIN, TEMPERATURE_MAX);
    }
    if random.one_in(3) {
        let windows = match broken & 1 {
            0 => 1 + random.below(20) as u32,
            // With the number of windows cut to fewer bits, some would be in range.
            _ => random.pick(&[0, REST_MAX + 1, REST_MAX + 1, REST_MAX + 2, 0x8_0001, 0x0100_41EB, u32::MAX, 0x8000_0001]),
        };
        return Call::Rest { windows, temperature };
    }
    if broken & 1 != 0 {
        current = values::beyond(random, -CURRENT_MAX, CURRENT_MAX);
    }
    Call::Window { current, voltage, temperature }
}
