//! The eight calls on the saved bytes. 0 is success; a refusal is its number, and no byte has changed then.
//!
//! All but `convert` take the newest form alone, and an older one is 14 there (paper 02, A1).

use crate::command;
use crate::configuration::Configuration;
use crate::estimate;
use crate::forms;
use crate::gauge::Gauge;
use crate::preview;
use crate::refusal;
use crate::registers;
use crate::rest;
use crate::saved::{load, store, LENGTH};
use crate::window;

fn number(answer: Result<(), u32>) -> u32 {
    match answer {
        Ok(()) => 0,
        Err(refused) => refused,
    }
}

/// Saving: refuses 13 where the bytes are not as many as the newest form has. Bytes that were loaded before always are.
fn save(gauge: &Gauge, saved: &mut [u8]) -> Result<(), u32> {
    let place: &mut [u8; LENGTH] = saved.try_into().map_err(|_| refusal::REPLY)?;
    store(gauge, place);
    Ok(())
}

/// Opening: refuses 1, 2, 13. What stood in the saved bytes does not matter.
pub fn open(configuration: &[u8], saved: &mut [u8]) -> u32 {
    number(Configuration::new(configuration).and_then(|configuration| save(&Gauge::opened(configuration), saved)))
}

/// Converting: the gauge that bytes of any form hold, saved in the newest form, so that a handset updated mid-drive goes on (paper 02,
/// A1). Refuses 14, 13.
pub fn convert(old: &[u8], saved: &mut [u8]) -> u32 {
    number(forms::load(old).and_then(|gauge| save(&gauge, saved)))
}

/// A window: refuses 14, 3, 4, 5.
pub fn window(saved: &mut [u8], current: i32, voltage: i32, temperature: i32) -> u32 {
    number(load(saved).and_then(|mut gauge| {
        refusal::window(current, voltage, temperature)?;
        window::window(&mut gauge, current, voltage, temperature);
        save(&gauge, saved)
    }))
}

/// A rest: refuses 14, 6, 5.
pub fn rest(saved: &mut [u8], windows: u32, temperature: i32) -> u32 {
    number(load(saved).and_then(|mut gauge| {
        refusal::rest(windows, temperature)?;
        rest::rest(&mut gauge, windows, temperature);
        save(&gauge, saved)
    }))
}

/// A host write of one byte: refuses 14, 7, 8, 9, 10, 11.
pub fn write(saved: &mut [u8], address: u32, value: u8) -> u32 {
    number(load(saved).and_then(|mut gauge| {
        command::write(&mut gauge, address, value)?;
        save(&gauge, saved)
    }))
}

/// A read of count registers from address to reply[place] and following; its other bytes keep: refuses 14, 12, 13.
pub fn read(saved: &[u8], address: u32, count: u32, reply: &mut [u8], place: u32) -> u32 {
    number(load(saved).and_then(|gauge| {
        refusal::read(address, count, reply.len(), place)?;
        let (place, count) = (place as usize, count as usize);
        registers::copy(&gauge, address as usize, &mut reply[place..place + count]);
        Ok(())
    }))
}

/// A preview of a key at CTRL: the number of the command that it would obey, and the 128 registers after it. The saved bytes are only
/// read: refuses 14, 8, 9, 10, 11, 13.
pub fn preview(saved: &[u8], key: u8, reply: &mut [u8], command: &mut u8) -> u32 {
    number(load(saved).and_then(|gauge| {
        *command = preview::preview(&gauge, key, reply)?.number();
        Ok(())
    }))
}

/// An estimate of a rested cell's charge from a voltage in mV: the counts, and how far they are from NAC. The saved bytes are only read:
/// refuses 14, 15, 16.
pub fn estimate(saved: &[u8], voltage: i32, estimate: &mut u16, distance: &mut i32) -> u32 {
    number(load(saved).and_then(|gauge| {
        let found = estimate::estimate(&gauge, voltage)?;
        *estimate = found.counts as u16;
        *distance = found.distance;
        Ok(())
    }))
}
