//! The eight calls of the shipped library (include/gauge.h).

use crate::lent_number::LentNumber;

const GUARD: usize = 16;
const GUARD_BYTE: u8 = 0xC3;

// The calls as include/gauge.h declares them.
include!(concat!(env!("OUT_DIR"), "/prototypes.rs"));

/// Bytes lent to a call, with guard bytes on both sides that no call may change.
#[derive(Clone)]
pub struct Lent {
    whole: Vec<u8>,
}

impl Lent {
    pub fn new(content: &[u8]) -> Lent {
        let mut whole = vec![GUARD_BYTE; content.len() + 2 * GUARD];
        whole[GUARD..GUARD + content.len()].copy_from_slice(content);
        Lent { whole }
    }

    pub fn bytes(&self) -> &[u8] {
        &self.whole[GUARD..self.whole.len() - GUARD]
    }

    fn bytes_mut(&mut self) -> &mut [u8] {
        let end = self.whole.len() - GUARD;
        &mut self.whole[GUARD..end]
    }

    pub fn guards_kept(&self) -> bool {
        let (before, rest) = self.whole.split_at(GUARD);
        let after = &rest[rest.len() - GUARD..];
        before == [GUARD_BYTE; GUARD] && after == [GUARD_BYTE; GUARD]
    }
}

pub fn open(configuration: &[u8], saved: &mut Lent) -> u32 {
    let saved = saved.bytes_mut();
    // The pointers are valid for the lengths handed in with them, not null, and do not overlap; so below too.
    unsafe { gauge_open(configuration.as_ptr(), configuration.len(), saved.as_mut_ptr(), saved.len()) }
}

pub fn convert(old: &Lent, saved: &mut Lent) -> u32 {
    let old = old.bytes();
    let saved = saved.bytes_mut();
    unsafe { gauge_convert(old.as_ptr(), old.len(), saved.as_mut_ptr(), saved.len()) }
}

pub fn window(saved: &mut Lent, current: i32, voltage: i32, temperature: i32) -> u32 {
    let saved = saved.bytes_mut();
    unsafe { gauge_window(saved.as_mut_ptr(), saved.len(), current, voltage, temperature) }
}

pub fn rest(saved: &mut Lent, windows: u32, temperature: i32) -> u32 {
    let saved = saved.bytes_mut();
    unsafe { gauge_rest(saved.as_mut_ptr(), saved.len(), windows, temperature) }
}

pub fn write(saved: &mut Lent, address: u32, value: u8) -> u32 {
    let saved = saved.bytes_mut();
    unsafe { gauge_write(saved.as_mut_ptr(), saved.len(), address, value) }
}

pub fn read(saved: &Lent, address: u32, count: u32, reply: &mut Lent, place: u32) -> u32 {
    let saved = saved.bytes();
    let reply = reply.bytes_mut();
    unsafe { gauge_read(saved.as_ptr(), saved.len(), address, count, reply.as_mut_ptr(), reply.len(), place) }
}

/// The command is lent as a single byte.
pub fn preview(saved: &Lent, key: u8, reply: &mut Lent, command: &mut Lent) -> u32 {
    let saved = saved.bytes();
    let reply = reply.bytes_mut();
    let command = &mut command.bytes_mut()[0];
    unsafe { gauge_preview(saved.as_ptr(), saved.len(), key, reply.as_mut_ptr(), reply.len(), command) }
}

pub fn estimate(saved: &Lent, voltage: i32, estimate: &mut LentNumber<u16>, distance: &mut LentNumber<i32>) -> u32 {
    let saved = saved.bytes();
    unsafe { gauge_estimate(saved.as_ptr(), saved.len(), voltage, estimate.lend(), distance.lend()) }
}

/// All 128 registers; the number and the reply, whose bytes were 0xFF before the call.
pub fn registers(saved: &Lent) -> (u32, [u8; 128]) {
    let saved = saved.bytes();
    let mut reply = [0xFF; 128];
    let number = unsafe { gauge_read(saved.as_ptr(), saved.len(), 0, 128, reply.as_mut_ptr(), reply.len(), 0) };
    (number, reply)
}
