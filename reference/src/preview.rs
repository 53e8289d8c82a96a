//! A preview of a key at CTRL: look before writing (paper 02, A2).

use crate::command::{self, Command};
use crate::gauge::Gauge;
use crate::refusal;
use crate::registers;

/// The command that the key would obey. The reply gets the 128 registers as they would stand after it: it is carried out on a copy, and
/// the copy is read. Refuses 8 to 11, 13, and then the reply keeps.
pub fn preview(gauge: &Gauge, key: u8, reply: &mut [u8]) -> Result<Command, u32> {
    let command = refusal::preview(key, gauge.mode, gauge.ar, reply.len())?;
    let mut copy = *gauge;
    command::carry_out(&mut copy, command);
    registers::copy(&copy, 0, reply);
    Ok(command)
}
