//! A host write and the commands at CTRL (paper 01, "Opening and host bytes").

use crate::gauge::{Gauge, CI, EDV1, EDVF};
use crate::leak::GRAINS_PER_COUNT;
use crate::refusal;

pub const CTRL: u32 = 0x00;
pub const MODE: u32 = 0x01;
pub const AR_LOW: u32 = 0x02;
pub const AR_HIGH: u32 = 0x03;

/// The MODE bits of the five commands, 5, 4, 3, 1 and 0, highest first.
const COMMAND_BITS: [(u8, u8, Command); 5] = [
    (0x20, 0xA9, Command::Wrtnac),
    (0x10, 0xA9, Command::Done),
    (0x08, 0xA9, Command::Prst),
    (0x02, 0xA9, Command::Frst),
    (0x01, 0x56, Command::Wrtlmd),
];

/// The five bits together; an accepted command clears them, a refused key does not.
pub const ALL_COMMAND_BITS: u8 = 0x3B;

/// The five commands, with the numbers of include/gauge.h.
#[derive(Clone, Copy, Debug, PartialEq, Eq)]
pub enum Command {
    Wrtnac = 1,
    Done = 2,
    Prst = 3,
    Frst = 4,
    Wrtlmd = 5,
}

impl Command {
    /// Its bit of MODE, and the key that carries it.
    pub fn bit_and_key(self) -> (u8, u8) {
        let row = COMMAND_BITS.iter().find(|(_, _, command)| *command == self);
        row.map(|&(bit, key, _)| (bit, key)).expect("every command has a bit")
    }

    /// What a preview hands out for it.
    pub fn number(self) -> u8 {
        self as u8
    }
}

/// What a key at CTRL does: the command of the highest set bit of MODE among the five, if this key carries it. Refuses 8 to 11.
pub fn decide(key: u8, mode: u8, ar: i32) -> Result<Command, u32> {
    if key != 0xA9 && key != 0x56 {
        return Err(refusal::KEY);
    }
    let highest = COMMAND_BITS.iter().find(|(bit, _, _)| mode & bit != 0);
    let &(_, carrier, command) = highest.ok_or(refusal::NO_COMMAND)?;
    if key != carrier {
        return Err(refusal::NOT_CARRIED);
    }
    if command == Command::Wrtlmd && ar == 0 {
        return Err(refusal::LMD_ZERO);
    }
    Ok(command)
}

/// AR with one of its bytes put in place.
pub fn ar_with(ar: i32, address: u32, value: u8) -> i32 {
    let value = i32::from(value);
    if address == AR_LOW {
        (ar & 0xFF00) | value
    } else {
        (ar & 0x00FF) | (value << 8)
    }
}

/// A host write, or its refusal 7 to 11, which leaves the gauge as it was.
pub fn write(gauge: &mut Gauge, address: u32, value: u8) -> Result<(), u32> {
    match address {
        CTRL => carry_out(gauge, decide(value, gauge.mode, gauge.ar)?),
        MODE => gauge.mode = value,
        AR_LOW | AR_HIGH => gauge.ar = ar_with(gauge.ar, address, value),
        _ => return Err(refusal::ADDRESS),
    }
    Ok(())
}

/// A command that a key at CTRL picked.
pub fn carry_out(gauge: &mut Gauge, command: Command) {
    match command {
        Command::Wrtnac => {
            gauge.h = i64::from(gauge.ar.min(gauge.lmd)) * GRAINS_PER_COUNT;
            gauge.end_run();
        }
        Command::Wrtlmd => {
            gauge.lmd = gauge.ar;
            gauge.h = gauge.h.min(gauge.full_charge());
            gauge.end_run();
        }
        Command::Done => {
            gauge.fill();
            gauge.flags &= !(EDV1 | EDVF);
        }
        Command::Prst => *gauge = partly_reset(gauge),
        Command::Frst => *gauge = Gauge::opened(gauge.configuration),
    }
    gauge.mode &= !ALL_COMMAND_BITS;
}

/// PRST: as opened, but h, LMD and CI kept, and the cycles with their drain (paper 02, A5). So it clears the count of rest windows, as
/// FRST does (paper 02, A4: "a reset").
fn partly_reset(gauge: &Gauge) -> Gauge {
    Gauge {
        h: gauge.h,
        lmd: gauge.lmd,
        flags: gauge.flags & CI,
        cyct: gauge.cyct,
        cycle_drain: gauge.cycle_drain,
        ..Gauge::opened(gauge.configuration)
    }
}
