//! A gauge on both sides. Every call is made on both and everything that a caller can see of it is compared.

use crate::difference::{same, same_bytes, Difference};
use crate::shipped::{self, Lent};
use reference::history::{Call, History};
use reference::{calls, registers, saved};

pub struct Both {
    pub shipped: Lent,
    pub reference: Vec<u8>,
}

/// What a reply holds before a call: each byte another one, so that a byte out of place shows.
pub fn reply_before(length: usize) -> Vec<u8> {
    (0..length).map(|at| (at as u8).wrapping_mul(73).wrapping_add(19)).collect()
}

impl Both {
    pub fn new(saved: &[u8]) -> Both {
        Both { shipped: Lent::new(saved), reference: saved.to_vec() }
    }

    pub fn open(&mut self, configuration: &[u8]) -> Result<u32, Difference> {
        let before = self.shipped.bytes().to_vec();
        let number = shipped::open(configuration, &mut self.shipped);
        same("number", number, calls::open(configuration, &mut self.reference))?;
        self.same_saved(number, &before)?;
        Ok(number)
    }

    /// Converts old bytes into the saved ones on both sides. The old bytes are only read.
    pub fn convert(&mut self, old: &[u8]) -> Result<u32, Difference> {
        let before = self.reference.clone();
        let lent = Lent::new(old);
        let number = shipped::convert(&lent, &mut self.shipped);
        same("number of converting", number, calls::convert(old, &mut self.reference))?;
        same_bytes("old bytes after converting", lent.bytes(), old)?;
        same("bytes beside the old ones kept", lent.guards_kept(), true)?;
        self.same_saved(number, &before)?;
        Ok(number)
    }

    /// Makes a call on both sides: the number, if they agree.
    pub fn call(&mut self, call: &Call) -> Result<u32, Difference> {
        let mut before = [0; 64];
        let length = self.reference.len();
        before[..length].copy_from_slice(&self.reference);
        let number = match *call {
            Call::Window { current, voltage, temperature } => {
                let number = shipped::window(&mut self.shipped, current, voltage, temperature);
                same("number", number, calls::window(&mut self.reference, current, voltage, temperature))?;
                number
            }
            Call::Rest { windows, temperature } => {
                let number = shipped::rest(&mut self.shipped, windows, temperature);
                same("number", number, calls::rest(&mut self.reference, windows, temperature))?;
                number
            }
            Call::Write { address, value } => {
                let number = shipped::write(&mut self.shipped, address, value);
                same("number", number, calls::write(&mut self.reference, address, value))?;
                number
            }
            Call::Read { address, count, reply_length, place } => self.read(address, count, reply_length, place)?,
            Call::Preview { key, reply_length } => self.preview(key, reply_length)?,
            Call::Estimate { voltage } => self.estimate(voltage)?,
        };
        self.same_saved(number, &before[..length])?;
        Ok(number)
    }

    fn read(&self, address: u32, count: u32, reply_length: usize, place: u32) -> Result<u32, Difference> {
        let mut expected = reply_before(reply_length);
        let mut reply = Lent::new(&expected);
        let number = shipped::read(&self.shipped, address, count, &mut reply, place);
        same("number", number, calls::read(&self.reference, address, count, &mut expected, place))?;
        same_bytes("reply", reply.bytes(), &expected)?;
        same("bytes beside the reply kept", reply.guards_kept(), true)?;
        if number != 0 {
            same_bytes("reply of a refused read", reply.bytes(), &reply_before(reply_length))?;
        }
        Ok(number)
    }

    fn same_saved(&self, number: u32, before: &[u8]) -> Result<(), Difference> {
        same_bytes("saved bytes", self.shipped.bytes(), &self.reference)?;
        same("bytes beside the saved ones kept", self.shipped.guards_kept(), true)?;
        if number != 0 {
            same_bytes("saved bytes of a refused call", self.shipped.bytes(), before)?;
        }
        Ok(())
    }

    /// Compares the 128 registers, or that both refuse to show them.
    pub fn same_registers(&self) -> Result<(), Difference> {
        let (number, shown) = shipped::registers(&self.shipped);
        match saved::load(&self.reference) {
            Ok(gauge) => {
                same("number of a read of all registers", number, 0)?;
                same_bytes("registers", &shown, &registers::all(&gauge))
            }
            Err(refused) => {
                same("number of a read of all registers", number, refused)?;
                same_bytes("reply of a refused read", &shown, &[0xFF; 128])
            }
        }
    }

    /// Compares the shipped gauge with the history: h with H, LMD with L, VDQ and DCR with the run, and AR, the command bits,
    /// the count of rest windows and the cycles with their drain.
    pub fn same_history(&self, history: &History) -> Result<(), Difference> {
        let saved = self.shipped.bytes();
        let pair = |at: usize| i32::from(u16::from_le_bytes([saved[at], saved[at + 1]]));
        let grains = |at: usize| i64::from_le_bytes(saved[at..at + 8].try_into().expect("eight bytes"));
        same("h and the history's H", grains(11), history.h())?;
        same("LMD and the history's L", pair(27), history.l)?;
        same("VDQ and the history's run", saved[40] & 0x04 != 0, history.run.is_some())?;
        same("DCR and the history's R", grains(19), history.r())?;
        same("AR and the history's AR", pair(37), history.ar)?;
        same("command bits of MODE and of the history's MODE", saved[39] & 0x3B, history.mode & 0x3B)?;
        let rest_count = u32::from_le_bytes(saved[41..45].try_into().expect("four bytes"));
        same("count of rest windows and the history's", rest_count, history.rest_count())?;
        same("CYCT and the history's cycles", pair(45), history.cycles)?;
        same("cycle drain and the history's", grains(47), history.cycle_drain)
    }
}
