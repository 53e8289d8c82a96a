//! The map of the 128 registers (paper 01, "Registers"; CYCT: paper 02, A5).

use crate::compensation::{artte, cac, fcac, rsoc, stte, tte, ttf};
use crate::configuration;
use crate::gauge::Gauge;

const CONFIGURATION_START: usize = 0x76;

/// The end of the registers that are worked out; from here to 0x75 all bytes are 0.
const SHOWN_END: usize = 0x2C;

/// A register: its first address, its number of bytes and its value.
type Register = (usize, usize, i64);

/// Copies the registers from an address on into the reply's middle part, whose length is the count.
/// Only the registers that the read touches are worked out.
pub fn copy(gauge: &Gauge, address: usize, part: &mut [u8]) {
    let end = address + part.len();
    part.fill(0);
    let mut next = address;
    while next < end.min(SHOWN_END) {
        let (start, width, value) = register(gauge, next);
        let [low, high] = (value as u16).to_le_bytes();
        if next == start {
            part[next - address] = low;
            next += 1;
        }
        // A read may begin with the high byte of a pair or end before it.
        if width == 2 && next < end {
            part[next - address] = high;
            next += 1;
        }
    }
    let first = address.max(CONFIGURATION_START);
    if first < end {
        let from = first - CONFIGURATION_START;
        part[first - address..].copy_from_slice(&gauge.configuration.bytes[from..from + end - first]);
    }
}

/// All 128 registers.
pub fn all(gauge: &Gauge) -> [u8; CONFIGURATION_START + configuration::LENGTH] {
    let mut registers = [0; CONFIGURATION_START + configuration::LENGTH];
    copy(gauge, 0, &mut registers);
    registers
}

/// The register that holds an address below 0x2C. Kept a call of its own: inlined into the loop of `copy`, the compiler works out
/// parts of all registers ahead of it, and a short read pays for registers that it does not touch.
#[inline(never)]
fn register(gauge: &Gauge, address: usize) -> Register {
    match address {
        0x01 => (0x01, 1, i64::from(gauge.mode)),
        0x02 | 0x03 => (0x02, 2, i64::from(gauge.ar)),
        0x04 | 0x05 => (0x04, 2, artte(gauge)),
        0x06 | 0x07 => (0x06, 2, i64::from(gauge.temp)),
        0x08 | 0x09 => (0x08, 2, i64::from(gauge.volt)),
        0x0A => (0x0A, 1, i64::from(gauge.flags)),
        0x0B => (0x0B, 1, rsoc(gauge)),
        0x0C | 0x0D => (0x0C, 2, i64::from(gauge.nac())),
        0x0E | 0x0F => (0x0E, 2, i64::from(gauge.lmd)),
        0x10 | 0x11 => (0x10, 2, cac(gauge)),
        0x12 | 0x13 => (0x12, 2, fcac(gauge)),
        0x14 | 0x15 => (0x14, 2, i64::from(gauge.iav())),
        0x16 | 0x17 => (0x16, 2, tte(gauge)),
        0x18 | 0x19 => (0x18, 2, ttf(gauge)),
        0x1A | 0x1B => (0x1A, 2, i64::from(gauge.si())),
        0x1C | 0x1D => (0x1C, 2, stte(gauge)),
        0x20 | 0x21 => (0x20, 2, i64::from(gauge.configuration.e1())),
        0x2A | 0x2B => (0x2A, 2, i64::from(gauge.cyct)),
        // CTRL, which always reads 0, and the bytes 0x1E, 0x1F and 0x22 to 0x29.
        _ => (address, 1, 0),
    }
}
