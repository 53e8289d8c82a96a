//! The registers and times as the table shows them.

use reference::estimate::Estimate;
use reference::gauge::{CHGS, CI, EDV1, EDVF, VDQ};
use reference::registers;
use reference::saved;

/// A column of the table.
pub struct Register {
    pub name: &'static str,
    address: usize,
    form: Form,
}

enum Form {
    Pair,
    Byte,
    Hexadecimal,
    Flags,
}

/// In the order of the heading of `replay --all`.
pub const REGISTERS: [Register; 18] = [
    register("NAC", 0x0C, Form::Pair),
    register("LMD", 0x0E, Form::Pair),
    register("RSOC", 0x0B, Form::Byte),
    register("FLAGS", 0x0A, Form::Flags),
    register("CAC", 0x10, Form::Pair),
    register("TTE", 0x16, Form::Pair),
    register("MODE", 0x01, Form::Hexadecimal),
    register("AR", 0x02, Form::Pair),
    register("ARTTE", 0x04, Form::Pair),
    register("TEMP", 0x06, Form::Pair),
    register("VOLT", 0x08, Form::Pair),
    register("FCAC", 0x12, Form::Pair),
    register("IAV", 0x14, Form::Pair),
    register("TTF", 0x18, Form::Pair),
    register("SI", 0x1A, Form::Pair),
    register("STTE", 0x1C, Form::Pair),
    register("CEDV", 0x20, Form::Pair),
    register("CYCT", 0x2A, Form::Pair),
];

const fn register(name: &'static str, address: usize, form: Form) -> Register {
    Register { name, address, form }
}

/// The flags in the order in which the table names them.
const FLAGS: [(u8, &str); 5] = [(CHGS, "CHGS"), (CI, "CI"), (VDQ, "VDQ"), (EDV1, "EDV1"), (EDVF, "EDVF")];

/// The commands by the numbers that a preview hands out, from 1.
const COMMANDS: [&str; 5] = ["WRTNAC", "DONE", "PRST", "FRST", "WRTLMD"];

/// What every column shows where there is no gauge.
const NONE: &str = "-";

/// The registers of the gauge in the saved bytes, as the table has them.
pub fn shown(saved: Option<&[u8; saved::LENGTH]>) -> Vec<String> {
    match saved.and_then(|bytes| saved::load(bytes).ok()) {
        Some(gauge) => values(&registers::all(&gauge)),
        None => vec![String::from(NONE); REGISTERS.len()],
    }
}

/// What a preview shows: all registers as they would stand, and the command's number.
pub fn would_be(command: u8, all: &[u8]) -> String {
    format!("{} by {}", values(all).join(" "), COMMANDS[usize::from(command) - 1])
}

/// What an estimate shows: the counts, and how far they are from NAC.
pub fn estimated(estimate: &Estimate) -> String {
    format!("{} distance {}", estimate.counts, estimate.distance)
}

fn values(all: &[u8]) -> Vec<String> {
    REGISTERS.iter().map(|register| value(register, all)).collect()
}

fn value(register: &Register, all: &[u8]) -> String {
    let byte = all[register.address];
    match register.form {
        Form::Pair => u16::from_le_bytes([byte, all[register.address + 1]]).to_string(),
        Form::Byte => byte.to_string(),
        Form::Hexadecimal => format!("0x{byte:02X}"),
        Form::Flags => flags(byte),
    }
}

fn flags(byte: u8) -> String {
    let names: Vec<&str> = FLAGS.iter().filter(|(bit, _)| byte & bit != 0).map(|&(_, name)| name).collect();
    if names.is_empty() {
        String::from(NONE)
    } else {
        names.join("+")
    }
}

/// A number of windows of 5.12 s as H:MM:SS.hh.
pub fn time(windows: u64) -> String {
    let hundredths = 512 * windows;
    let (seconds, minutes, hours) = (hundredths / 100 % 60, hundredths / 6_000 % 60, hundredths / 360_000);
    format!("{hours}:{minutes:02}:{seconds:02}.{:02}", hundredths % 100)
}

#[cfg(test)]
mod tests {
    use super::*;

    #[test]
    fn times_are_exact() {
        assert_eq!(time(0), "0:00:00.00");
        assert_eq!(time(1), "0:00:05.12");
        assert_eq!(time(16_875), "24:00:00.00");
        assert_eq!(time(506_250), "720:00:00.00");
        assert_eq!(time(703_125), "1000:00:00.00");
        assert_eq!(time(3_037_501), "4320:00:05.12");
    }

    #[test]
    fn flags_by_name() {
        assert_eq!(flags(0x97), "CHGS+CI+VDQ+EDV1+EDVF");
        assert_eq!(flags(0), "-");
    }
}
