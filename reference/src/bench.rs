//! The bench program as a function from its input to its output (paper 01, "Bench pack").

use crate::calls;
use crate::numbers;
use crate::saved;

pub const BENCH_PACK: [u8; 10] = [0x04, 0x5E, 0x77, 0x05, 0x21, 0x10, 0x00, 0x00, 0x6C, 0x15];

const FIRST_LINE: &[u8] = b"c v t";

/// What the program prints for an input. Lines end at the byte 10 alone, and every line printed ends in one.
pub fn output(input: &[u8]) -> Vec<u8> {
    let mut lines = lines(input);
    if lines.next() != Some(FIRST_LINE) {
        return b"names\n".to_vec();
    }
    let mut saved = [0; saved::LENGTH];
    calls::open(&BENCH_PACK, &mut saved);
    let mut printed = String::from("nac lmd rsoc flags\n");
    for line in lines {
        printed += &answer(&mut saved, line);
        printed.push('\n');
    }
    printed.into_bytes()
}

/// The lines of the input. A last newline begins no further line, and an empty input has no line.
fn lines(input: &[u8]) -> impl Iterator<Item = &[u8]> {
    let whole = input.strip_suffix(b"\n").unwrap_or(input);
    let none = input.is_empty();
    whole.split(|&byte| byte == b'\n').filter(move |_| !none)
}

/// What one line after the first prints.
fn answer(saved: &mut [u8], line: &[u8]) -> String {
    let number = numbers::three(line).map(|[current, voltage, temperature]| calls::window(saved, current, voltage, temperature));
    match number {
        None => String::from("unread"),
        Some(0) => standing(saved),
        Some(refused) => format!("refused {refused}"),
    }
}

/// NAC, LMD, RSOC and FLAGS as they stand, read from the registers 0x0A to 0x0F.
fn standing(saved: &[u8]) -> String {
    let mut reply = [0; 6];
    calls::read(saved, 0x0A, 6, &mut reply, 0);
    let [flags, rsoc, nac_low, nac_high, lmd_low, lmd_high] = reply;
    let nac = u16::from_le_bytes([nac_low, nac_high]);
    let lmd = u16::from_le_bytes([lmd_low, lmd_high]);
    format!("{nac} {lmd} {rsoc} {flags}")
}
