//! Texts for the bench program, every kind of line among them.

use crate::counts::Counts;
use crate::random::Random;
use crate::table::texts::Event;
use crate::table::Part;
use crate::values;
use reference::bench::BENCH_PACK;
use reference::configuration::Configuration;
use reference::refusal::{CURRENT_MAX, TEMPERATURE_MAX, TEMPERATURE_MIN, VOLTAGE_MAX, VOLTAGE_MIN};

const OTHER_FIRST_LINES: [&str; 12] =
    ["", "c v t ", " c v t", "c  v t", "c v t\r", "C V T", "c v", "c v t v", "\u{feff}c v t", "c\tv\tt", "0 3700 1192", "c v t\0"];

const ODD_BYTES: [u8; 16] = [0, 9, 11, 13, b'+', b'-', b'.', b',', b'/', b':', b'x', b'e', 0x7F, 0x80, 0xC2, 0xFF];

/// A whole input.
pub fn text(random: &mut Random) -> Vec<u8> {
    if random.one_in(40) {
        return random
            .pick(&[&b""[..], b"\n", b"c v t", b"c v t\n", b"c v t\n\n", b"c v t\n\n\n", b"\n\n", b"c v t\n ", b"c v t\n0"])
            .to_vec();
    }
    let mut text = if random.one_in(12) { random.pick(&OTHER_FIRST_LINES).as_bytes().to_vec() } else { b"c v t".to_vec() };
    for _ in 0..random.amount(120) {
        text.push(b'\n');
        text.extend(line(random));
    }
    if !random.one_in(4) {
        text.push(b'\n');
    }
    text
}

fn line(random: &mut Random) -> Vec<u8> {
    let numbers = numbers(random);
    let mut line = numbers.map(|number| written(random, number)).join(" ").into_bytes();
    if random.one_in(6) {
        spoil(random, &mut line);
    }
    line
}

/// A window of the bench pack, now and then with numbers out of a range, up to beyond 32 bits.
fn numbers(random: &mut Random) -> [i64; 3] {
    let pack = Configuration { bytes: BENCH_PACK };
    let mut numbers =
        [values::current(random, &pack), values::voltage(random, &pack), values::temperature(random, &pack)].map(i64::from);
    let ranges = [(-CURRENT_MAX, CURRENT_MAX), (VOLTAGE_MIN, VOLTAGE_MAX), (TEMPERATURE_MIN, TEMPERATURE_MAX)];
    for (number, (least, greatest)) in numbers.iter_mut().zip(ranges) {
        match random.below(30) {
            0 => *number = i64::from(values::beyond(random, least, greatest)),
            1 => *number = random.pick(&[1 << 31, (1 << 31) - 1, -(1 << 31), -(1 << 31) - 1, 1 << 32]),
            2 => *number += random.pick(&[1 << 32, -(1 << 32), 1 << 40, i64::MAX >> 1]),
            _ => {}
        }
    }
    numbers
}

/// A number as text, now and then with leading zeros, very many of them too.
fn written(random: &mut Random, number: i64) -> String {
    let minus = if number < 0 || (number == 0 && random.one_in(3)) { "-" } else { "" };
    let zeros = match random.below(200) {
        0 => random.range(4_000, 9_000) as usize,
        1..=6 => random.range(1, 25) as usize,
        _ => 0,
    };
    // Beyond 64 bits too, where a sum that wraps would come back into range.
    let more = if random.one_in(150) { "18446744073709551616" } else { "" };
    format!("{minus}{}{more}{}", "0".repeat(zeros), number.unsigned_abs())
}

/// Spoils a line in one way.
fn spoil(random: &mut Random, line: &mut Vec<u8>) {
    let at = random.below(line.len() as u64 + 1) as usize;
    match random.below(9) {
        0 => line.clear(),
        1 => line.insert(at, random.pick(&ODD_BYTES)),
        2 => line.insert(at, b' '),
        3 => line.push(b' '),
        4 => line.insert(0, b' '),
        5 => line.extend(b" 1"),
        6 => line.truncate(at),
        7 => line.push(b'\r'),
        _ => {
            let space = line.iter().position(|&byte| byte == b' ').unwrap_or(0);
            line.insert(space, b' ');
        }
    }
}

/// Counts the kinds of lines of a text and of what is printed for it.
pub fn count(counts: &mut Counts, text: &[u8], printed: &[u8]) {
    let mut add = |event, occurred| counts.add_if(Part::Texts, event, occurred);
    add(Event::TextNames, printed == b"names\n");
    add(Event::TextEmpty, text.is_empty());
    add(Event::TextHeading, printed == b"nac lmd rsoc flags\n");
    add(Event::TextWithoutNewline, !text.is_empty() && !text.ends_with(b"\n"));
    if printed == b"names\n" {
        return;
    }
    for line in text.split(|&byte| byte == b'\n').skip(1) {
        add(Event::LineEmpty, line.is_empty());
        add(Event::LineLong, line.len() > 4_096);
        let longest = line.split(|&byte| byte == b' ').map(<[u8]>::len).max().unwrap_or(0);
        add(Event::LineEdge, (10..=11).contains(&longest));
        add(Event::LineZeros, line.starts_with(b"00") || line.windows(3).any(|part| part == b" 00"));
        add(Event::LineOddByte, line.iter().any(|byte| !b"0123456789 -".contains(byte)));
    }
    for line in printed.split(|&byte| byte == b'\n').skip(1) {
        match line {
            b"" => {}
            b"unread" => add(Event::LineUnread, true),
            b"refused 3" => add(Event::LineRefused3, true),
            b"refused 4" => add(Event::LineRefused4, true),
            b"refused 5" => add(Event::LineRefused5, true),
            _ => add(Event::LineWindow, true),
        }
    }
}
