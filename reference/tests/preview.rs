//! A preview of a key at CTRL (paper 02, A2): the command and the registers that the write would leave, and that nothing moves.

mod common;
use common::*;
use reference::calls::{preview, read, write};
use reference::gauge::{Gauge, CHGS, CI, EDV1, EDVF, VDQ};

/// What stands in the reply and in the command before a preview.
const REPLY_BEFORE: u8 = 0xEE;
const COMMAND_BEFORE: u8 = 0x99;

/// A gauge with every field used, and a MODE and an AR.
fn host(mode: u8, ar: i32) -> Saved {
    with(|gauge| {
        *gauge = Gauge {
            h: 500 * G + 77,
            dcr: 33,
            lmd: 900,
            si_sixteenths: 7,
            c: 40,
            volt: 3900,
            temp: 1100,
            ar,
            mode,
            flags: CHGS | VDQ | EDV1 | EDVF,
            rest_count: 421,
            cyct: 16,
            cycle_drain: 899 * G,
            ..*gauge
        }
    })
}

/// The number, the reply and the command.
fn previewed(bytes: &[u8], key: u8, reply_length: usize) -> (u32, Vec<u8>, u8) {
    let mut reply = vec![REPLY_BEFORE; reply_length];
    let mut command = COMMAND_BEFORE;
    let number = preview(bytes, key, &mut reply, &mut command);
    (number, reply, command)
}

/// The command and the registers of a preview that is not refused.
fn accepted(bytes: &[u8], key: u8) -> (u8, Vec<u8>) {
    let (number, reply, command) = previewed(bytes, key, 128);
    assert_eq!(number, 0);
    (command, reply)
}

/// Asserts the number, and that the reply and the command keep.
fn refuses(bytes: &[u8], key: u8, reply_length: usize, number: u32) {
    let expected = (number, vec![REPLY_BEFORE; reply_length], COMMAND_BEFORE);
    assert_eq!(previewed(bytes, key, reply_length), expected, "key {key:#04X}, reply of {reply_length}");
}

fn pair_of(registers: &[u8], address: usize) -> u16 {
    u16::from_le_bytes([registers[address], registers[address + 1]])
}

#[test]
fn each_command_has_its_number() {
    for (mode, key, number) in [(0x20, 0xA9, 1), (0x10, 0xA9, 2), (0x08, 0xA9, 3), (0x02, 0xA9, 4), (0x01, 0x56, 5)] {
        assert_eq!(accepted(&host(mode, 9), key).0, number);
    }
    // The highest bit is obeyed.
    assert_eq!(accepted(&host(0x35, 9), 0xA9).0, 1);
}

#[test]
fn the_registers_are_those_after_the_command() {
    // MODE, AR and key; then NAC, LMD, RSOC, FLAGS and AR as shown.
    let rows = [
        (0x20, 700, 0xA9, 700, 900, 77, CHGS | EDV1 | EDVF, 700),
        (0x20, 901, 0xA9, 900, 900, 100, CHGS | EDV1 | EDVF, 901),
        (0x10, 700, 0xA9, 900, 900, 100, CHGS | VDQ, 700),
        (0x08, 700, 0xA9, 500, 900, 55, 0, 0),
        (0x02, 700, 0xA9, 0, 1024, 0, CI, 0),
        (0x01, 400, 0x56, 400, 400, 100, CHGS | EDV1 | EDVF, 400),
        (0x01, 700, 0x56, 500, 700, 71, CHGS | EDV1 | EDVF, 700),
    ];
    for (mode, ar, key, nac, lmd, rsoc, flags, shown_ar) in rows {
        let (_, shown) = accepted(&host(mode, ar), key);
        assert_eq!((pair_of(&shown, 0x0C), pair_of(&shown, 0x0E), shown[0x0B]), (nac, lmd, rsoc));
        assert_eq!((shown[0x0A], pair_of(&shown, 0x02)), (flags, shown_ar));
    }
}

#[test]
fn cycles_are_shown_as_the_reset_leaves_them() {
    // Paper 02, A5: FRST clears them, PRST and the settings keep them.
    for (mode, key, cycles) in [(0x20, 0xA9, 16), (0x10, 0xA9, 16), (0x08, 0xA9, 16), (0x02, 0xA9, 0), (0x01, 0x56, 16)] {
        assert_eq!(pair_of(&accepted(&host(mode, 9), key).1, 0x2A), cycles);
    }
}

#[test]
fn the_command_bits_of_mode_are_cleared_and_ctrl_is_0() {
    // DONE clears INIT too, and the resets put MODE as opened.
    let rows = [(0xFF, 0xA9, 0xC4), (0xDF, 0xA9, 0xC0), (0xCF, 0xA9, 0x44), (0xC7, 0xA9, 0x44), (0xC5, 0x56, 0xC4)];
    for (mode, key, after) in rows {
        let (_, shown) = accepted(&host(mode, 9), key);
        assert_eq!((shown[0x00], shown[0x01]), (0x00, after));
    }
}

#[test]
fn it_is_the_write_on_a_copy_and_then_the_read() {
    for mode in 0..=255 {
        for (key, ar) in [(0xA9, 0), (0xA9, 700), (0x56, 0), (0x56, 700), (0x00, 700)] {
            let mut copy = host(mode, ar);
            let mut shown = vec![REPLY_BEFORE; 128];
            let number = match write(&mut copy, 0x00, key) {
                0 => read(&copy, 0, 128, &mut shown, 0),
                refused => refused,
            };
            let (own, reply, _) = previewed(&host(mode, ar), key, 128);
            assert_eq!((own, reply), (number, shown), "MODE {mode:#04X}, key {key:#04X}, AR {ar}");
        }
    }
}

#[test]
fn numbers_8_to_11_as_the_write() {
    for key in (0..=255).filter(|&key| ![0xA9, 0x56].contains(&key)) {
        refuses(&host(0x3B, 9), key, 128, 8);
    }
    for key in [0xA9, 0x56] {
        refuses(&host(0xC4, 9), key, 128, 9);
    }
    refuses(&host(0x01, 0), 0xA9, 128, 10);
    for bit in [0x20, 0x10, 0x08, 0x02] {
        refuses(&host(bit | 0x01, 0), 0x56, 128, 10);
    }
    refuses(&host(0x01, 0), 0x56, 128, 11);
}

#[test]
fn number_13_unless_the_reply_has_128_bytes() {
    for length in (0..=400).filter(|&length| length != 128) {
        refuses(&host(0x20, 700), 0xA9, length, 13);
        refuses(&host(0x01, 700), 0x56, length, 13);
    }
}

#[test]
fn number_13_comes_last_and_14_first() {
    let mut damaged = host(0x01, 0);
    damaged[0] = 0;
    for length in [0, 127, 129] {
        refuses(&host(0x00, 0), 0x57, length, 8);
        refuses(&host(0x44, 0), 0xA9, length, 9);
        refuses(&host(0x01, 0), 0xA9, length, 10);
        refuses(&host(0x01, 0), 0x56, length, 11);
    }
    for (key, length) in [(0xA9, 128), (0x57, 128), (0xA9, 127), (0x57, 129)] {
        refuses(&damaged, key, length, 14);
        refuses(&host(0x20, 9)[..52], key, length, 14);
        for old in as_older_forms(&opened()) {
            refuses(&old, key, length, 14);
        }
    }
}
