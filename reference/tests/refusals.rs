//! The fourteen examples of paper 01's table, the order of the tests, and that a refusal changes no byte.

mod common;
use common::*;
use reference::bench::BENCH_PACK;
use reference::calls::{estimate, open, read, rest, window, write};

/// A gauge with a MODE and an AR.
fn host(mode: u8, ar: i32) -> Saved {
    with(|gauge| {
        gauge.mode = mode;
        gauge.ar = ar;
    })
}

/// Runs a call on a copy and asserts its number and that the copy is unchanged.
fn refuses(bytes: Saved, number: u32, call: impl Fn(&mut [u8]) -> u32) {
    let mut copy = bytes;
    assert_eq!(call(&mut copy), number);
    assert_eq!(copy, bytes);
}

#[test]
fn numbers_1_and_2_then_13_of_opening() {
    let empty = [0; 10];
    refuses(opened(), 1, |saved| open(&BENCH_PACK[..9], saved));
    refuses(opened(), 1, |saved| open(&[1; 11], saved));
    refuses(opened(), 2, |saved| open(&empty, saved));
    refuses(opened(), 1, |saved| open(&empty[..9], &mut saved[..54]));
    refuses(opened(), 2, |saved| open(&empty, &mut saved[..54]));
    refuses(opened(), 13, |saved| open(&BENCH_PACK, &mut saved[..54]));
    // 53 was the length before A6 (paper 02).
    for length in [0, 41, 43, 53, 54, 56] {
        assert_eq!(open(&BENCH_PACK, &mut vec![0; length]), 13);
    }
}

#[test]
fn numbers_3_4_5_of_a_window() {
    refuses(opened(), 3, |saved| window(saved, 28_012, 3700, 1192));
    refuses(opened(), 4, |saved| window(saved, 0, 2_599, 1192));
    refuses(opened(), 5, |saved| window(saved, 0, 3700, 1_373));
    refuses(opened(), 3, |saved| window(saved, -28_012, 4_501, 1_011));
    refuses(opened(), 4, |saved| window(saved, 28_011, 4_501, 1_011));
    refuses(opened(), 5, |saved| window(saved, -28_011, 4_500, 1_011));
    refuses(opened(), 3, |saved| window(saved, i32::MIN, 3700, 1192));
    for (current, voltage, temperature) in [(28_011, 2_600, 1_012), (-28_011, 4_500, 1_372)] {
        after(opened(), current, voltage, temperature);
    }
}

#[test]
fn number_6_before_5_of_a_rest() {
    refuses(opened(), 6, |saved| rest(saved, 0, 1192));
    refuses(opened(), 6, |saved| rest(saved, 0, 1_373));
    refuses(opened(), 6, |saved| rest(saved, MONTH + 1, 1_011));
    refuses(opened(), 6, |saved| rest(saved, u32::MAX, 1192));
    refuses(opened(), 5, |saved| rest(saved, MONTH, 1_011));
    assert_eq!(rest(&mut opened(), MONTH, 1_012), 0);
    assert_eq!(rest(&mut opened(), 1, 1_372), 0);
}

#[test]
fn a_rest_may_last_thirty_days() {
    // Paper 02, A6. A day of 86,400 s has 16,875 windows of 5.12 s.
    assert_eq!((u64::from(DAY) * 512, MONTH), (86_400 * 100, 30 * DAY));
    for windows in [DAY, DAY + 1, 65_535, 65_536, 65_537, MONTH - 1, MONTH] {
        assert_eq!(rest(&mut opened(), windows, 1192), 0, "{windows}");
    }
    // Among those refused, some whose low 16, 19 or 20 bits alone would be accepted.
    for windows in [MONTH + 1, MONTH + 2, (1 << 19) + 1, (1 << 20) + DAY, (1 << 24) + 422, (1 << 31) + 1, u32::MAX] {
        refuses(opened(), 6, |saved| rest(saved, windows, 1192));
    }
}

#[test]
fn numbers_7_to_11_of_a_write() {
    refuses(opened(), 7, |saved| write(saved, 0x04, 0));
    refuses(opened(), 7, |saved| write(saved, u32::MAX, 0xA9));
    refuses(opened(), 7, |saved| write(saved, 0x100, 0xA9));
    refuses(host(0x20, 0), 8, |saved| write(saved, 0x00, 0x57));
    refuses(host(0x44, 0), 9, |saved| write(saved, 0x00, 0xA9));
    refuses(host(0xC4, 0), 9, |saved| write(saved, 0x00, 0x56));
    refuses(host(0x01, 0), 10, |saved| write(saved, 0x00, 0xA9));
    refuses(host(0x01, 0), 11, |saved| write(saved, 0x00, 0x56));
    for bit in [0x20, 0x10, 0x08, 0x02] {
        refuses(host(bit | 0x01, 0), 10, |saved| write(saved, 0x00, 0x56));
    }
}

#[test]
fn numbers_12_and_13_of_a_read() {
    let bytes = opened();
    for (address, count, length, place, number) in [
        (0x7F, 2, 4, 0, 12),
        (0, 0, 4, 9, 12),
        (0, 129, 200, 0, 12),
        (u32::MAX, 1, 4, 0, 12),
        (1, u32::MAX, 4, 0, 12),
        (0, 2, 4, 3, 13),
        (0, 1, 0, 0, 13),
        (0, 2, 4, u32::MAX, 13),
        (0x7F, 1, 4, 3, 0),
        (0, 128, 128, 0, 0),
    ] {
        let mut reply = vec![0xEE; length];
        assert_eq!(read(&bytes, address, count, &mut reply, place), number);
        assert!(number == 0 || reply.iter().all(|&byte| byte == 0xEE));
    }
}

#[test]
fn number_14_comes_first() {
    let mut damaged = opened();
    damaged[0] = 0;
    refuses(damaged, 14, |saved| window(saved, 28_012, 0, 0));
    refuses(damaged, 14, |saved| rest(saved, 0, 0));
    refuses(damaged, 14, |saved| write(saved, 0x04, 0));
    refuses(damaged, 14, |saved| read(saved, 0, 0, &mut [], 0));
    refuses(damaged, 14, |saved| estimate(saved, 0, &mut 0, &mut 0));
    refuses(opened(), 14, |saved| window(&mut saved[..54], 0, 3700, 1192));
}

#[test]
fn a_read_leaves_the_other_bytes_of_the_reply() {
    let mut reply = [0xEE; 5];
    assert_eq!(read(&line_three(), 0x0B, 3, &mut reply, 1), 0);
    assert_eq!(reply, [0xEE, 99, 0xFB, 0x03, 0xEE]);
}
