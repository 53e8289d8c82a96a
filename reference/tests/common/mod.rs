//! Gauges for the tests, as saved bytes.
#![allow(dead_code)] // each test file uses its own part of this

pub mod held;

use reference::bench::BENCH_PACK;
use reference::calls;
use reference::gauge::{Gauge, EDV1, VDQ};
use reference::saved;

pub const G: i64 = 135_000_000;
pub const GREATEST_DRAIN: i64 = 65_535 * G;

/// A rest of a day, which was the longest before A6, and of thirty days, which is the longest since (paper 02, A6).
pub const DAY: u32 = 16_875;
pub const MONTH: u32 = 506_250;

/// Bytes of the newest form, of form 4, of form 3, and of forms 1 and 2.
pub type Saved = [u8; 55];
pub type Form4 = [u8; 53];
pub type Form3 = [u8; 43];
pub type Old = [u8; 41];

/// The bench pack, opened.
pub fn opened() -> Saved {
    let mut bytes = [0xEE; 55];
    assert_eq!(calls::open(&BENCH_PACK, &mut bytes), 0);
    bytes
}

/// The gauge that the bytes hold; the test fails if they hold none.
pub fn gauge(bytes: &[u8]) -> Gauge {
    saved::load(bytes).expect("the bytes hold a gauge")
}

/// The opened bench pack with some fields changed, as bytes.
pub fn with(change: impl Fn(&mut Gauge)) -> Saved {
    let mut changed = gauge(&opened());
    change(&mut changed);
    let mut bytes = [0; 55];
    saved::store(&changed, &mut bytes);
    bytes
}

/// A gauge in which every field differs from the opened one, as bytes.
pub fn used() -> Saved {
    with(|gauge| {
        *gauge = Gauge {
            h: 500 * G + 77,
            dcr: 33,
            lmd: 900,
            si_sixteenths: 16 * 7,
            c: -40,
            volt: 3900,
            temp: 1100,
            ar: 0xBEEF,
            mode: 0x5A,
            flags: VDQ | EDV1,
            rest_count: 0x1234,
            cyct: 0x5678,
            cycle_drain: 899 * G + 5,
            ..*gauge
        }
    })
}

/// The bytes after one window that is not refused.
pub fn after(mut bytes: Saved, current: i32, voltage: i32, temperature: i32) -> Saved {
    assert_eq!(calls::window(&mut bytes, current, voltage, temperature), 0);
    bytes
}

/// Converts into bytes that hold something else, which a refusal keeps.
pub fn converted(old: &[u8]) -> Result<Saved, u32> {
    let mut bytes = [0xEE; 55];
    match calls::convert(old, &mut bytes) {
        0 => Ok(bytes),
        refused => {
            assert_eq!(bytes, [0xEE; 55]);
            Err(refused)
        }
    }
}

/// Saved bytes in each older form, from form 1 on.
pub fn as_older_forms(bytes: &Saved) -> [Vec<u8>; 4] {
    [as_form_1(bytes).to_vec(), as_form_2(bytes).to_vec(), as_form_3(bytes).to_vec(), as_form_4(bytes).to_vec()]
}

/// Saved bytes in form 1: SI in whole units in the same two bytes, no count of rest windows and no cycles.
pub fn as_form_1(bytes: &Saved) -> Old {
    let si = u16::from_le_bytes([bytes[29], bytes[30]]);
    assert_eq!(si % 16, 0, "form 1 has no parts of a unit");
    old_with_si(1, bytes, si / 16)
}

/// Saved bytes in form 2, which has no count of rest windows and no cycles.
pub fn as_form_2(bytes: &Saved) -> Old {
    old_with_si(2, bytes, u16::from_le_bytes([bytes[29], bytes[30]]))
}

/// Saved bytes in form 3, which has the count in two bytes and no cycles.
pub fn as_form_3(bytes: &Saved) -> Form3 {
    assert_eq!(bytes[43..45], [0, 0], "form 3 has two bytes for the count");
    let mut old: Form3 = bytes[..43].try_into().unwrap();
    old[0] = 3;
    old
}

/// Saved bytes in form 4, which has the count in two bytes, and the cycles behind them.
pub fn as_form_4(bytes: &Saved) -> Form4 {
    let mut old = [0; 53];
    old[..43].copy_from_slice(&as_form_3(bytes));
    old[43..].copy_from_slice(&bytes[45..]);
    old[0] = 4;
    old
}

/// Saved bytes in form 3 or 4 with another count as it is stored.
pub fn with_stored_count(old: &[u8], count: u16) -> Vec<u8> {
    let mut other = old.to_vec();
    other[41..43].copy_from_slice(&count.to_le_bytes());
    other
}

/// Saved bytes with the number of form 1 or 2, and of its length, and another SI as it is stored.
pub fn old_with_si(form: u8, bytes: &Saved, si: u16) -> Old {
    let mut old: Old = bytes[..41].try_into().unwrap();
    old[0] = form;
    old[29..31].copy_from_slice(&si.to_le_bytes());
    old
}

/// Saved bytes with another SI, in sixteenths.
pub fn with_si(bytes: &Saved, si: u16) -> Saved {
    let mut other = *bytes;
    other[29..31].copy_from_slice(&si.to_le_bytes());
    other
}

/// The bytes after a command that is not refused: AR, MODE and the key.
pub fn after_command(mut bytes: Saved, ar: u16, mode: u8, key: u8) -> Saved {
    let [low, high] = ar.to_le_bytes();
    for (address, value) in [(0x02, low), (0x03, high), (0x01, mode), (0x00, key)] {
        assert_eq!(calls::write(&mut bytes, address, value), 0);
    }
    bytes
}

/// The bytes after a rest that is not refused.
pub fn after_rest(mut bytes: Saved, windows: u32, temperature: i32) -> Saved {
    assert_eq!(calls::rest(&mut bytes, windows, temperature), 0);
    bytes
}

/// A register pair.
pub fn pair(bytes: &[u8], address: u32) -> u16 {
    let mut reply = [0; 2];
    assert_eq!(calls::read(bytes, address, 2, &mut reply, 0), 0);
    u16::from_le_bytes(reply)
}

/// The bench pack on the way from full: lines one to three of the bench example.
pub fn line_three() -> Saved {
    let two = after(after(opened(), 2, 3700, 1192), 20, 4150, 1192);
    after(two, -3000, 3600, 1192)
}
