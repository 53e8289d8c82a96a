//! A difference between the two sides, as it is printed.

use std::fmt::Debug;

pub struct Difference {
    pub what: String,
    pub shipped: String,
    pub other: String,
}

/// Asserts that both sides have the same value.
pub fn same<T: PartialEq + Debug>(what: &str, shipped: T, other: T) -> Result<(), Difference> {
    if shipped == other {
        return Ok(());
    }
    Err(Difference { what: String::from(what), shipped: format!("{shipped:?}"), other: format!("{other:?}") })
}

/// Asserts that both sides have the same bytes.
pub fn same_bytes(what: &str, shipped: &[u8], other: &[u8]) -> Result<(), Difference> {
    if shipped == other {
        return Ok(());
    }
    let at = (0..shipped.len().max(other.len())).find(|&at| shipped.get(at) != other.get(at)).unwrap_or(0);
    Err(Difference { what: format!("{what}, first at byte {at}"), shipped: hexadecimal(shipped), other: hexadecimal(other) })
}

pub fn hexadecimal(bytes: &[u8]) -> String {
    let words: Vec<String> = bytes.iter().map(|byte| format!("{byte:02X}")).collect();
    words.join(" ")
}
