//! Simpler ways in which a trial can start, for the search of the shortest one: towards the opened bench pack.

use crate::fields::Fields;
use crate::older;
use crate::trial::Start;
use reference::bench::BENCH_PACK;
use reference::{calls, saved};

/// The same start without a claim: bytes that change can be accepted or not.
pub fn unclaimed(start: &Start) -> Start {
    match start.clone() {
        Start::Opened(configuration) => Start::Opened(configuration),
        Start::Saved { bytes, .. } => Start::Saved { bytes, accepted: None },
        Start::Converted { old, lent, .. } => Start::Converted { old, lent, readable: None },
    }
}

/// Starts to try in place of this one: lent bytes that are all alike, and, where it is not the conversion that differs, the gauge
/// that it gives, handed in.
pub fn other_starts(start: &Start) -> Vec<Start> {
    let (old, lent) = match start {
        Start::Converted { old, lent, .. } => (old, lent),
        _ => return Vec::new(),
    };
    let alike = |length| Start::Converted { old: old.clone(), lent: vec![0xEE; length], readable: None };
    let mut bytes = lent.clone();
    calls::convert(old, &mut bytes);
    vec![alike(lent.len()), alike(saved::LENGTH), Start::Saved { bytes, accepted: None }]
}

/// The bytes that a start is made of.
pub fn bytes(start: &Start) -> &[u8] {
    match start {
        Start::Opened(configuration) => configuration,
        Start::Saved { bytes, .. } => bytes,
        Start::Converted { old, .. } => old,
    }
}

/// Puts the bench pack's byte at a place of the start's bytes, in the form that they have. False if it stands there already or if
/// the pack has no byte there.
pub fn simplify(start: &mut Start, at: usize) -> bool {
    let (bytes, simplest): (&mut [u8], Vec<u8>) = match start {
        Start::Opened(configuration) => (configuration, BENCH_PACK.to_vec()),
        Start::Saved { bytes, .. } | Start::Converted { old: bytes, .. } => {
            let simplest = opened(bytes[0]);
            (bytes, simplest)
        }
    };
    match simplest.get(at) {
        Some(&byte) if bytes[at] != byte => {
            bytes[at] = byte;
            true
        }
        _ => false,
    }
}

/// The opened bench pack in a form; in the newest one for a number that is no form.
fn opened(form: u8) -> Vec<u8> {
    let mut bytes = vec![0; saved::LENGTH];
    calls::open(&BENCH_PACK, &mut bytes);
    match form {
        1..=4 => older::in_form(form, &Fields::of(&bytes)).bytes(),
        _ => bytes,
    }
}
