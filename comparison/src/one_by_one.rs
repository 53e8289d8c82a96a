//! A rest beside as many rests of 1 window, both made on copies of the shipped gauge (paper 02, A3).

use crate::difference::{same, same_bytes, Difference};
use crate::shipped::{self, Lent};
use reference::refusal::REST_MAX;

/// Every rest of at most so many windows is made again one by one, one in so many of the longer ones, whose calls are many, and one in
/// so many of the longest, which are few.
const ALL_UP_TO: u32 = 600;
const LONGER_ONE_IN: u32 = 16;
const LONGEST_ONE_IN: u32 = 5;

/// Makes a rest, and as many rests of 1 window, on copies of the gauge: each has to yield the number of the one, and together they have
/// to leave its bytes. The number, or none for a rest that is not made so.
pub fn compare(saved: &Lent, windows: u32, temperature: i32) -> Result<Option<u32>, Difference> {
    if !is_compared(saved, windows) {
        return Ok(None);
    }
    let (mut together, mut one_by_one) = (saved.clone(), saved.clone());
    let number = shipped::rest(&mut together, windows, temperature);
    for _ in 0..windows {
        same("number of a rest and of each rest of 1 window in its place", number, shipped::rest(&mut one_by_one, 1, temperature))?;
    }
    same_bytes("saved bytes of a rest and of as many rests of 1 window", together.bytes(), one_by_one.bytes())?;
    same("bytes beside the saved ones kept", together.guards_kept() && one_by_one.guards_kept(), true)?;
    Ok(Some(number))
}

fn is_compared(saved: &Lent, windows: u32) -> bool {
    let one_in = match windows {
        0..=ALL_UP_TO => 1,
        REST_MAX => LONGEST_ONE_IN,
        _ => LONGER_ONE_IN,
    };
    (2..=REST_MAX).contains(&windows) && is_chosen(saved, windows, one_in)
}

/// The longer ones are chosen by what they are made with, so that a trial that is run again makes the same calls.
fn is_chosen(saved: &Lent, windows: u32, one_in: u32) -> bool {
    let sum: u32 = saved.bytes().iter().map(|&byte| u32::from(byte)).sum();
    (sum + windows) % one_in == 0
}
