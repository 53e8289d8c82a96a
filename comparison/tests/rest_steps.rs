//! The steps of a rest beside its windows, taken one after the other.

#[path = "../src/rest_steps.rs"]
mod rest_steps;

use reference::leak::{leak, nac, GRAINS_PER_COUNT};
use rest_steps::steps;

/// The charge before each window of a rest, and after the last.
fn charges(h: i64, rate: i64, windows: i64) -> Vec<i64> {
    let mut charges = vec![h];
    for window in 0..windows as usize {
        charges.push(charges[window] - leak(charges[window], rate, 1));
    }
    charges
}

/// Every step takes what its windows take, all of them begin with one NAC, and the next one after them with another.
fn same_as_windows(h: i64, rate: i64, windows: i64) {
    let charges = charges(h, rate, windows);
    let mut at = 0;
    for step in steps(h, rate, windows) {
        let end = at + step.windows as usize;
        assert!(end > at && end < charges.len());
        assert!(charges[at..end].iter().all(|&charge| leak(charge, rate, 1) == step.leak && nac(charge) == nac(charges[at])));
        assert_eq!(nac(charges[end]) < nac(charges[at]), step.loses_count);
        assert!(step.loses_count || end == windows as usize);
        at = end;
    }
    assert_eq!(at, windows as usize);
}

#[test]
fn steps_take_what_windows_take() {
    for rate in [0, 1, 8, 15, 960, 1_920] {
        for counts in [0, 1, 2, 1_024, 40_000, 65_534] {
            let leak = counts * rate;
            let whole = counts * GRAINS_PER_COUNT;
            let remainders = [0, 1, leak - 1, leak, leak + 1, 7 * leak - 1, 7 * leak, 7 * leak + 1, GRAINS_PER_COUNT - 1];
            for remainder in remainders.into_iter().filter(|remainder| (0..GRAINS_PER_COUNT).contains(remainder)) {
                for windows in [1, 2, 3, 7, 8, 9, 10, 300] {
                    same_as_windows(whole + remainder, rate, windows);
                }
            }
        }
    }
}
