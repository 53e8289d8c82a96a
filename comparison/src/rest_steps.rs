//! The steps of a rest: windows in a row that begin with the same NAC and so take the same leak (paper 02, A3).

use reference::leak::{nac, GRAINS_PER_COUNT};

/// A step, as far as the rest has windows for it.
#[derive(Clone, Copy)]
pub struct RestStep {
    /// What each of its windows takes, in grains.
    pub leak: i64,
    pub windows: i64,
    /// Whether its last window loses a count. Otherwise the rest ends before that, or nothing leaks.
    pub loses_count: bool,
}

/// The steps of a rest of so many windows from a charge h. The rate is SD × W.
pub fn steps(h: i64, rate: i64, windows: i64) -> impl Iterator<Item = RestStep> {
    let (mut h, mut left) = (h, windows);
    std::iter::from_fn(move || {
        let step = first(h, rate, left)?;
        h -= step.leak * step.windows;
        left -= step.windows;
        Some(step)
    })
}

/// The first step of a rest that has so many windows left, or none without any.
fn first(h: i64, rate: i64, left: i64) -> Option<RestStep> {
    if left == 0 {
        return None;
    }
    let leak = nac(h) * rate;
    match leak {
        0 => Some(RestStep { leak, windows: left, loses_count: false }),
        _ => {
            let windows = h % GRAINS_PER_COUNT / leak + 1;
            Some(RestStep { leak, windows: windows.min(left), loses_count: windows <= left })
        }
    }
}
