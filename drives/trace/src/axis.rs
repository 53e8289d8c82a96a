//! Where the axes have their tics: for lists of a window to lists of months, and for every capacity.

/// The tics that an axis of time has at most.
const TICS: f64 = 12.0;

/// The unit of an axis of time, how many of it an hour has, and the distance of two tics.
#[derive(Debug, PartialEq)]
pub struct Time {
    pub unit: &'static str,
    pub per_hour: f64,
    pub tic: f64,
}

/// The axis for a list that ends after so many hours.
pub fn time(end: f64) -> Time {
    let (unit, per_hour, distances): (_, _, &[f64]) = match end {
        end if end <= 2.0 / 60.0 => ("seconds", 3600.0, &[0.5, 1.0, 2.0, 5.0, 10.0]),
        end if end <= 2.0 => ("minutes", 60.0, &[0.2, 0.5, 1.0, 2.0, 5.0, 10.0]),
        end if end <= 72.0 => ("hours", 1.0, &[0.25, 0.5, 1.0, 2.0, 3.0, 4.0, 6.0]),
        _ => ("days", 1.0 / 24.0, &[0.5, 1.0, 2.0, 5.0, 10.0, 20.0, 50.0, 100.0]),
    };
    let least = end * per_hour / TICS;
    let widest = distances[distances.len() - 1];
    let tic = distances.iter().copied().find(|&distance| distance >= least).unwrap_or_else(|| (least / widest).ceil() * widest);
    Time { unit, per_hour, tic }
}

/// The distance of two tics on an axis of counts: a power of two, as capacities are in multiples of 256, and eight of them at most.
pub fn counts(greatest: i64) -> i64 {
    let mut tic = 1;
    while 8 * tic < greatest {
        tic *= 2;
    }
    tic
}

#[cfg(test)]
mod tests {
    use super::*;

    #[test]
    fn from_a_window_to_months() {
        let axis = |end| {
            let Time { unit, tic, .. } = time(end);
            (unit, tic)
        };
        assert_eq!(axis(5.12 / 3600.0), ("seconds", 0.5));
        assert_eq!(axis(1.0 / 60.0), ("seconds", 5.0));
        assert_eq!(axis(1.0), ("minutes", 5.0));
        assert_eq!(axis(11.5), ("hours", 1.0));
        assert_eq!(axis(36.0), ("hours", 3.0));
        assert_eq!(axis(176.5), ("days", 1.0));
        assert_eq!(axis(90.0 * 24.0), ("days", 10.0));
        assert_eq!(axis(10.0 * 365.0 * 24.0), ("days", 400.0));
    }

    #[test]
    fn for_every_capacity() {
        assert_eq!([1, 256, 1024, 1825, 2048, 65_535].map(counts), [1, 32, 128, 256, 256, 8192]);
    }
}
