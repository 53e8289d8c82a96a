//! The tables that gnuplot draws. Times are hours since the first call.

use crate::line::Line;
use crate::step::{hours, Step};
use reference::compensation::rsoc;
use reference::fixing::FixingPoint;
use reference::gauge::{CHGS, CI, EDV1, EDVF, VDQ};
use reference::history::Call;
use std::fmt::Write;

/// The flags in the order of their bands, from the top; the band of rests follows them.
const FLAGS: [u8; 5] = [CHGS, VDQ, EDV1, EDVF, CI];

/// How far apart two labels stand at least, as a part of the list's length.
const LABELS_APART: f64 = 0.045;

/// The kinds of points, which gnuplot numbers from 1: the fixing points, then `load`, where a history begins without one.
pub fn kinds() -> Vec<&'static str> {
    FixingPoint::ALL.iter().map(|point| point.name()).chain(["load"]).collect()
}

/// One line for each step: hour, NAC, LMD, RSOC, charge held. An empty line, where gnuplot's curves break, before another gauge.
pub fn curves(steps: &[&Step]) -> String {
    let mut text = String::from("hour nac lmd rsoc held\n");
    for (at, step) in steps.iter().enumerate() {
        if at > 0 && matches!(step.line, Some(Line::Open(_) | Line::Load(_))) {
            text.push('\n');
        }
        if let Some(gauge) = &step.gauge {
            let (hour, held) = (hours(step.to), step.held());
            let _ = writeln!(text, "{hour:.6} {} {} {} {held:.3}", gauge.nac(), gauge.lmd, rsoc(gauge));
        }
    }
    text
}

/// For each time that a flag stays set, and for each stretch of rests: number of its band, first hour, last hour. During a round whose calls have no
/// rows nothing is known to hold.
pub fn bands(steps: &[&Step]) -> Vec<(usize, f64, f64)> {
    let mut found = Vec::new();
    let mut band = |number, holds: &dyn Fn(&Step) -> bool| {
        for stretch in stretches(steps, holds) {
            found.push((number, hours(stretch[0].from), hours(stretch[stretch.len() - 1].to)));
        }
    };
    for (at, flag) in FLAGS.iter().enumerate() {
        band(at + 1, &|step| !step.is_round() && step.flags() & flag != 0);
    }
    band(FLAGS.len() + 1, &|step| matches!(step.line, Some(Line::One(Call::Rest { .. }))));
    found
}

/// For each point, the first where calls in a row make the same one: number of its kind, hour, NAC.
pub fn points(steps: &[&Step]) -> Vec<(usize, f64, i32)> {
    let mut found = Vec::new();
    let mut kind = |number, made: &dyn Fn(&Step) -> bool| {
        for stretch in stretches(steps, made) {
            found.push((number, hours(stretch[0].to), stretch[0].nac()));
        }
    };
    for (at, &point) in FixingPoint::ALL.iter().enumerate() {
        kind(at + 1, &|step| step.points.contains(point));
    }
    kind(FixingPoint::ALL.len() + 1, &|step| matches!(step.line, Some(Line::Load(_))));
    found
}

/// For each stretch of rounds whose calls have no rows: first hour, last hour.
pub fn rounds(steps: &[&Step]) -> Vec<(f64, f64)> {
    let found = stretches(steps, &|step| step.is_round());
    found.iter().map(|stretch| (hours(stretch[0].from), hours(stretch[stretch.len() - 1].to))).collect()
}

/// Where something holds for steps that follow one another.
fn stretches<'a, 'b>(steps: &'a [&'b Step], holds: &dyn Fn(&Step) -> bool) -> Vec<&'a [&'b Step]> {
    steps.split(|step| !holds(step)).filter(|stretch| !stretch.is_empty()).collect()
}

/// The hours at which the handset goes dark: EDVF windows before which EDVF is clear. Each with 1 if it is to be labelled, or 0 if the label
/// would stand on the one before.
pub fn dark(steps: &[&Step]) -> Vec<(f64, u8)> {
    let apart = LABELS_APART * steps.last().map_or(0.0, |step| hours(step.to));
    let mut found: Vec<(f64, u8)> = Vec::new();
    let (mut before, mut free) = (0, 0.0);
    for step in steps {
        let hour = hours(step.to);
        if before & EDVF == 0 && step.points.contains(FixingPoint::EdvfWindow) {
            found.push((hour, u8::from(hour >= free)));
            free = if hour >= free { hour + apart } else { free };
        }
        before = step.flags();
    }
    found
}

/// The hours at which calls were refused.
pub fn refused(steps: &[Step]) -> Vec<f64> {
    steps.iter().filter(|step| step.refused()).map(|step| hours(step.to)).collect()
}

/// For each accepted estimate: hour, voltage, counts, distance from NAC.
pub fn estimates(steps: &[Step]) -> Vec<(f64, i32, i32, i32)> {
    let row = |step: &Step| step.estimate().map(|(voltage, found)| (hours(step.to), voltage, found.counts, found.distance));
    steps.iter().filter_map(row).collect()
}

#[cfg(test)]
mod tests {
    use super::*;
    use crate::agreement;
    use crate::examples::{self, REPEATED};

    const LINES: [&str; 9] = [
        "open 04 5E 77 05 21 10 00 00 6C 15",
        "done",
        "rest 703 1192",
        "window -100 2800 1192",
        "window -100 2800 2000",
        "read 0x0C 2",
        "window -100 2800 1192",
        "window 100 3700 1192",
        "window -100 2800 1192",
    ];

    fn name(kind: usize) -> &'static str {
        kinds()[kind - 1]
    }

    #[test]
    fn points_of_a_list() {
        let steps = examples::steps(&LINES);
        let moves: Vec<&Step> = steps.iter().filter(|step| step.moves()).collect();
        let found: Vec<_> = points(&moves).iter().map(|&(kind, hour, nac)| (name(kind), (hour * 703.125).round(), nac)).collect();
        assert_eq!(
            found,
            [
                ("opening", 0.0, 0),
                ("DONE", 0.0, 1024),
                ("empty stop", 705.0, 0),
                ("empty stop", 707.0, 0),
                ("EDVF window", 704.0, 0),
                ("EDVF window", 707.0, 0),
            ]
        );
        assert_eq!(dark(&moves).len(), 2);
        assert_eq!(refused(&steps).len(), 1);
    }

    #[test]
    fn a_rest_spans_its_time_and_a_command_takes_none() {
        let steps = examples::steps(&LINES);
        let moves: Vec<&Step> = steps.iter().filter(|step| step.moves()).collect();
        let curves = curves(&moves);
        assert!(
            curves.starts_with("hour nac lmd rsoc held\n0.000000 0 1024 0 0.000\n0.000000 1024 1024 100 1024.000\n0.999822 1023 ")
        );
        let of = |number| bands(&moves).into_iter().find(|band| band.0 == number);
        assert_eq!(of(6).map(|(_, from, to)| (from, to)), Some((0.0, hours(703))));
        assert_eq!(of(2).map(|(_, from, to)| (from, to)), Some((0.0, hours(703))));
    }

    #[test]
    fn estimates_of_a_list() {
        let asked = ["estimate 3703", "estimate 2999", "estimate 4200"];
        let steps = examples::steps(&[&[LINES[0], "nac 500", asked[0], "rest 703 1192"], &asked[..]].concat());
        assert_eq!(estimates(&steps), [(hours(703), 3703, 358, -141), (hours(703), 4200, 1024, 525)]);
    }

    #[test]
    fn rounds_without_rows_have_a_place_on_the_curves_and_no_band() {
        let (steps, _) = agreement::steps(REPEATED).unwrap();
        let moves: Vec<&Step> = steps.iter().collect();
        assert_eq!(curves(&moves).lines().count(), 9);
        assert_eq!(rounds(&moves), [(hours(1), hours(3))]);
        let of_ci: Vec<_> = bands(&moves).into_iter().filter(|band| band.0 == 5).map(|(_, from, to)| (from, to)).collect();
        assert_eq!(of_ci, [(0.0, hours(1)), (hours(3), hours(5))]);
    }

    #[test]
    fn another_gauge_breaks_the_curves() {
        let steps = examples::steps(&[LINES[0], "nac 9", LINES[0]]);
        let moves: Vec<&Step> = steps.iter().collect();
        assert!(curves(&moves).ends_with("0.000000 9 1024 0 9.000\n\n0.000000 0 1024 0 0.000\n"));
    }
}
