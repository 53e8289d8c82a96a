//! Which events an estimate is (paper 02, A4 and A6). This only counts: no comparison rests on it.

use crate::counts::Counts;
use crate::events::Standing;
use crate::older::FORMER_STOP;
use crate::origin::Origin;
use crate::table::estimates::Event;
use crate::table::Part;
use reference::estimate::{self, permille, STEP};
use reference::gauge::REST_COUNT_MAX;
use reference::leak::nac;
use reference::refusal::{ESTIMATE_REST_MIN, ESTIMATE_VOLTAGE, ESTIMATE_VOLTAGE_MAX, ESTIMATE_VOLTAGE_MIN, NOT_RESTED, SAVED};

/// From this LMD on, two entries with another permille give another estimate.
const SHOWS_PERMILLE: i32 = 1_000;

/// Counts an estimate that was not refused, of a gauge as it stands.
pub fn count(counts: &mut Counts, part: Part, now: &Standing, voltage: i32) {
    let above_first = voltage - ESTIMATE_VOLTAGE_MIN;
    if now.lmd >= SHOWS_PERMILLE {
        counts.add_entry(part, (above_first / STEP) as usize);
    }
    counts.add(part, if above_first % STEP == 0 { Event::EstimateAtEntry } else { Event::EstimateBetween });
    counts.add_if(part, Event::EstimateAtLeastRest, now.rest_count == ESTIMATE_REST_MIN);
    counts.add_if(part, Event::EstimateWithRun, now.run.is_some());
    wide_count(counts, part, now.rest_count);
    counts.add_if(part, Event::Estimate3000, voltage == 3_000);
    counts.add_if(part, Event::Estimate4197, voltage == 4_197);
    counts.add_if(part, Event::Estimate4198, voltage == 4_198);
    counts.add_if(part, Event::Estimate4199, voltage == 4_199);
    counts.add_if(part, Event::Estimate4200, voltage == 4_200);
    given(counts, part, now, voltage);
}

/// A count of four bytes, some of which two bytes would bring below 422.
fn wide_count(counts: &mut Counts, part: Part, rest_count: u32) {
    counts.add_if(part, Event::EstimateAt65535, rest_count == FORMER_STOP);
    counts.add_if(part, Event::EstimateAbove65535, rest_count > FORMER_STOP);
    let low_bytes = rest_count % (FORMER_STOP + 1);
    counts.add_if(part, Event::EstimateAtMultiple, rest_count > FORMER_STOP && low_bytes == 0);
    let below = (1..ESTIMATE_REST_MIN).contains(&low_bytes);
    counts.add_if(part, Event::EstimateLowBytes, rest_count > FORMER_STOP && below);
    counts.add_if(part, Event::EstimateAtStop, rest_count == REST_COUNT_MAX);
}

/// What is handed out.
fn given(counts: &mut Counts, part: Part, now: &Standing, voltage: i32) {
    let estimate = estimate::counts(voltage, now.lmd);
    let exact = permille(voltage) * now.lmd == 1_000 * estimate;
    counts.add_if(part, Event::EstimateFloored, !exact);
    counts.add_if(part, Event::EstimateExact, exact && estimate > 0);
    let distance = estimate - nac(now.h) as i32;
    let event = match distance {
        0 => Event::EstimateAtNac,
        1.. => Event::EstimateAboveNac,
        _ => Event::EstimateBelowNac,
    };
    counts.add(part, event);
    counts.add_if(part, Event::EstimateLeastDistance, distance == -65_535);
    counts.add_if(part, Event::EstimateGreatestDistance, distance == 65_535);
}

/// Counts an estimate that was refused with a number, by the count of the gauge, if there is one.
pub fn refused(counts: &mut Counts, part: Part, rest_count: Option<u32>, voltage: i32, number: u32) {
    let outside = !in_table(voltage);
    counts.add_if(part, Event::EstimateSavedAndVoltage, number == SAVED && outside);
    if number == NOT_RESTED {
        counts.add_if(part, Event::Estimate421, rest_count == Some(421));
        counts.add_if(part, Event::EstimateUnrested, rest_count == Some(0));
        counts.add_if(part, Event::EstimateBothWrong, outside);
    }
    if number == ESTIMATE_VOLTAGE {
        counts.add_if(part, Event::Estimate2999, voltage == 2_999);
        counts.add_if(part, Event::Estimate4201, voltage == 4_201);
        counts.add_if(part, Event::EstimateNegative, voltage < 0);
        counts.add_if(part, Event::EstimateWrapped, in_table(i32::from(voltage as u16)));
    }
}

/// Counts an estimate that yielded a number on a gauge that came from older forms: 1 or 2, which have no count, or 3 or 4, whose count
/// was carried over. In form 4 a count of four bytes would take in the cycles.
pub fn since(counts: &mut Counts, part: Part, origin: &Origin, before: &Standing, number: u32) {
    let without_count = matches!(origin.form, 1 | 2);
    counts.add_if(part, Event::EstimateFromOlder, number == 0 && without_count);
    counts.add_if(part, Event::EstimateOlderUnrested, number == NOT_RESTED && without_count);
    counts.add_if(part, Event::EstimateFromForm3, number == 0 && matches!(origin.count, Some((3, _))));
    counts.add_if(part, Event::EstimateFromForm4, number == 0 && matches!(origin.count, Some((4, _))));
    let of_form_4 = origin.form == 4 && before.cycles > 0;
    counts.add_if(part, Event::EstimateForm4Unrested, number == NOT_RESTED && of_form_4);
}

fn in_table(voltage: i32) -> bool {
    (ESTIMATE_VOLTAGE_MIN..=ESTIMATE_VOLTAGE_MAX).contains(&voltage)
}
