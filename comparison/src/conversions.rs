//! Which events a conversion is, a call on what was converted, and a call that is handed an older form (paper 02, A1, A4, A5 and A6).
//! This only counts: no comparison rests on it.

use crate::counts::Counts;
use crate::estimates;
use crate::events::Standing;
use crate::fields::{Cycles, Fields, RestCount};
use crate::older::{FORMER_STOP, LENGTH_1_AND_2, LENGTH_3, LENGTH_4};
use crate::origin::Origin;
use crate::table::conversions::Event;
use crate::table::{Kind, Part};
use reference::fixing::{FixingPoint, FixingPoints};
use reference::gauge::REST_COUNT_MAX;
use reference::history::{Call, History};
use reference::refusal::{ESTIMATE_REST_MIN, REPLY, SAVED};
use reference::{forms, saved};

/// Counts the number and the events of a conversion of old bytes into lent ones, which hold what they held before it.
pub fn count(counts: &mut Counts, part: Part, old: &[u8], lent: &[u8], number: u32) {
    counts.add_number(part, Kind::Convert, number);
    if number == 0 {
        return converted(counts, part, &Fields::of(old));
    }
    counts.add_if(part, Event::ConvertBothWrong, number == SAVED && lent.len() != saved::LENGTH);
    counts.add_if(part, Event::ConvertKeepsGauge, saved::load(lent).is_ok());
    let event = match (number, lent.len()) {
        (REPLY, LENGTH_1_AND_2) => Event::ConvertInto41,
        (REPLY, LENGTH_3) => Event::ConvertInto43,
        (REPLY, LENGTH_4) => Event::ConvertInto53,
        (REPLY, 54) => Event::ConvertInto54,
        (REPLY, 56) => Event::ConvertInto56,
        _ => return,
    };
    counts.add(part, event);
}

fn converted(counts: &mut Counts, part: Part, old: &Fields) {
    let rest_count = old.rest_count.map_or(0, RestCount::windows);
    let cycles = old.cycles.unwrap_or_default();
    match old.form {
        1 => counts.add(part, Event::ConvertedForm1),
        2 => counts.add(part, Event::ConvertedForm2),
        3 => {
            counts.add(part, Event::ConvertedForm3);
            counts.add_if(part, Event::ConvertedCount3, rest_count > 0);
            counts.add_if(part, Event::Converted3At65535, rest_count == FORMER_STOP);
        }
        4 => form_4(counts, part, old, rest_count, &cycles),
        _ => return newest(counts, part, old, rest_count, &cycles),
    }
    counts.add_if(part, Event::ConvertedWithRun, old.has_run());
    let greatest = old.greatest_si();
    counts.add_if(part, Event::ConvertedAtLimit, greatest > 0 && old.si == greatest);
    counts.add_if(part, Event::ConvertedWithoutS0, greatest == 0);
}

/// In form 4 the low two bytes of the drain stand at 45, where form 5 has CYCT, and CYCT where form 5 has the high bytes of the count.
fn form_4(counts: &mut Counts, part: Part, old: &Fields, rest_count: u32, cycles: &Cycles) {
    counts.add(part, Event::ConvertedForm4);
    counts.add_if(part, Event::ConvertedCount4, rest_count > 0);
    counts.add_if(part, Event::Converted4At65535, rest_count == FORMER_STOP);
    counts.add_if(part, Event::Converted4Cycles, cycles.cyct > 0);
    counts.add_if(part, Event::Converted4Unrested, cycles.cyct > 0 && rest_count < ESTIMATE_REST_MIN);
    counts.add_if(part, Event::Converted4Cyct, cycles.cyct != cycles.drain as u16);
    counts.add_if(part, Event::Converted4CyctAlone, cycles.cyct > 0 && cycles.drain == 0);
    let full = old.full_charge() as u64;
    counts.add_if(part, Event::Converted4Drain, cycles.drain > 0 && cycles.drain < full);
    counts.add_if(part, Event::Converted4DrainOfLmd, cycles.drain >= full);
}

fn newest(counts: &mut Counts, part: Part, old: &Fields, rest_count: u32, cycles: &Cycles) {
    counts.add(part, Event::ConvertedForm5);
    counts.add_if(part, Event::ConvertedWide, rest_count > FORMER_STOP);
    counts.add_if(part, Event::ConvertedAtStop, rest_count == REST_COUNT_MAX);
    counts.add_if(part, Event::Converted5Cycles, cycles.cyct > 0);
    let full = old.full_charge() as u64;
    counts.add_if(part, Event::Converted5Drain, cycles.drain > 0 && cycles.drain < full);
    counts.add_if(part, Event::Converted5DrainOfLmd, cycles.drain >= full);
}

/// Counts an update from a form, by the history before it.
pub fn update(counts: &mut Counts, part: Part, form: u8, before: &History) {
    counts.add_if(part, Event::UpdateStops, matches!(form, 3 | 4) && before.rest_count() > FORMER_STOP);
}

/// Counts a call on a gauge by what it has from older forms, and by how it stood before the call.
pub fn since(counts: &mut Counts, part: Part, origin: &Origin, before: &Standing, call: &Call, answer: Result<FixingPoints, u32>) {
    let taught = matches!(answer, Ok(points) if points.contains(FixingPoint::QualifiedRun));
    counts.add_if(part, Event::ConvertedRunTeaches, taught && origin.has_run);
    match (call, answer) {
        (Call::Rest { .. }, Ok(_)) => {
            let stands = before.rest_count == FORMER_STOP;
            counts.add_if(part, Event::CountOnFromForm3, stands && origin.count == Some((3, FORMER_STOP)));
            counts.add_if(part, Event::CountOnFromForm4, stands && origin.count == Some((4, FORMER_STOP)));
        }
        (Call::Estimate { .. }, answer) => estimates::since(counts, part, origin, before, answer.err().unwrap_or(0)),
        _ => {}
    }
}

/// Counts a call that was refused with 14 though the bytes hold a gauge: one in an older form.
pub fn refused(counts: &mut Counts, part: Part, bytes: &[u8], call: &Call) {
    if forms::load(bytes).is_err() {
        return;
    }
    let [of_1_or_2, of_3, of_4] = match call {
        Call::Window { .. } => [Event::OlderWindow, Event::Form3Window, Event::Form4Window],
        Call::Rest { .. } => [Event::OlderRest, Event::Form3Rest, Event::Form4Rest],
        Call::Write { .. } => [Event::OlderWrite, Event::Form3Write, Event::Form4Write],
        Call::Read { .. } => [Event::OlderRead, Event::Form3Read, Event::Form4Read],
        Call::Preview { .. } => [Event::OlderPreview, Event::Form3Preview, Event::Form4Preview],
        Call::Estimate { .. } => [Event::OlderEstimate, Event::Form3Estimate, Event::Form4Estimate],
    };
    let event = match bytes[0] {
        3 => of_3,
        4 => of_4,
        _ => of_1_or_2,
    };
    counts.add(part, event);
}
