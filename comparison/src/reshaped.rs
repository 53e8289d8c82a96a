//! Saves of another length, and saves that say they are of another form.

use crate::counts::Counts;
use crate::older::FORMS;
use crate::random::Random;
use crate::table::damage::Event;
use crate::table::Part;

/// What was done, and whether loading reads the bytes, where that is known.
type Damage = (Event, Option<bool>);

/// Any length but that of the form, most often the length of another form or one byte beside it.
pub fn of_another_length(random: &mut Random, bytes: &mut Vec<u8>) -> Damage {
    let own = bytes.len();
    while bytes.len() == own {
        let length =
            if random.one_in(2) { random.pick(&[40, 41, 42, 43, 44, 52, 53, 54, 55, 56]) } else { random.below(65) as usize };
        bytes.resize(length, random.pick(&[0, 1, 0xFF]));
    }
    (Event::WrongLength, Some(false))
}

/// The number of another form, with the length as it is or with that of any form. A form of another length is refused.
pub fn of_another_form(random: &mut Random, bytes: &mut Vec<u8>) -> Damage {
    let others: Vec<(u8, usize)> = FORMS.into_iter().filter(|&(form, _)| form != bytes[0]).collect();
    let (form, length) = random.pick(&others);
    bytes[0] = form;
    let own = bytes.len();
    if random.one_in(2) {
        let (_, other) = random.pick(&FORMS);
        let appended = if random.one_in(2) { 0 } else { random.byte() };
        bytes.resize(random.pick(&[length, other]), appended);
    }
    match bytes.len() == length {
        true if length == own => (Event::FormExchanged, None),
        true => (Event::FormAndLength, None),
        false => (Event::FormExchanged, Some(false)),
    }
}

/// Counts bytes whose length is that of another form, or one byte beside that of a form.
pub fn count(counts: &mut Counts, part: Part, bytes: &[u8]) {
    let event = match (bytes.first(), bytes.len()) {
        (Some(1), 43) => Event::Form1Of43,
        (Some(1), 53) => Event::Form1Of53,
        (Some(1), 55) => Event::Form1Of55,
        (Some(2), 43) => Event::Form2Of43,
        (Some(2), 53) => Event::Form2Of53,
        (Some(2), 55) => Event::Form2Of55,
        (Some(3), 41) => Event::Form3Of41,
        (Some(3), 53) => Event::Form3Of53,
        (Some(3), 55) => Event::Form3Of55,
        (Some(4), 41) => Event::Form4Of41,
        (Some(4), 43) => Event::Form4Of43,
        (Some(4), 55) => Event::Form4Of55,
        (Some(5), 41) => Event::Form5Of41,
        (Some(5), 43) => Event::Form5Of43,
        (Some(5), 53) => Event::Form5Of53,
        (_, 40) => Event::Of40,
        (_, 42) => Event::Of42,
        (_, 44) => Event::Of44,
        (_, 52) => Event::Of52,
        (_, 54) => Event::Of54,
        (_, 56) => Event::Of56,
        _ => return,
    };
    counts.add(part, event);
}
