//! Saves that are damaged or of an older form: every condition of acceptance broken alone, bits and bytes changed, other lengths,
//! whole ones of an older form; and openings.

use crate::both::Both;
use crate::broken::broken;
use crate::counts::Counts;
use crate::difference::{hexadecimal, Difference};
use crate::fields::{self, Fields};
use crate::gauges;
use crate::older::{self, LENGTH_1_AND_2, LENGTH_3, LENGTH_4};
use crate::random::Random;
use crate::reshaped;
use crate::table::damage::Event;
use crate::table::{Kind, Part};
use crate::trial::{Start, Trial};
use crate::values;
use reference::configuration::Configuration;
use reference::history::Call;
use reference::refusal::REPLY;
use reference::{forms, saved};

/// Window, rest, write, read, preview and estimate.
const CALLS_ON_A_GAUGE: usize = 6;

/// What was done to a save, its bytes, and whether loading reads them, where that is known.
struct Save {
    event: Event,
    bytes: Vec<u8>,
    readable: Option<bool>,
}

/// A save, made of one that a list left or of any valid one, and on it each call on a gauge; and its conversion.
pub fn trials(random: &mut Random, from_lists: &[Vec<u8>], counts: &mut Counts) -> (Part, Vec<Trial>) {
    let newest = match from_lists {
        [_, ..] if random.one_in(2) => Fields::of(&from_lists[random.below(from_lists.len() as u64) as usize]),
        _ => fields::valid(random),
    };
    let configuration = newest.meaning();
    let (part, save) = if random.one_in(2) {
        let old = older::any(random, &newest);
        (Part::Older, of_older_form(random, old))
    } else {
        (Part::Damaged, damaged(random, newest))
    };
    count(counts, part, &save);
    let mut trials = each_call(random, &configuration, &save);
    trials.push(conversion(random, &configuration, save));
    (part, trials)
}

fn count(counts: &mut Counts, part: Part, save: &Save) {
    counts.add(part, save.event);
    if matches!(save.event, Event::OlderWhole1 | Event::OlderWhole2 | Event::OlderWhole3 | Event::OlderWhole4) {
        return;
    }
    reshaped::count(counts, part, &save.bytes);
    let event = match (forms::load(&save.bytes), save.bytes.first()) {
        (Err(_), _) => Event::DamagedRefused,
        (Ok(_), Some(1)) => Event::DamagedForm1,
        (Ok(_), Some(2)) => Event::DamagedForm2,
        (Ok(_), Some(3)) => Event::DamagedForm3,
        (Ok(_), Some(4)) => Event::DamagedForm4,
        (Ok(_), _) => Event::DamagedForm5,
    };
    counts.add(part, event);
}

/// Each call on a gauge once, whatever else was drawn before it. They take the newest form alone.
fn each_call(random: &mut Random, configuration: &Configuration, save: &Save) -> Vec<Trial> {
    let mut calls: Vec<Call> = Vec::new();
    while calls.len() < CALLS_ON_A_GAUGE {
        let call = gauges::any_call(random, configuration);
        if calls.iter().all(|other| std::mem::discriminant(other) != std::mem::discriminant(&call)) {
            calls.push(call);
        }
    }
    let accepted = if save.bytes.first() == Some(&saved::FORM) { save.readable } else { Some(false) };
    let start = Start::Saved { bytes: save.bytes.clone(), accepted };
    calls.into_iter().map(|call| Trial { start: start.clone(), steps: vec![call.into()] }).collect()
}

/// The save converted into bytes that hold anything, and then a call on what is there.
fn conversion(random: &mut Random, configuration: &Configuration, save: Save) -> Trial {
    let lent = match random.below(4) {
        0 => fields::valid(random).bytes(),
        1 if random.one_in(2) => vec![0xEE; random.pick(&[LENGTH_4, saved::LENGTH - 1, saved::LENGTH + 1])],
        1 => bytes(random, 65),
        _ => vec![0xEE; saved::LENGTH],
    };
    let start = Start::Converted { old: save.bytes, lent, readable: save.readable };
    Trial { start, steps: vec![gauges::any_call(random, configuration).into()] }
}

/// Bytes at random, fewer than the limit.
fn bytes(random: &mut Random, limit: u64) -> Vec<u8> {
    (0..random.below(limit)).map(|_| random.byte()).collect()
}

/// A save of an older form, whole or damaged.
fn of_older_form(random: &mut Random, fields: Fields) -> Save {
    if random.one_in(6) {
        let event = match fields.form {
            1 => Event::OlderWhole1,
            2 => Event::OlderWhole2,
            3 => Event::OlderWhole3,
            _ => Event::OlderWhole4,
        };
        Save { event, bytes: fields.bytes(), readable: Some(true) }
    } else {
        damaged(random, fields)
    }
}

fn damaged(random: &mut Random, mut fields: Fields) -> Save {
    let mut bytes = fields.bytes();
    let at = random.below(bytes.len() as u64) as usize;
    let (event, readable) = match random.below(11) {
        0 => {
            bytes[at] ^= 1 << random.below(8);
            (Event::BitFlipped, None)
        }
        1 => {
            bytes[at] = random.byte();
            (Event::ByteReplaced, None)
        }
        2 => {
            // With the form as it was in every second one.
            let from = random.below(2) as usize;
            bytes[from..].iter_mut().for_each(|byte| *byte = random.byte());
            (Event::RandomBytes, None)
        }
        3 => reshaped::of_another_length(random, &mut bytes),
        4 => reshaped::of_another_form(random, &mut bytes),
        5 if fields.rest_count.is_some() => {
            fields.set_rest_count(values::rest_count(random));
            bytes = older::in_form(fields.form, &fields).bytes();
            (Event::CountReplaced, Some(true))
        }
        6 if fields.cycles.is_some() => {
            fields.set_cycles(values::cyct(random), values::cycle_drain(random, fields.full_charge()));
            bytes = fields.bytes();
            (Event::CyclesReplaced, Some(true))
        }
        _ => {
            let event = broken(random, &mut fields);
            bytes = fields.bytes();
            (event, Some(false))
        }
    };
    Save { event, bytes, readable }
}

/// An opening with configuration and saved bytes of any length. What it was called with, if there is a difference.
pub fn opening(random: &mut Random, counts: &mut Counts) -> Result<(), (String, Difference)> {
    let mut configuration = values::configuration(random).to_vec();
    if random.one_in(3) {
        configuration[0] = 0;
    }
    if random.one_in(3) {
        configuration.resize(random.below(21) as usize, random.pick(&[0, 1]));
    }
    let length = match random.below(6) {
        0 => random.pick(&[LENGTH_1_AND_2, LENGTH_3, LENGTH_4, saved::LENGTH - 1, saved::LENGTH + 1]),
        1 => random.below(65) as usize,
        _ => saved::LENGTH,
    };
    let content: Vec<u8> = (0..length).map(|_| random.byte()).collect();
    let mut both = Both::new(&content);
    let called = format!("  open    {}\n  saved   {}\n", hexadecimal(&configuration), hexadecimal(&content));
    let number = both.open(&configuration).map_err(|difference| (called.clone(), difference))?;
    counts.add_number(Part::Damaged, Kind::Open, number);
    opened_into(counts, length, number);
    both.same_registers().map_err(|difference| (called, difference))
}

/// Counts an opening over bytes that are too few or too many, by how many they are.
fn opened_into(counts: &mut Counts, length: usize, number: u32) {
    let event = match (number, length) {
        (REPLY, LENGTH_1_AND_2) => Event::OpenInto41,
        (REPLY, LENGTH_3) => Event::OpenInto43,
        (REPLY, LENGTH_4) => Event::OpenInto53,
        (REPLY, 54) => Event::OpenInto54,
        (REPLY, 56) => Event::OpenInto56,
        _ => return,
    };
    counts.add(Part::Damaged, event);
}
