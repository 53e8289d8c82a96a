//! Makes the same calls on the shipped library and on the reference and compares everything a caller can see of them.
//!
//! Ends with status 0 only if there was no difference and every event of the table occurred.

mod ageing;
mod aimed_cycles;
mod aimed_estimates;
mod aimed_long_rests;
mod aimed_rests;
mod begun;
mod both;
mod broken;
mod conversions;
mod counts;
mod cycle_scenes;
mod cycles;
mod damage;
mod difference;
mod estimate_scenes;
mod estimates;
mod events;
mod fields;
mod gauges;
mod host;
mod lent_number;
mod lists;
mod long_rest_scenes;
mod long_rests;
mod look_ahead;
mod older;
mod one_by_one;
mod options;
mod origin;
mod previews;
mod program;
mod random;
mod report;
mod reshaped;
mod rest_counts;
mod rest_scenes;
mod rest_steps;
mod rested_cell;
mod rests;
mod running;
mod scenes;
mod shipped;
mod shrink;
mod simplest;
mod standby;
mod step;
mod sweep;
mod table;
mod texts;
mod trial;
mod values;
mod writer;
mod writes;

use counts::Counts;
use options::{Options, USAGE};
use random::Random;
use std::path::Path;
use std::process::ExitCode;
use table::Part;

/// Of the calls, those in lists from opening; the others are made on gauges handed in.
const PERCENT_IN_LISTS: u64 = 70;

fn main() -> ExitCode {
    let options = match Options::read() {
        Ok(options) => options,
        Err(wrong) => {
            eprintln!("comparison: {wrong}\n{USAGE}");
            return ExitCode::from(2);
        }
    };
    println!("comparison: seed {}", options.seed);
    let mut counts = Counts::new();
    match compare(&options, &mut counts) {
        Ok(done) => finish(&options, &counts, done),
        Err(()) => ExitCode::FAILURE,
    }
}

/// So many saves that lists left are kept, to be damaged.
const KEPT_SAVES: usize = 10_000;

/// How much was compared.
struct Done {
    in_lists: u64,
    on_gauges: u64,
}

/// Runs the four parts; a difference has been reported if it fails.
fn compare(options: &Options, counts: &mut Counts) -> Result<Done, ()> {
    let wanted = options.calls * PERCENT_IN_LISTS / 100;
    let (in_lists, left) = compare_lists(options.seed, wanted, counts)?;
    let on_gauges = compare_gauges(options.seed, options.calls.saturating_sub(in_lists), counts)?;
    compare_damaged(options.seed, options.damaged, &left, counts)?;
    if let Some(bench) = &options.bench {
        compare_texts(bench, options, counts)?;
    }
    Ok(Done { in_lists, on_gauges })
}

/// Whole lists until there are enough calls. Their number, and the saves that the last lists left.
fn compare_lists(seed: u64, wanted: u64, counts: &mut Counts) -> Result<(u64, Vec<Vec<u8>>), ()> {
    let mut calls = 0;
    let mut left = Vec::new();
    for index in 0.. {
        if calls >= wanted {
            break;
        }
        let list = lists::list(Random::part(seed, index));
        calls += list.steps.len() as u64;
        let saved = report::run(&list, Part::Lists, counts, &format!("list {index} of seed {seed}"))?;
        if left.len() < KEPT_SAVES {
            left.push(saved);
        } else {
            left[index as usize % KEPT_SAVES] = saved;
        }
    }
    Ok((calls, left))
}

fn compare_gauges(seed: u64, wanted: u64, counts: &mut Counts) -> Result<u64, ()> {
    let mut random = Random::part(seed, 1 << 62);
    let mut calls = 0;
    while calls < wanted {
        let trial = gauges::trial(&mut random);
        calls += trial.steps.len() as u64;
        report::run(&trial, Part::Gauges, counts, &format!("a gauge handed in, seed {seed}"))?;
    }
    Ok(calls)
}

/// Each damaged save gets all calls on a gauge and is converted; beside it an opening over bytes of any kind. Half of the saves are of an
/// older form, now and then whole.
fn compare_damaged(seed: u64, wanted: u64, left: &[Vec<u8>], counts: &mut Counts) -> Result<(), ()> {
    let mut random = Random::part(seed, 1 << 63);
    for _ in 0..wanted {
        let (part, trials) = damage::trials(&mut random, left, counts);
        for trial in trials {
            report::run(&trial, part, counts, &format!("a damaged save, seed {seed}"))?;
        }
        if let Err((called, difference)) = damage::opening(&mut random, counts) {
            return report::difference("an opening", &called, &difference);
        }
    }
    Ok(())
}

fn compare_texts(bench: &Path, options: &Options, counts: &mut Counts) -> Result<(), ()> {
    for index in 0..options.texts {
        let mut random = Random::part(options.seed, (3 << 62) + index);
        let text = texts::text(&mut random);
        let piece = program::piece(&mut random, &text);
        if program::compare(bench, &text, piece).is_err() {
            return report::text(bench, &text, piece, &format!("text {index} of seed {}", options.seed));
        }
        texts::count(counts, &text, &reference::bench::output(&text));
    }
    Ok(())
}

/// Prints the table and the last line.
fn finish(options: &Options, counts: &Counts, done: Done) -> ExitCode {
    let missing = counts.print(options.texts > 0);
    let compared = format!(
        "comparison: {} calls ({} in lists from opening, {} on gauges handed in), {} damaged saves, {} texts{}, seed {}",
        done.in_lists + done.on_gauges,
        done.in_lists,
        done.on_gauges,
        options.damaged,
        options.texts,
        if options.bench.is_none() { " (no bench program named)" } else { "" },
        options.seed
    );
    if missing > 0 {
        println!("{compared}: {missing} events never occurred");
        return ExitCode::FAILURE;
    }
    println!("{compared}: no difference");
    ExitCode::SUCCESS
}
