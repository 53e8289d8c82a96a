//! Runs a trial and, where the two sides differ, prints the shortest trial found that still does.

use crate::counts::Counts;
use crate::difference::Difference;
use crate::program;
use crate::shrink::shrink;
use crate::table::Part;
use crate::trial::Trial;
use std::path::Path;

pub fn run(trial: &Trial, part: Part, counts: &mut Counts, name: &str) -> Result<Vec<u8>, ()> {
    let found = match trial.run(part, counts) {
        Ok(saved) => return Ok(saved),
        Err(found) => found,
    };
    println!("comparison: DIFFERENCE in {name}, after {} calls", found.steps);
    let shortest = shrink(trial);
    match shortest.run(part, &mut Counts::new()) {
        Err(failure) => difference("the shortest found", &shortest.text(), &failure.difference),
        Ok(_) => difference("the trial, which could not be shortened", &trial.text(), &found.difference),
    }?;
    Err(())
}

/// Prints a difference. It always fails, for the caller to hand on.
pub fn difference(name: &str, called: &str, difference: &Difference) -> Result<(), ()> {
    println!("comparison: DIFFERENCE in {}, {name}:", difference.what);
    print!("{called}");
    println!("  shipped   {}", difference.shipped);
    println!("  reference {}", difference.other);
    Err(())
}

/// Prints a difference of the bench program.
pub fn text(bench: &Path, text: &[u8], piece: usize, name: &str) -> Result<(), ()> {
    let shortest = program::shrink(bench, text, piece);
    let called = format!("  text in pieces of {piece} bytes: \"{}\"\n", program::show(&shortest));
    match program::compare(bench, &shortest, piece) {
        Err(found) => difference(name, &called, &found),
        Ok(()) => {
            println!("comparison: DIFFERENCE in {name} that did not come again");
            Err(())
        }
    }
}
