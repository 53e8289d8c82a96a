//! Runs the bench program on a text that comes in pieces of odd sizes, and compares what it prints with the reference.

use crate::difference::{same, Difference};
use crate::random::Random;
use reference::bench;
use std::io::{Read, Write};
use std::path::Path;
use std::process::{Command, Stdio};

/// Sizes of the pieces in which a text is written. A line or a number is cut anywhere.
const PIECES: [usize; 7] = [1, 3, 7, 61, 1_021, 4_099, 65_537];

/// What the program prints for a text and whether it ended with status 0; or what went wrong in running it.
fn printed(program: &Path, text: &[u8], piece: usize) -> Result<(Vec<u8>, bool), String> {
    let failed = |error| format!("{}: {error}", program.display());
    let mut child = Command::new(program).stdin(Stdio::piped()).stdout(Stdio::piped()).spawn().map_err(failed)?;
    let mut input = child.stdin.take().expect("the input is a pipe");
    let mut output = child.stdout.take().expect("the output is a pipe");
    let mut printed = Vec::new();
    let read = std::thread::scope(|scope| {
        scope.spawn(move || {
            // A program that ends early, as after `names`, closes its input; what it printed is compared all the same.
            for part in text.chunks(piece) {
                if input.write_all(part).is_err() {
                    break;
                }
            }
        });
        output.read_to_end(&mut printed)
    });
    read.map_err(failed)?;
    let status = child.wait().map_err(failed)?;
    Ok((printed, status.success()))
}

/// Compares the program with the reference on a text.
pub fn compare(program: &Path, text: &[u8], piece: usize) -> Result<(), Difference> {
    let expected = bench::output(text);
    match printed(program, text, piece) {
        Ok((output, ended_well)) => {
            same("printed text", show(&output), show(&expected))?;
            same("status 0", ended_well, true)
        }
        Err(error) => same("program", error, String::from("runs")),
    }
}

/// The size of piece for a text. Very small ones only for short texts, as each piece is a call of the system.
pub fn piece(random: &mut Random, text: &[u8]) -> usize {
    let piece = random.pick(&PIECES);
    if text.len() > 5_000 {
        piece.max(61)
    } else {
        piece
    }
}

/// Leaves out lines, then bytes, as long as the two still differ.
pub fn shrink(program: &Path, text: &[u8], piece: usize) -> Vec<u8> {
    let lines: Vec<Vec<u8>> = text.split_inclusive(|&byte| byte == b'\n').map(<[u8]>::to_vec).collect();
    let differs = |parts: &[Vec<u8>]| compare(program, &parts.concat(), piece).is_err();
    let fewer = leave_out(lines, &differs).concat();
    leave_out(fewer.iter().map(|&byte| vec![byte]).collect(), &differs).concat()
}

fn leave_out(mut parts: Vec<Vec<u8>>, differs: &dyn Fn(&[Vec<u8>]) -> bool) -> Vec<Vec<u8>> {
    let mut stretch = parts.len();
    while stretch > 0 {
        let mut at = 0;
        while at < parts.len() {
            let mut candidate = parts.clone();
            candidate.drain(at..(at + stretch).min(parts.len()));
            if differs(&candidate) {
                parts = candidate;
            } else {
                at += stretch;
            }
        }
        stretch /= 2;
    }
    parts
}

/// Bytes as they can be printed, so that a NUL or a return shows.
pub fn show(bytes: &[u8]) -> String {
    bytes.escape_ascii().to_string()
}
