//! The battery gauge of papers 01 and 02 a second time, in plain Rust, written from the papers and not from the Rattle code.
//!
//! It is there to be compared with the shipped library: `comparison` makes the same calls on both. Every rule stands once,
//! in the file that carries its name, and its comment names the place of the paper it follows.
//!
//! - `calls` has the eight calls on the saved bytes; all else of the gauge is below it.
//! - `saved` is the newest form of those bytes, `forms` reads every form and carries it over.
//! - `history` works out demand 3 from the configuration and the calls' arguments and never looks at a gauge, except at a loaded one
//!   to begin with.
//! - `bench` is the bench program as a function from input bytes to output bytes.
//! - `trace` runs a gauge and its history side by side and gives the fixing points of each call.

pub mod acceptance;
pub mod bench;
pub mod calls;
pub mod command;
pub mod compensation;
pub mod configuration;
pub mod cycles;
pub mod estimate;
pub mod fixing;
pub mod forms;
pub mod gauge;
pub mod history;
pub mod leak;
pub mod learning;
pub mod numbers;
pub mod preview;
pub mod refusal;
pub mod registers;
pub mod rest;
pub mod saved;
pub mod trace;
pub mod window;
