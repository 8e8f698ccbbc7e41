//! Holds Munchalep's C interface to wildbg's Rust and to document 01's words. `oracle/run` builds
//! and starts it, and says how it is used.
//!
//! A capability has a module of its own (`position`, `moves`, `key`, `inputs`, `recovery`, `card`),
//! with its plain form in `plain` and wildbg's in `judge`; `counts` names its entries, `search` compares it and `store`
//! stores its answers.

#![forbid(unsafe_code)]

mod answer;
mod boards;
mod card;
mod counts;
mod dice;
mod difference;
mod guarded;
mod inputs;
mod judge;
mod key;
mod moves;
mod options;
mod plain;
mod position;
mod recovery;
mod rng;
mod search;
mod smaller;
mod store;

use options::Options;
use std::env;
use std::process::ExitCode;

/// The exit status of a wrong use, after which `oracle/run` prints its help.
const WRONG_USE: u8 = 2;

fn main() -> ExitCode {
    let options = match Options::read(env::args().skip(1)) {
        Ok(options) => options,
        Err(message) => {
            eprintln!("oracle: {message}");
            return ExitCode::from(WRONG_USE);
        }
    };
    let done = match &options.program {
        Some(program) => card::program::run(program, &options),
        None if options.stores.is_empty() => search::run(&options),
        None => store::run(&options),
    };
    match done {
        Ok(report) => {
            println!("{report}");
            ExitCode::SUCCESS
        }
        Err(failure) => {
            println!("{failure}");
            ExitCode::FAILURE
        }
    }
}
