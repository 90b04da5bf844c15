//! Compares the station library and its host program with the model on generated cases. See
//! tests/README.md.
//!
//!     compare-station FOLDER [SEED [CASES]]
//!
//! FOLDER has two builds of the host program, imagecheck and imagecheck-sanitized.

mod checksums;
mod host;
mod imagechecks;
mod lent;
mod parameters;
mod station;

use std::env;
use std::error::Error;
use std::path::PathBuf;
use std::process::ExitCode;

const DEFAULT_SEED: u64 = 1;
const DEFAULT_CASES: usize = 200_000;
/// There are so many cases of parameters for one image text.
const CASES_A_TEXT: usize = 10;

fn main() -> ExitCode {
    match run() {
        Ok(()) => ExitCode::SUCCESS,
        Err(reason) => {
            eprintln!("compare-station: {reason}");
            ExitCode::FAILURE
        }
    }
}

/// All comparisons one after the other. The first difference ends the run.
fn run() -> Result<(), Box<dyn Error>> {
    let mut arguments = env::args().skip(1);
    let usage = "usage: compare-station FOLDER [SEED [CASES]]";
    let folder = PathBuf::from(arguments.next().ok_or(usage)?);
    let seed = arguments.next().map_or(Ok(DEFAULT_SEED), |text| text.parse())?;
    let cases = arguments.next().map_or(Ok(DEFAULT_CASES), |text| text.parse())?;
    parameters::compare(seed, cases)?;
    checksums::compare(seed)?;
    imagechecks::compare(seed, cases / CASES_A_TEXT)?;
    host::compare(&folder, seed)
}

/// Fails if anything was met too seldom: a generator that has lost its variety shows nothing.
fn demand_variety(lacking: Vec<String>) -> Result<(), String> {
    if lacking.is_empty() {
        Ok(())
    } else {
        Err(format!("too little variety:\n{}", lacking.join("\n")))
    }
}
