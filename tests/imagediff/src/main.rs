//! Compares the imagediff program with the model, byte for byte, on generated pairs of images. See
//! tests/README.md.
//!
//!     compare-imagediff PROGRAM FOLDER [SEED [CASES]]

mod cases;
mod changes;
mod events;
mod layouts;
mod places;

use harness::comparison::Comparison;
use std::process::ExitCode;

fn main() -> ExitCode {
    let comparison = Comparison {
        name: "compare-imagediff",
        kinds: &cases::KINDS,
        cases: 4_000,
        events: &events::EVENTS,
        floor: 60,
        lines: "runs listed",
    };
    comparison.main()
}
