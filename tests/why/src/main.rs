//! Compares the why program with the model, byte for byte, on generated cases. See
//! tests/README.md.
//!
//!     compare-why PROGRAM FOLDER [SEED [CASES]]

mod cases;
mod events;
mod moves;

use harness::comparison::Comparison;
use model::why::why;
use scripts::cases::{kinds, Kind, Tool};
use std::process::ExitCode;
use std::sync::LazyLock;

const WHY: Tool = Tool { output: why, count: events::count };

static KINDS: LazyLock<Vec<Kind>> = LazyLock::new(|| kinds(WHY, cases::ROWS));

fn main() -> ExitCode {
    let comparison = Comparison {
        name: "compare-why",
        kinds: &KINDS,
        cases: 4_800,
        events: &events::EVENTS,
        floor: 200,
        lines: "refused writes and supplies explained",
    };
    comparison.main()
}
