//! Compares the replay program with the model, byte for byte, on generated cases. See
//! tests/README.md.
//!
//!     compare-replay PROGRAM FOLDER [SEED [CASES]]

mod events;

use harness::comparison::Comparison;
use model::replay::replay;
use scripts::cases::{kinds, Kind, Tool};
use std::process::ExitCode;
use std::sync::LazyLock;

const REPLAY: Tool = Tool { output: replay, count: events::count };

static KINDS: LazyLock<Vec<Kind>> = LazyLock::new(|| kinds(REPLAY, &[]));

fn main() -> ExitCode {
    let comparison = Comparison {
        name: "compare-replay",
        kinds: &KINDS,
        cases: 3_400,
        events: &events::EVENTS,
        floor: 200,
        lines: "script lines answered",
    };
    comparison.main()
}
