//! What the compared cases met, so that a generator that has lost its variety is noticed.

use super::cases::{Case, KINDS};
use super::compare::Outcome;
use super::rows;
use model::error::Error;
use model::layout::{BLOCK_LENGTH, MAX_CLASS_LENGTH};

/// What get and set can answer, in the order of the refusals. Get never gives 13.
const ERRORS: [u8; 6] = [0, 10, 11, 4, 12, 13];

const EVENTS: [&str; 15] = [
    "negative read",
    "read in range",
    "read outside",
    "negative set",
    "set changing nothing",
    "set at a block's end",
    "across, read",
    "across, read outside",
    "across, up to the class's end",
    "across, with a whole block behind it",
    "cut, the old value still",
    "cut, the new value already",
    "cut, neither of them",
    "cut, out of range",
    "cut, inside one block",
];

/// How a row can leave its class by one byte.
const LEAVING: [&str; 3] = ["inside a block", "across a block's end", "at a block's end"];

/// Kinds of rows that can cross a block's end, each with the bytes below it.
const ACROSS: [(u8, usize); 8] =
    [(0x02, 1), (0x82, 1), (0x04, 1), (0x04, 2), (0x04, 3), (0x84, 1), (0x84, 2), (0x84, 3)];

/// Anything met fewer times than this fails the run.
const FLOOR: usize = 300;

#[derive(Default)]
pub struct Tally {
    cases: usize,
    get: [usize; ERRORS.len()],
    set: [usize; ERRORS.len()],
    /// Accepted sets by kind of row.
    rows: [usize; rows::KINDS.len()],
    /// Those across a block's end.
    across: [usize; ACROSS.len()],
    /// Refused with 12 for one byte.
    leaving: [usize; LEAVING.len()],
    events: [usize; EVENTS.len()],
    /// Cases with the fault of the one number and that of the other, in the order of the refusals.
    pairs: [[usize; ERRORS.len()]; ERRORS.len()],
    /// Cases of each kind.
    kinds: [usize; KINDS.len()],
}

impl Tally {
    /// Counts one case of the kind at this place in the table.
    pub fn count(&mut self, place: usize, case: &Case, outcome: &Outcome) {
        self.cases += 1;
        self.kinds[place] += 1;
        self.get[place_of(outcome.reading.error)] += 1;
        self.set[place_of(outcome.set.err())] += 1;
        for (count, met) in self.events.iter_mut().zip(events(case, outcome)) {
            *count += usize::from(met);
        }
        if let (Ok(()), Some(kind)) =
            (outcome.set, rows::KINDS.iter().position(|&kind| kind == case.parameter.kind))
        {
            self.rows[kind] += 1;
        }
        if outcome.set.is_ok() {
            let row = (case.parameter.kind, bytes_below(case));
            if let Some(place) = ACROSS.iter().position(|&across| across == row) {
                self.across[place] += 1;
            }
        }
        if let Some(place) = leaves_by_one(case).filter(|_| outcome.set == Err(Error::Place)) {
            self.leaving[place] += 1;
        }
        let faults = faults(case);
        for (first, counts) in self.pairs.iter_mut().enumerate() {
            for (second, count) in counts.iter_mut().enumerate() {
                *count += usize::from(faults[first] && faults[second]);
            }
        }
    }

    /// All counts but those of the kinds of cases, by topic, each with its name.
    fn topics(&self) -> Vec<(&str, Vec<(String, usize)>)> {
        let numbered = |counts: &[usize]| {
            ERRORS.iter().map(u8::to_string).zip(counts.iter().copied()).collect::<Vec<_>>()
        };
        let rows = rows::KINDS.iter().map(|kind| format!("{kind:02X}")).zip(self.rows);
        let across = ACROSS.iter().map(|(kind, below)| format!("{kind:02X} with {below} below"));
        let leaving = LEAVING.iter().map(ToString::to_string).zip(self.leaving);
        let events = EVENTS.iter().map(ToString::to_string).zip(self.events);
        let pairs = (1..ERRORS.len())
            .flat_map(|first| (first + 1..ERRORS.len()).map(move |second| (first, second)));
        let pairs = pairs.map(|(a, b)| (format!("{}+{}", ERRORS[a], ERRORS[b]), self.pairs[a][b]));
        vec![
            ("answers of get", numbered(&self.get[..ERRORS.len() - 1])),
            ("answers of set", numbered(&self.set)),
            ("kinds set", rows.collect()),
            ("kinds set across a block's end", across.zip(self.across).collect()),
            ("one byte past the class", leaving.collect()),
            ("values", events.collect()),
            ("two faults", pairs.collect()),
        ]
    }

    pub fn print(&self) {
        println!("{} cases of {} kinds compared", self.cases, KINDS.len());
        for (topic, counts) in self.topics() {
            let counts: Vec<String> =
                counts.iter().map(|(name, count)| format!("{name}: {count}")).collect();
            println!("{topic}: {}", counts.join(", "));
        }
    }

    /// What was met too seldom.
    pub fn shortcomings(&self) -> Vec<String> {
        let kinds = KINDS.iter().map(|kind| kind.name.to_string()).zip(self.kinds);
        let mut topics = self.topics();
        topics.push(("kinds of cases", kinds.collect()));
        let mut lacking = Vec::new();
        for (topic, counts) in topics {
            for (name, count) in counts.iter().filter(|(_, count)| *count < FLOOR) {
                lacking.push(format!("{topic}, {name}: {count} times, and not {FLOOR}"));
            }
        }
        lacking
    }
}

fn place_of(error: Option<Error>) -> usize {
    let number = error.map_or(0, Error::number);
    ERRORS.iter().position(|&other| other == number).expect("a number that the desk gives")
}

/// How many bytes of a row lie in the block that it begins in, of those that could.
fn bytes_below(case: &Case) -> usize {
    let offset = usize::from(case.parameter.offset) % BLOCK_LENGTH;
    rows::size(case.parameter.kind).min(BLOCK_LENGTH - offset)
}

/// How many bytes the class of a row has, if it is there.
fn class_length(case: &Case) -> Option<usize> {
    let mut entries = case.device.layout.entries();
    entries.find(|entry| entry.0 == case.parameter.class).map(|entry| entry.1.into())
}

/// The place in LEAVING of a row that leaves its class by one byte.
fn leaves_by_one(case: &Case) -> Option<usize> {
    let size = rows::size(case.parameter.kind);
    let end = usize::from(case.parameter.offset) + size;
    if class_length(case)? + 1 != end {
        None
    } else if (end - 1).is_multiple_of(BLOCK_LENGTH) {
        Some(2)
    } else {
        Some(usize::from(bytes_below(case) < size))
    }
}

/// Which of the EVENTS a case is.
fn events(case: &Case, outcome: &Outcome) -> [bool; EVENTS.len()] {
    let (is_read, is_set) = (outcome.reading.error.is_none(), outcome.set.is_ok());
    let (size, below) = (rows::size(case.parameter.kind), bytes_below(case));
    let end = usize::from(case.parameter.offset) + size;
    let is_across = below < size;
    let cut = is_set && is_across;
    let (old, new, found) = (outcome.reading.value, case.value, outcome.cut.value);
    let next_block = (end / BLOCK_LENGTH + 1) * BLOCK_LENGTH;
    [
        is_read && outcome.reading.value < 0,
        is_read && outcome.reading.in_range,
        is_read && !outcome.reading.in_range,
        is_set && case.value < 0,
        is_set && !outcome.changed,
        is_set && end.is_multiple_of(BLOCK_LENGTH),
        is_read && is_across,
        is_read && is_across && !outcome.reading.in_range,
        cut && class_length(case) == Some(end),
        cut && class_length(case) >= Some(next_block),
        cut && found == old && found != new,
        cut && found != old && found == new,
        cut && found != old && found != new,
        cut && outcome.reading.in_range && !outcome.cut.in_range,
        is_set && !is_across,
    ]
}

/// Which refusals a case gives cause for, at the places of ERRORS: each judged without regard to
/// the others. Without a class, 12 is to leave the longest that there can be.
fn faults(case: &Case) -> [bool; ERRORS.len()] {
    let parameter = &case.parameter;
    let layout = case.device.layout.for_model();
    let class = layout.classes.iter().find(|class| class.id == parameter.class);
    let end = usize::from(parameter.offset) + rows::size(parameter.kind);
    [
        false,
        layout.check_image(case.device.image.len()).is_err(),
        parameter.valid_kind().is_err(),
        class.is_none(),
        end > class.map_or(MAX_CLASS_LENGTH, |class| class.length),
        !parameter.in_range(case.value),
    ]
}
