//! What is counted of a pair.

use crate::cases::{Answer, Case};
use harness::case::{Case as _, Input};
use model::delta::{runs_of_files, Run};
use model::imagefile;
use model::layout::{Class, Layout, BLOCK_LENGTH};
use std::sync::LazyLock;

/// The characters of the longest list: 4,096 bytes in 32 classes, as many of them as possible of
/// odd length, which are 30. With every second byte differing there are 2,063 runs, two of which
/// have two bytes; a run of n bytes has 7 + 4n characters.
const LONGEST_LIST: usize = 7 * 2_063 + 4 * 2_065;

/// A pair as the model has it.
struct Pair {
    answer: Answer,
    old: Option<Flash>,
    new: Option<Flash>,
    /// None where it is refused.
    runs: Vec<Run>,
}

struct Flash {
    layout: Layout,
    image: Vec<u8>,
}

/// An event, and how often a pair meets it.
type Event = (&'static str, fn(&Pair) -> usize);

const TABLE: &[Event] = &[
    ("a list", |pair| usize::from(pair.answer == Answer::Runs)),
    ("nothing", |pair| usize::from(pair.answer == Answer::Nothing)),
    ("output 0A", |pair| usize::from(pair.answer == Answer::Invalid)),
    ("output 12", |pair| usize::from(pair.answer == Answer::Layouts)),
    ("0A for old.hex alone", |pair| usize::from(pair.old.is_none() && pair.new.is_some())),
    ("0A for new.hex alone", |pair| usize::from(pair.old.is_some() && pair.new.is_none())),
    ("0A for both", |pair| usize::from(pair.old.is_none() && pair.new.is_none())),
    ("12, same bytes", |pair| pair.refused_with_same(|flash| flash.image.clone())),
    ("12, same identifiers", |pair| pair.refused_with_same(Flash::ids)),
    ("12, same lengths", |pair| pair.refused_with_same(Flash::lengths)),
    ("12, as many classes", |pair| pair.refused_with_same(|flash| flash.ids().len())),
    ("12, as many bytes", |pair| pair.refused_with_same(|flash| flash.image.len())),
    ("12, same classes and more", |pair| usize::from(pair.is_longer_layout())),
    ("first byte of the image", |pair| pair.count(|flash, run| flash.place(run) == 0)),
    ("last byte of the image", |pair| pair.count(|flash, run| flash.ends_image(run))),
    ("run across a block's end", |pair| pair.count(|_, run| crosses_block_end(run))),
    ("run of a whole class", |pair| pair.count(|flash, run| flash.is_whole_class(run))),
    ("class of one byte", |pair| pair.count(|flash, run| flash.class(run).length == 1)),
    ("offset above 255", |pair| pair.count(|_, run| run.offset > 255)),
    ("run of more than 255 bytes", |pair| pair.count(|_, run| run.old.len() > 255)),
    ("both sides of a class's end", |pair| pair.count_two(Flash::meet_at_class_end)),
    ("one equal byte between", |pair| pair.count_two(|_, a, b| has_one_between(a, b))),
    ("every byte", |pair| usize::from(pair.is_every_byte())),
    ("the longest list", |pair| usize::from(pair.list_length() == LONGEST_LIST)),
];

pub static EVENTS: LazyLock<Vec<&str>> =
    LazyLock::new(|| TABLE.iter().map(|event| event.0).collect());

/// Counts the events of one case and answers the number of its runs.
pub fn count(case: &Case, times: &mut [usize]) -> usize {
    let pair = Pair {
        answer: Answer::of(&case.expected()),
        old: Flash::of(&case.old),
        new: Flash::of(&case.new),
        runs: runs_of_files(case.old.text(), case.new.text()).unwrap_or_default(),
    };
    for ((_, event), count) in TABLE.iter().zip(times) {
        *count += event(&pair);
    }
    pair.runs.len()
}

impl Pair {
    /// Whether layouts differ although the two have this in common.
    fn refused_with_same<T: PartialEq>(&self, what: fn(&Flash) -> T) -> usize {
        let is_same = self.old.as_ref().map(what) == self.new.as_ref().map(what);
        usize::from(self.answer == Answer::Layouts && is_same)
    }

    /// Whether one layout has all classes of the other, and others behind them.
    fn is_longer_layout(&self) -> bool {
        let (Some(old), Some(new)) = (&self.old, &self.new) else { return false };
        let (old, new) = (&old.layout.classes, &new.layout.classes);
        old.len() != new.len() && (old.starts_with(new) || new.starts_with(old))
    }

    /// How many runs there are like this.
    fn count(&self, is_counted: fn(&Flash, &Run) -> bool) -> usize {
        let Some(flash) = &self.old else { return 0 };
        self.runs.iter().filter(|run| is_counted(flash, run)).count()
    }

    /// How many runs there are like this, each with the next.
    fn count_two(&self, is_counted: fn(&Flash, &Run, &Run) -> bool) -> usize {
        let Some(flash) = &self.old else { return 0 };
        self.runs.windows(2).filter(|two| is_counted(flash, &two[0], &two[1])).count()
    }

    fn is_every_byte(&self) -> bool {
        let differing: usize = self.runs.iter().map(|run| run.old.len()).sum();
        self.old.as_ref().is_some_and(|flash| flash.image.len() == differing)
    }

    fn list_length(&self) -> usize {
        self.runs.iter().map(|run| 7 + 4 * run.old.len()).sum()
    }
}

impl Flash {
    fn of(input: &Input) -> Option<Flash> {
        let (layout, image) = imagefile::read(input.text()?).ok()?;
        Some(Flash { layout, image })
    }

    fn ids(&self) -> Vec<u8> {
        self.layout.classes.iter().map(|class| class.id).collect()
    }

    fn lengths(&self) -> Vec<usize> {
        self.layout.classes.iter().map(|class| class.length).collect()
    }

    fn class(&self, run: &Run) -> Class {
        let found = self.layout.classes.iter().find(|class| class.id == run.class);
        *found.expect("the class of a run is in the layout")
    }

    /// Where a run begins in the image.
    fn place(&self, run: &Run) -> usize {
        let class = self.layout.class(run.class).expect("the class of a run is in the layout");
        class.start + usize::from(run.offset)
    }

    fn ends_image(&self, run: &Run) -> bool {
        self.place(run) + run.old.len() == self.image.len()
    }

    fn is_whole_class(&self, run: &Run) -> bool {
        self.class(run).length == run.old.len()
    }

    fn meet_at_class_end(&self, first: &Run, second: &Run) -> bool {
        self.place(first) + first.old.len() == self.place(second)
    }
}

/// The offset behind a run.
fn end(run: &Run) -> usize {
    usize::from(run.offset) + run.old.len()
}

fn crosses_block_end(run: &Run) -> bool {
    usize::from(run.offset) / BLOCK_LENGTH != (end(run) - 1) / BLOCK_LENGTH
}

fn has_one_between(first: &Run, second: &Run) -> bool {
    first.class == second.class && end(first) + 1 == usize::from(second.offset)
}
