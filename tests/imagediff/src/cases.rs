//! The table of all kinds of pairs, and what a pair asks for.

use crate::changes::{self, any_other, Change};
use crate::events;
use crate::layouts::{self, pair, Alter};
use crate::places::{self, Places};
use generator::damage::{self, Damage};
use generator::flash::{self, Flash};
use generator::imagetexts::{Expect, ImageText, Make, IMAGE_TEXTS};
use generator::random::Random;
use harness::case::{self, Input, DISAGREE};
use model::delta::{diff, lay_over, runs_of_files, Run};
use model::imagefile;
use std::sync::LazyLock;

pub struct Case {
    pub old: Input,
    pub new: Input,
}

impl Case {
    /// "Laying the runs over the first image gives the second", and exchanged ones the other way
    /// round: a check of the model.
    fn runs_lead_both_ways(&self) -> bool {
        let Ok(runs) = runs_of_files(self.old.text(), self.new.text()) else { return true };
        let image = |input: &Input| imagefile::read(input.text().unwrap_or_default());
        let (Ok((layout, old)), Ok((_, new))) = (image(&self.old), image(&self.new)) else {
            return false;
        };
        let back: Vec<Run> = runs.iter().cloned().map(Run::exchanged).collect();
        lay_over(&layout, &old, &runs) == Ok(new.clone())
            && lay_over(&layout, &new, &back) == Ok(old)
    }
}

impl case::Case for Case {
    fn files(&self) -> Vec<(&'static str, &Input)> {
        vec![("old.hex", &self.old), ("new.hex", &self.new)]
    }

    fn expected(&self) -> Vec<u8> {
        diff(self.old.text(), self.new.text())
    }

    fn reasons(&self) -> Vec<String> {
        if Answer::of(&self.expected()) == Layouts {
            return vec!["old.hex and new.hex: layouts differ".to_string()];
        }
        let reason = |(name, input): (&str, &Input)| Some(format!("{name}: {}", input.no_image()?));
        self.files().into_iter().filter_map(reason).collect()
    }

    fn count(&self, times: &mut [usize]) -> usize {
        events::count(self, times)
    }
}

/// What is printed.
#[derive(Clone, Copy, PartialEq, Eq)]
pub enum Answer {
    Runs,
    Nothing,
    /// 0A
    Invalid,
    /// 12
    Layouts,
}

impl Answer {
    pub fn of(output: &[u8]) -> Answer {
        match output {
            b"" => Nothing,
            b"0A\n" => Invalid,
            b"12\n" => Layouts,
            _ => Runs,
        }
    }
}

#[derive(Clone, Copy)]
pub struct Kind {
    name: &'static str,
    weight: usize,
    /// None: any of them.
    expect: Option<Answer>,
    pair: Pair,
}

/// How the pair of a kind is made.
#[derive(Clone, Copy)]
enum Pair {
    /// Two images of one layout, which differ at these places.
    Bytes(fn(&mut Random) -> Flash, Places, Change),
    /// Two layouts.
    Altered(Alter),
    /// An image and the same spoilt, which is the old one and the new one in turns.
    Spoilt(Damage),
    /// An image and a text of its own, in turns as well.
    Beside(fn(&mut Random) -> Vec<u8>),
    Both(fn(&mut Random) -> Case),
}

const fn kind(weight: usize, name: &'static str, expect: Answer, pair: Pair) -> Kind {
    Kind { name, weight, expect: Some(expect), pair }
}

/// Other bytes at these places.
const fn runs(
    weight: usize,
    name: &'static str,
    make_flash: fn(&mut Random) -> Flash,
    places: Places,
) -> Kind {
    kind(weight, name, Runs, Bytes(make_flash, places, any_other))
}

/// A pair of which one is no image at least.
const fn refused(weight: usize, name: &'static str, make: fn(&mut Random) -> Case) -> Kind {
    kind(weight, name, Invalid, Both(make))
}

use Answer::{Invalid, Layouts, Nothing, Runs};
use Pair::{Altered, Beside, Both, Bytes, Spoilt};

/// Two images of one layout.
const ONE_LAYOUT: &[Kind] = &[
    kind(3, "equal", Nothing, Bytes(flash::any, places::none, any_other)),
    kind(2, "equal, longest", Nothing, Bytes(flash::longest_text, places::none, any_other)),
    runs(4, "one byte", flash::any, places::one),
    runs(4, "a few bytes", flash::any, places::few),
    runs(4, "one run", flash::any, places::any_run),
    runs(6, "scattered", flash::any, places::scattered),
    kind(4, "one bit", Runs, Bytes(flash::any, places::scattered, changes::one_bit)),
    kind(2, "high digit", Runs, Bytes(flash::any, places::scattered, changes::high_digit)),
    kind(2, "low digit", Runs, Bytes(flash::any, places::scattered, changes::low_digit)),
    kind(2, "one more or less", Runs, Bytes(flash::any, places::few, changes::neighbour)),
    kind(2, "same checksums", Runs, Both(|r| of_one_layout(r, changes::same_checksums))),
    kind(2, "other bytes", Runs, Both(|r| of_one_layout(r, changes::other_bytes))),
    runs(5, "across a block's end", flash::any, places::across_block_end),
    runs(4, "beside a block's end", flash::any, places::beside_block_end),
    runs(4, "whole class", flash::any, places::whole_class),
    runs(4, "whole classes", flash::any, places::whole_classes),
    runs(3, "every byte", flash::any, places::all),
    runs(2, "every byte, longest", flash::longest_text, places::all),
    runs(2, "every byte but one", flash::any, places::all_but_one),
    runs(3, "alternate bytes", flash::any, places::alternate),
    runs(5, "longest list", flash::longest_text, places::longest_list),
    runs(5, "ends of two classes", flash::any, places::class_ends),
    runs(2, "ends of all classes", flash::any, places::all_class_ends),
    runs(4, "ends of the image", flash::any, places::image_ends),
    runs(5, "one equal byte between", flash::any, places::one_equal_between),
    runs(4, "classes of one byte", flash::shortest_classes, places::few),
    runs(2, "classes of one byte whole", flash::shortest_classes, places::whole_classes),
    runs(8, "offsets above 255", flash::longest_classes, places::high_offsets),
];

/// Two layouts, and files that are no images.
const REFUSED: &[Kind] = &[
    kind(6, "layout: identifier", Layouts, Altered(layouts::identifier)),
    kind(6, "layout: one length", Layouts, Altered(layouts::one_length)),
    kind(6, "layout: lengths shifted", Layouts, Altered(layouts::lengths_shifted)),
    kind(4, "layout: lengths exchanged", Layouts, Altered(layouts::lengths_exchanged)),
    kind(5, "layout: class split", Layouts, Altered(layouts::class_split)),
    kind(8, "layout: class added", Layouts, Altered(layouts::class_added)),
    kind(3, "layout: unrelated", Layouts, Altered(layouts::unrelated)),
    kind(4, "layout and bytes", Layouts, Both(layout_and_bytes)),
    refused(2, "old damaged, another layout", |r| exchanged(damaged_new(r))),
    refused(2, "new damaged, another layout", damaged_new),
    refused(2, "both damaged", both_damaged),
    refused(2, "both damaged alike", damaged_alike),
    refused(1, "both huge", |r| texts(damage::only_noise(r), damage::only_noise(r))),
    refused(1, "both empty", |_| texts(Vec::new(), Vec::new())),
    kind(2, "longest, and a character", Invalid, Beside(longest_and_more)),
    refused(1, "old missing", |r| Case { old: Input::Missing, ..good(r) }),
    refused(1, "new missing", |r| Case { new: Input::Missing, ..good(r) }),
    refused(1, "both missing", |_| Case { old: Input::Missing, new: Input::Missing }),
    refused(1, "old is a folder", |r| Case { old: Input::Folder, ..good(r) }),
    refused(1, "new is a folder", |r| Case { new: Input::Folder, ..good(r) }),
    refused(1, "folder and missing", |_| Case { old: Input::Folder, new: Input::Missing }),
    refused(1, "old missing, new damaged", |r| Case { old: Input::Missing, ..both_damaged(r) }),
    refused(1, "old damaged, new missing", |r| Case { new: Input::Missing, ..both_damaged(r) }),
];

/// All kinds, in the order of their cases.
pub static KINDS: LazyLock<Vec<Kind>> = LazyLock::new(|| {
    let images = IMAGE_TEXTS.iter().filter_map(with_image);
    ONE_LAYOUT.iter().copied().chain(REFUSED.iter().copied()).chain(images).collect()
});

/// The kind with such an image on one side, if that is not one of the good ones.
fn with_image(image: &ImageText) -> Option<Kind> {
    let pair = match image.make {
        Make::Valid(_) => return None,
        Make::Spoilt(damage) => Spoilt(damage),
        Make::Broken(make) | Make::Long(make) => Beside(make),
    };
    let expect = (image.expect == Expect::Bad).then_some(Invalid);
    Some(Kind { name: image.name, weight: SIDES * image.weight, expect, pair })
}

/// Each turn through the table has such an image on both.
const SIDES: usize = 2;

impl case::Kind for Kind {
    type Case = Case;

    fn name(&self) -> &'static str {
        self.name
    }

    fn weight(&self) -> usize {
        self.weight
    }

    fn case(&self, random: &mut Random, ordinal: usize) -> Case {
        match self.pair {
            Bytes(make_flash, places, change) => differing(random, make_flash, places, change),
            Altered(alter) => {
                let (old, new) = pair(random, alter);
                texts(old.text(), new.text())
            }
            Spoilt(damage) => {
                let text = flash::any(random).text();
                in_turns(ordinal, texts(damage(random, &text), text))
            }
            Beside(make) => in_turns(ordinal, texts(make(random), flash::any(random).text())),
            Both(make) => make(random),
        }
    }

    fn check(&self, case: &Case, expected: &[u8]) -> Result<(), &'static str> {
        if self.expect.is_some_and(|answer| answer != Answer::of(expected)) {
            return Err(DISAGREE);
        }
        let reason = "the model's runs do not lead from the one image to the other";
        case.runs_lead_both_ways().then_some(()).ok_or(reason)
    }
}

fn texts(old: Vec<u8>, new: Vec<u8>) -> Case {
    Case { old: Input::Text(old), new: Input::Text(new) }
}

fn exchanged(case: Case) -> Case {
    Case { old: case.new, new: case.old }
}

/// Every second case exchanged.
fn in_turns(ordinal: usize, case: Case) -> Case {
    if ordinal.is_multiple_of(SIDES) {
        case
    } else {
        exchanged(case)
    }
}

fn differing(
    random: &mut Random,
    make_flash: fn(&mut Random) -> Flash,
    places: Places,
    change: Change,
) -> Case {
    let old = make_flash(random);
    let places = places(random, &old);
    let new = changes::changed(random, &old, &places, change);
    texts(old.text(), new.text())
}

fn of_one_layout(random: &mut Random, make: fn(&mut Random, &Flash) -> Flash) -> Case {
    let old = flash::any(random);
    let new = make(random, &old);
    texts(old.text(), new.text())
}

fn good(random: &mut Random) -> Case {
    differing(random, flash::any, places::few, any_other)
}

/// Two layouts, and not the same bytes either.
fn layout_and_bytes(random: &mut Random) -> Case {
    let alter = random.pick(&[
        layouts::identifier as Alter,
        layouts::one_length,
        layouts::lengths_shifted,
        layouts::class_added,
    ]);
    let (old, new) = pair(random, alter);
    texts(old.text(), changes::other_bytes(random, &new).text())
}

/// 10 comes before 18.
fn damaged_new(random: &mut Random) -> Case {
    let (old, new) = pair(random, layouts::unrelated);
    texts(old.text(), damage::no_digit(random, &new.text()))
}

fn both_damaged(random: &mut Random) -> Case {
    let text = flash::any(random).text();
    texts(damage::no_digit(random, &text), damage::no_digit(random, &text))
}

/// Equal files that are no images.
fn damaged_alike(random: &mut Random) -> Case {
    let text = flash::any(random).text();
    let damaged = damage::no_digit(random, &text);
    texts(damaged.clone(), damaged)
}

/// A character more than any image file has, or a few.
fn longest_and_more(random: &mut Random) -> Vec<u8> {
    let more = random.pick(&[&b"\n"[..], b"F", b"\0", b"FF\n"]);
    [&flash::longest_text(random).text(), more].concat()
}
