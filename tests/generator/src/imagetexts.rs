//! The table of all kinds of image texts, good and bad.

use crate::damage::{self, Damage};
use crate::flash::{self, Flash};
use crate::images;
use crate::random::Random;

/// What the model must say of a kind: a check of the generator, and of the model.
#[derive(Clone, Copy, PartialEq, Eq)]
pub enum Expect {
    Good,
    Bad,
    Either,
}

impl Expect {
    pub fn allows(self, is_good: bool) -> bool {
        self == Either || (self == Good) == is_good
    }
}

/// How a text is made.
#[derive(Clone, Copy)]
pub enum Make {
    /// The text of a valid flash.
    Valid(fn(&mut Random) -> Flash),
    /// The text of any valid flash, spoilt by a character or a line.
    Spoilt(Damage),
    /// A text that breaks one rule.
    Broken(fn(&mut Random) -> Vec<u8>),
    /// The same, of 100,000 characters at least: a few take as long as many others.
    Long(fn(&mut Random) -> Vec<u8>),
}

pub struct ImageText {
    pub name: &'static str,
    /// So many texts of this kind are in every turn through the table.
    pub weight: usize,
    pub expect: Expect,
    pub make: Make,
}

impl ImageText {
    pub fn text(&self, random: &mut Random) -> Vec<u8> {
        match self.make {
            Valid(make) => make(random).text(),
            Spoilt(damage) => {
                let text = flash::any(random).text();
                damage(random, &text)
            }
            Broken(make) | Long(make) => make(random),
        }
    }

    pub fn is_long(&self) -> bool {
        matches!(self.make, Long(_))
    }
}

const fn row(weight: usize, name: &'static str, expect: Expect, make: Make) -> ImageText {
    ImageText { name, weight, expect, make }
}

use Expect::{Bad, Either, Good};
use Make::{Broken, Long, Spoilt, Valid};

pub const IMAGE_TEXTS: &[ImageText] = &[
    row(4, "image: any", Good, Valid(flash::any)),
    row(2, "image: openable", Good, Valid(flash::openable)),
    row(2, "image: longest", Good, Valid(flash::longest_text)),
    row(2, "image: full", Good, Valid(flash::full)),
    row(2, "image: round length", Good, Valid(flash::round_text)),
    // Spoilt by a character or a line
    row(2, "image: digit changed", Either, Spoilt(damage::digit_changed)),
    row(2, "image: no digit", Bad, Spoilt(damage::no_digit)),
    row(1, "image: NUL", Bad, Spoilt(damage::nul)),
    row(1, "image: high bit", Bad, Spoilt(damage::high_bit)),
    row(1, "image: digit removed", Bad, Spoilt(damage::digit_removed)),
    row(1, "image: digit added", Bad, Spoilt(damage::digit_added)),
    row(1, "image: lines joined", Either, Spoilt(damage::lines_joined)),
    row(1, "image: line broken", Either, Spoilt(damage::line_broken)),
    row(1, "image: lower case", Bad, Spoilt(damage::lower_case)),
    row(1, "image: carriage return", Bad, Spoilt(damage::carriage_returns)),
    row(1, "image: blank", Bad, Spoilt(damage::blank)),
    row(1, "image: no last line feed", Bad, Spoilt(damage::no_last_line_feed)),
    row(1, "image: empty line", Bad, Spoilt(damage::empty_line)),
    row(1, "image: byte order mark", Bad, Spoilt(damage::byte_order_mark)),
    row(2, "image: truncated", Either, Spoilt(damage::truncated)),
    row(1, "image: lines swapped", Either, Spoilt(damage::lines_swapped)),
    row(1, "image: line doubled", Bad, Spoilt(damage::line_doubled)),
    row(1, "image: line removed", Either, Spoilt(damage::line_removed)),
    row(1, "image: bad last line", Bad, Spoilt(damage::bad_last_line)),
    // Breaking one rule
    row(1, "image: empty", Bad, Broken(|_| Vec::new())),
    row(1, "image: only digits", Bad, Long(damage::only_digits)),
    row(1, "image: only noise", Bad, Long(damage::only_noise)),
    row(1, "image: far too long", Bad, Long(images::far_too_long)),
    row(1, "image: no class 58", Bad, Broken(images::no_info_class)),
    row(1, "image: class 58 of 95", Bad, Broken(images::info_class_of_95)),
    row(1, "image: class 58 of 97", Bad, Broken(images::info_class_of_97)),
    row(1, "image: no class 112", Bad, Broken(images::no_key_class)),
    row(1, "image: class 112 of 27", Bad, Broken(images::key_class_of_27)),
    row(1, "image: class of 513", Bad, Broken(images::class_of_513)),
    row(1, "image: 33 classes", Bad, Broken(images::classes_33)),
    row(1, "image: 4097 bytes", Bad, Broken(images::bytes_4097)),
    row(1, "image: class order", Bad, Broken(images::class_order)),
    row(1, "image: wrong checksum", Bad, Broken(images::wrong_checksum)),
    row(1, "image: block numbers", Bad, Broken(images::block_numbers)),
    row(1, "image: first block number", Bad, Broken(images::first_block_number)),
    row(1, "image: short block inside", Bad, Broken(images::short_block_inside)),
    row(1, "image: long block", Bad, Broken(images::long_block)),
    row(1, "image: line without data", Bad, Broken(images::line_without_data)),
    row(1, "image: short line", Bad, Broken(images::short_line)),
];
