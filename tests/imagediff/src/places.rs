//! Where two images of one layout differ: one function a kind.

use generator::flash::{Class, Flash};
use generator::random::Random;
use model::layout::{BLOCK_LENGTH, MAX_CLASS_LENGTH};
use std::ops::Range;

/// A byte's class, as its place in the flash, and its offset in that class.
pub type Place = (usize, usize);
pub type Places = fn(&mut Random, &Flash) -> Vec<Place>;

/// The first offset with another high byte than 0.
const HIGH: usize = 256;

fn in_class(class: usize, offsets: Range<usize>) -> Vec<Place> {
    offsets.map(|offset| (class, offset)).collect()
}

/// Those offsets of every class that are asked for, by offset and length.
fn in_each_class(flash: &Flash, mut asked: impl FnMut(usize, usize) -> bool) -> Vec<Place> {
    let mut places = Vec::new();
    for (class, Class { bytes, .. }) in flash.classes.iter().enumerate() {
        let offsets = (0..bytes.len()).filter(|&offset| asked(offset, bytes.len()));
        places.extend(offsets.map(|offset| (class, offset)));
    }
    places
}

/// Any class of at least this many bytes, as its place and its length. Every flash has class 58,
/// with 96.
fn class_of(random: &mut Random, flash: &Flash, least: usize) -> (usize, usize) {
    let lengths = flash.classes.iter().map(|class| class.bytes.len()).enumerate();
    let long: Vec<(usize, usize)> = lengths.filter(|&(_, length)| length >= least).collect();
    random.pick(&long)
}

pub fn none(_: &mut Random, _: &Flash) -> Vec<Place> {
    Vec::new()
}

pub fn one(random: &mut Random, flash: &Flash) -> Vec<Place> {
    let (class, length) = class_of(random, flash, 1);
    vec![(class, random.below(length))]
}

pub fn few(random: &mut Random, flash: &Flash) -> Vec<Place> {
    let count = random.between(2, 10);
    (0..count).flat_map(|_| one(random, flash)).collect()
}

/// Few, half or nearly all, one at least.
pub fn scattered(random: &mut Random, flash: &Flash) -> Vec<Place> {
    let percent = random.pick(&[2, 10, 50, 90, 98]);
    let places = in_each_class(flash, |_, _| random.chance(percent));
    if places.is_empty() {
        return one(random, flash);
    }
    places
}

pub fn all(_: &mut Random, flash: &Flash) -> Vec<Place> {
    in_each_class(flash, |_, _| true)
}

pub fn all_but_one(random: &mut Random, flash: &Flash) -> Vec<Place> {
    let mut places = all(random, flash);
    let equal = random.below(places.len());
    places.remove(equal);
    places
}

/// Every second byte of each class, from the first or from the second on.
pub fn alternate(random: &mut Random, flash: &Flash) -> Vec<Place> {
    let first = random.below(2);
    in_each_class(flash, |offset, _| offset % 2 == first)
}

/// The longest list that a layout allows: single bytes with one equal byte between them, from the
/// first of a class to its last. In a class of even length the last run has two.
pub fn longest_list(_: &mut Random, flash: &Flash) -> Vec<Place> {
    in_each_class(flash, |offset, length| offset % 2 == 0 || offset + 1 == length)
}

pub fn whole_class(random: &mut Random, flash: &Flash) -> Vec<Place> {
    let (class, length) = class_of(random, flash, 1);
    in_class(class, 0..length)
}

/// Some classes whole, and the others not at all.
pub fn whole_classes(random: &mut Random, flash: &Flash) -> Vec<Place> {
    let count = random.between(1, flash.classes.len());
    (0..count).flat_map(|_| whole_class(random, flash)).collect()
}

/// A run in a class, as long as chance will have it.
pub fn any_run(random: &mut Random, flash: &Flash) -> Vec<Place> {
    let (class, length) = class_of(random, flash, 1);
    let start = random.below(length);
    in_class(class, start..random.between(start + 1, length))
}

/// A run with the end of one block or of several in it.
pub fn across_block_end(random: &mut Random, flash: &Flash) -> Vec<Place> {
    let (class, length) = class_of(random, flash, BLOCK_LENGTH + 1);
    let end = BLOCK_LENGTH * random.between(1, (length - 1) / BLOCK_LENGTH);
    let before = random.between(1, end.min(40));
    let after = random.between(1, (length - end).min(40));
    in_class(class, end - before..end + after)
}

/// A run up to the end of a block, or one from there on.
pub fn beside_block_end(random: &mut Random, flash: &Flash) -> Vec<Place> {
    let (class, length) = class_of(random, flash, BLOCK_LENGTH + 1);
    let end = BLOCK_LENGTH * random.between(1, (length - 1) / BLOCK_LENGTH);
    if random.chance(50) {
        in_class(class, end - random.between(1, BLOCK_LENGTH)..end)
    } else {
        in_class(class, end..end + random.between(1, (length - end).min(BLOCK_LENGTH)))
    }
}

/// The last bytes of a class, one mostly, and the first ones of the next.
pub fn class_ends(random: &mut Random, flash: &Flash) -> Vec<Place> {
    let class = random.below(flash.classes.len() - 1);
    let mut count = |class: usize| {
        let length = flash.classes[class].bytes.len();
        random.pick(&[1, 1, 2, 40, length]).min(length)
    };
    let (last, first) = (count(class), count(class + 1));
    let length = flash.classes[class].bytes.len();
    [in_class(class, length - last..length), in_class(class + 1, 0..first)].concat()
}

/// The last byte of every class and the first one of the next.
pub fn all_class_ends(_: &mut Random, flash: &Flash) -> Vec<Place> {
    in_each_class(flash, |offset, length| offset == 0 || offset + 1 == length)
}

/// The very first byte, the very last one, or both.
pub fn image_ends(random: &mut Random, flash: &Flash) -> Vec<Place> {
    let class = flash.classes.len() - 1;
    let (first, last) = ((0, 0), (class, flash.classes[class].bytes.len() - 1));
    random.pick(&[&[first][..], &[last], &[first, last], &[first, last]]).to_vec()
}

/// Two runs with one equal byte between them, often at the end of a block.
pub fn one_equal_between(random: &mut Random, flash: &Flash) -> Vec<Place> {
    let (class, length) = class_of(random, flash, 3);
    let any = random.between(1, length - 2);
    let equal = random.pick(&[any, any, BLOCK_LENGTH - 1, BLOCK_LENGTH]).min(length - 2);
    let before = random.between(1, equal.min(5));
    let after = random.between(1, (length - 1 - equal).min(5));
    [in_class(class, equal - before..equal), in_class(class, equal + 1..equal + 1 + after)].concat()
}

/// A run in a class of 512 bytes, for a flash that has one: it ends or begins beside offset 256,
/// goes across or is beyond, or has as many bytes as that.
pub fn high_offsets(random: &mut Random, flash: &Flash) -> Vec<Place> {
    let (class, length) = class_of(random, flash, MAX_CLASS_LENGTH);
    let low = random.below(HIGH);
    let high = random.between(HIGH + 1, length - 1);
    let (start, end) = random.pick(&[
        (low, HIGH),
        (low, high),
        (HIGH, high),
        (HIGH, HIGH + 1),
        (HIGH - 1, HIGH + 1),
        (high, high + 1),
        (high, length),
        (length - 1, length),
        (0, HIGH - 1),
        (0, HIGH),
        (0, HIGH + 1),
    ]);
    in_class(class, start..end)
}
