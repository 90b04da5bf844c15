//! Generated data flash: classes with their bytes, and the text of any list of classes, valid or
//! not.

use crate::random::Random;
use model::layout::{
    checksum, BLOCK_LENGTH, INFO_CLASS, INFO_LENGTH, KEY_CLASS, KEY_CLASS_MIN_LENGTH,
};
use model::layout::{MAX_CLASSES, MAX_CLASS_LENGTH, MAX_IMAGE_LENGTH};
use model::text::{push_byte, push_bytes};
use std::collections::BTreeSet;

/// Words that are never key words: status, seal, reset.
pub const COMMAND_WORDS: [u16; 3] = [0x0000, 0x0020, 0x0041];

#[derive(Clone)]
pub struct Class {
    pub id: u8,
    pub bytes: Vec<u8>,
}

#[derive(Clone)]
pub struct Flash {
    pub classes: Vec<Class>,
}

impl Flash {
    /// The image file of these classes in this order, each line with its right checksum, whatever
    /// the layout's rules say.
    pub fn text(&self) -> Vec<u8> {
        self.classes.iter().flat_map(class_text).collect()
    }

    pub fn length(&self) -> usize {
        self.classes.iter().map(|class| class.bytes.len()).sum()
    }

    pub fn class(&mut self, id: u8) -> &mut Class {
        self.classes
            .iter_mut()
            .find(|class| class.id == id)
            .expect("a class that every generated flash has")
    }

    /// Whether both keys can be entered: none of their words is a command word.
    fn can_be_opened(&mut self) -> bool {
        let words = self.class(KEY_CLASS).bytes[..8].chunks(2);
        !words
            .into_iter()
            .any(|word| COMMAND_WORDS.contains(&u16::from_le_bytes([word[0], word[1]])))
    }
}

pub fn class_text(class: &Class) -> Vec<u8> {
    let blocks = (0u8..).zip(class.bytes.chunks(BLOCK_LENGTH));
    blocks.flat_map(|(block, data)| line(class.id, block, data)).collect()
}

/// One line of an image file, with its right checksum.
pub fn line(class: u8, block: u8, data: &[u8]) -> Vec<u8> {
    let mut line = Vec::new();
    push_bytes(&mut line, &[class, block]);
    push_bytes(&mut line, data);
    push_byte(&mut line, checksum(data));
    line.push(b'\n');
    line
}

/// A valid flash of any kind.
pub fn any(random: &mut Random) -> Flash {
    let make = random.weighted(&[
        (1, smallest as fn(&mut Random) -> Flash),
        (10, few_classes),
        (3, many_classes),
        (2, full),
        (1, longest_text),
    ]);
    make(random)
}

/// A valid flash whose two keys can be entered.
pub fn openable(random: &mut Random) -> Flash {
    loop {
        let mut flash = any(random);
        if flash.can_be_opened() {
            return flash;
        }
    }
}

/// A valid flash whose two keys can be entered and whose key class has further blocks.
pub fn openable_with_key_blocks(random: &mut Random) -> Flash {
    loop {
        let mut flash = openable(random);
        if flash.class(KEY_CLASS).bytes.len() > BLOCK_LENGTH {
            return flash;
        }
    }
}

/// The two classes that must be there, the second as short as it may be.
fn smallest(random: &mut Random) -> Flash {
    filled(random, &[(INFO_CLASS, INFO_LENGTH), (KEY_CLASS, KEY_CLASS_MIN_LENGTH)])
}

fn few_classes(random: &mut Random) -> Flash {
    let count = random.between(2, 8);
    let lengths = lengths(random, count);
    filled(random, &lengths)
}

fn many_classes(random: &mut Random) -> Flash {
    let count = random.pick(&[20, 31, MAX_CLASSES]);
    let lengths = lengths(random, count);
    filled(random, &lengths)
}

/// 4,096 bytes together.
pub fn full(random: &mut Random) -> Flash {
    let count = random.between(10, MAX_CLASSES);
    let mut lengths = lengths(random, count);
    let mut missing = MAX_IMAGE_LENGTH - total(&lengths);
    for (_, length) in lengths.iter_mut().filter(|(id, _)| *id != INFO_CLASS) {
        let more = missing.min(MAX_CLASS_LENGTH - *length);
        *length += more;
        missing -= more;
    }
    filled(random, &lengths)
}

/// As many lines as a valid image can have: 32 classes, 4,096 bytes, last blocks of one byte.
pub fn longest_text(random: &mut Random) -> Flash {
    let ids = ids(random, MAX_CLASSES);
    let short = BLOCK_LENGTH + 1;
    let mut lengths: Vec<_> =
        ids.iter().map(|&id| (id, if id == INFO_CLASS { INFO_LENGTH } else { short })).collect();
    while total(&lengths) + BLOCK_LENGTH <= MAX_IMAGE_LENGTH {
        let (id, length) = &mut lengths[random.below(MAX_CLASSES)];
        if *id != INFO_CLASS && *length + BLOCK_LENGTH <= MAX_CLASS_LENGTH {
            *length += BLOCK_LENGTH;
        }
    }
    let missing = MAX_IMAGE_LENGTH - total(&lengths);
    let (_, length) =
        lengths.iter_mut().find(|(id, _)| *id != INFO_CLASS).expect("31 such classes");
    *length += missing;
    filled(random, &lengths)
}

/// As many classes of one byte as there can be.
pub fn shortest_classes(random: &mut Random) -> Flash {
    let length = |id: u8| match id {
        INFO_CLASS => INFO_LENGTH,
        KEY_CLASS => KEY_CLASS_MIN_LENGTH,
        _ => 1,
    };
    let lengths: Vec<_> = ids(random, MAX_CLASSES).into_iter().map(|id| (id, length(id))).collect();
    filled(random, &lengths)
}

/// A few classes, one to three of them of 512 bytes.
pub fn longest_classes(random: &mut Random) -> Flash {
    let mut lengths = lengths(random, 5);
    lengths.retain(|&(id, _)| id != INFO_CLASS);
    for _ in 0..3 {
        let place = random.below(lengths.len());
        lengths[place].1 = MAX_CLASS_LENGTH;
    }
    lengths.push((INFO_CLASS, INFO_LENGTH));
    lengths.sort();
    filled(random, &lengths)
}

/// A text of exactly 4,096 or 8,192 characters.
pub fn round_text(random: &mut Random) -> Flash {
    let target = random.pick(&[4_096, 8_192]);
    loop {
        let lengths = lengths_for_text(random, target);
        if lengths.len() <= MAX_CLASSES - 2 {
            let mut ids = ids(random, lengths.len() + 2);
            ids.retain(|&id| id != INFO_CLASS && id != KEY_CLASS);
            let mut classes: Vec<(u8, usize)> = ids.into_iter().zip(lengths).collect();
            classes.extend([(INFO_CLASS, INFO_LENGTH), (KEY_CLASS, KEY_CLASS_MIN_LENGTH)]);
            classes.sort();
            return filled(random, &classes);
        }
    }
}

/// Lengths of further classes that make a text of `target` characters together with the two that
/// must be there.
fn lengths_for_text(random: &mut Random, target: usize) -> Vec<usize> {
    let mut missing = target - text_length(INFO_LENGTH) - text_length(KEY_CLASS_MIN_LENGTH);
    let mut lengths = Vec::new();
    while missing > text_length(BLOCK_LENGTH) {
        let length = random.between(1, MAX_CLASS_LENGTH);
        if text_length(length) + 2 * text_length(1) <= missing {
            lengths.push(length);
            missing -= text_length(length);
        }
    }
    // a line has an odd number of characters
    if missing.is_multiple_of(2) {
        lengths.push(1);
        missing -= text_length(1);
    }
    lengths.push((missing - text_length(0)) / 2);
    lengths
}

/// The characters of a class: two a byte, and seven a line for class, block, checksum and line
/// feed.
fn text_length(length: usize) -> usize {
    2 * length + 7 * length.div_ceil(BLOCK_LENGTH).max(1)
}

/// Ascending identifiers, 58 and 112 among them, with weight on both ends and on their neighbours.
fn ids(random: &mut Random, count: usize) -> Vec<u8> {
    let mut ids = BTreeSet::from([INFO_CLASS, KEY_CLASS]);
    while ids.len() < count {
        let id = if random.chance(40) {
            random.pick(&[0, 1, 48, 57, 59, 111, 113, 254, 255])
        } else {
            random.byte()
        };
        ids.insert(id);
    }
    ids.into_iter().collect()
}

/// Identifiers with lengths that make a valid layout.
fn lengths(random: &mut Random, count: usize) -> Vec<(u8, usize)> {
    let ids = ids(random, count);
    let mut lengths: Vec<_> = ids.iter().map(|&id| (id, class_length(random, id))).collect();
    while total(&lengths) > MAX_IMAGE_LENGTH {
        let longest =
            lengths.iter_mut().max_by_key(|(_, length)| *length).expect("two classes at least");
        longest.1 /= 2;
    }
    lengths
}

fn class_length(random: &mut Random, id: u8) -> usize {
    let (near, any) = (random.between(1, 40), random.between(1, MAX_CLASS_LENGTH));
    match id {
        INFO_CLASS => INFO_LENGTH,
        KEY_CLASS => random.pick(&[28, 28, 29, 31, 32, 33, 64, any.max(28)]),
        _ => random.pick(&[1, 2, 31, 32, 33, 63, 64, 65, 511, 512, near, near, near, any]),
    }
}

fn total(lengths: &[(u8, usize)]) -> usize {
    lengths.iter().map(|entry| entry.1).sum()
}

fn filled(random: &mut Random, lengths: &[(u8, usize)]) -> Flash {
    let classes = lengths.iter().map(|&(id, length)| Class { id, bytes: contents(random, length) });
    let mut flash = Flash { classes: classes.collect() };
    let keys = keys(random);
    flash.class(KEY_CLASS).bytes[..8].copy_from_slice(&keys);
    flash
}

fn contents(random: &mut Random, length: usize) -> Vec<u8> {
    match random.below(5) {
        0 => vec![0; length],
        1 => vec![0xFF; length],
        2 => (0..length).map(|i| i as u8).collect(),
        _ => random.bytes(length),
    }
}

/// Both keys, as the eight bytes in flash.
pub fn keys(random: &mut Random) -> [u8; 8] {
    let mut words = [0; 4].map(|_: u16| random.number() as u16);
    match random.below(16) {
        0 => words = [0xFFFF; 4],
        // a key that can never be entered
        1 | 2 => words[random.below(4)] = random.pick(&COMMAND_WORDS),
        // unseal key and full access key alike
        3 | 4 => words = [words[0], words[1], words[0], words[1]],
        // two equal words in each
        5 => words = [words[0], words[0], words[2], words[2]],
        // the full access key begins with the second word of the unseal key
        6 | 7 => words[2] = words[1],
        _ => {}
    }
    let mut keys = [0; 8];
    for (place, word) in keys.chunks_exact_mut(2).zip(words) {
        place.copy_from_slice(&word.to_le_bytes());
    }
    keys
}
