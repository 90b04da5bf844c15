//! How the bytes of two images of one layout differ.

use crate::places::Place;
use generator::flash::{Class, Flash};
use generator::random::Random;
use model::layout::BLOCK_LENGTH;

/// Another byte than this one.
pub type Change = fn(&mut Random, u8) -> u8;

/// The flash with other bytes at these places, and only there.
pub fn changed(random: &mut Random, flash: &Flash, places: &[Place], change: Change) -> Flash {
    let mut new = flash.clone();
    for &(class, offset) in places {
        new.classes[class].bytes[offset] = change(random, flash.classes[class].bytes[offset]);
    }
    new
}

pub fn any_other(random: &mut Random, byte: u8) -> u8 {
    byte ^ random.between(1, 0xFF) as u8
}

pub fn one_bit(random: &mut Random, byte: u8) -> u8 {
    byte ^ (1 << random.below(8))
}

/// The first digit differs, and the second does not.
pub fn high_digit(random: &mut Random, byte: u8) -> u8 {
    byte ^ (random.between(1, 0xF) << 4) as u8
}

pub fn low_digit(random: &mut Random, byte: u8) -> u8 {
    byte ^ random.between(1, 0xF) as u8
}

/// One more or less.
pub fn neighbour(random: &mut Random, byte: u8) -> u8 {
    byte.wrapping_add(random.pick(&[1, 0xFF]))
}

/// Other bytes in every block that has two or more, and the same checksums.
pub fn same_checksums(random: &mut Random, flash: &Flash) -> Flash {
    let mut new = flash.clone();
    for block in new.classes.iter_mut().flat_map(|class| class.bytes.chunks_mut(BLOCK_LENGTH)) {
        if let [first, .., last] = block {
            let amount = random.between(1, 0xFF) as u8;
            *first = first.wrapping_add(amount);
            *last = last.wrapping_sub(amount);
        }
    }
    new
}

/// The same layout with bytes of its own; a byte may be equal by chance.
pub fn other_bytes(random: &mut Random, flash: &Flash) -> Flash {
    let other = |class: &Class| Class { id: class.id, bytes: random.bytes(class.bytes.len()) };
    Flash { classes: flash.classes.iter().map(other).collect() }
}
