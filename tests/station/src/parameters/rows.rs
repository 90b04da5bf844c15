//! Rows and values, right ones and wrong ones. Kind, range, class, offset and value are drawn
//! apart, so that faults meet.

use crate::station::Layout;
use generator::random::Random;
use model::layout::{BLOCK_LENGTH, MAX_CLASS_LENGTH};
use model::parameter::Parameter;

/// The numbers of the kinds, in the order of the tally.
pub const KINDS: [u8; 6] = [0x01, 0x02, 0x04, 0x81, 0x82, 0x84];

/// The sign in the number of a kind.
const SIGNED: u8 = 0x80;

/// Bytes of a kind; of a number that is no kind, something near.
pub fn size(kind: u8) -> usize {
    match kind & !SIGNED {
        2 | 3 => 2,
        4 | 8 => 4,
        _ => 1,
    }
}

/// The lowest and the highest value of so many bytes.
pub fn ends(kind: u8) -> (i64, i64) {
    let numbers = numbers(kind);
    if kind & SIGNED == 0 {
        (0, numbers - 1)
    } else {
        (-numbers / 2, numbers / 2 - 1)
    }
}

/// How many values the bytes of a kind have.
fn numbers(kind: u8) -> i64 {
    1 << (8 * size(kind))
}

/// A row for one of these classes, mostly.
pub fn row(random: &mut Random, layout: &Layout) -> Parameter {
    let kind = kind(random);
    let (class, length) = class(random, layout);
    let offset = offset(random, size(kind), length.max(1));
    let (min, max) = range(random, kind);
    Parameter { class, offset, kind, min, max }
}

/// A row across a block's end, with the value that stands there and the one to be set. These are
/// alike in the one block or in the other now and then, and often the ends of the range, so that a
/// mixture of both is out of it. Where a class ends soon after that block, the row may leave it.
pub fn across(random: &mut Random, layout: &Layout) -> (Parameter, i64, i64) {
    let long = layout.entries().filter(|entry| usize::from(entry.1) > BLOCK_LENGTH);
    let (class, length) = random.pick(&long.collect::<Vec<_>>());
    let kind = random.pick(&[0x02, 0x04, 0x82, 0x84]);
    let below = random.between(1, size(kind) - 1);
    let block_end = BLOCK_LENGTH * random.between(1, (usize::from(length) - 1) / BLOCK_LENGTH);
    let (low, high) = ends(kind);
    let (old, new) = (between(random, low, high), between(random, low, high));
    let upper_mask = (1 << (8 * (size(kind) - below))) - 1;
    let new = random.weighted(&[
        (2, new),
        (1, (new & upper_mask) | (old & !upper_mask)),
        (1, (old & upper_mask) | (new & !upper_mask)),
    ]);
    let (min, max) = random.weighted(&[(2, (old.min(new), old.max(new))), (1, (low, high))]);
    let offset = (block_end - below) as u16;
    (Parameter { class, offset, kind, min, max }, old, new)
}

fn kind(random: &mut Random) -> u8 {
    if random.chance(92) {
        return random.pick(&KINDS);
    }
    let any = random.byte();
    random.pick(&[0x00, 0x03, 0x05, 0x06, 0x08, 0x10, 0x7F, 0x80, 0x83, 0x85, 0x88, 0xFF, any, any])
}

/// A class and its length. A class that is not in the layout is a neighbour of one, mostly, or
/// stands past the count.
fn class(random: &mut Random, layout: &Layout) -> (u8, usize) {
    let entries: Vec<(u8, u16)> = layout.entries().collect();
    if entries.is_empty() {
        return (random.pick(&[0, 48, 58, 112, 255]), random.between(1, MAX_CLASS_LENGTH));
    }
    let (id, length) = random.pick(&entries);
    let past = layout.ids[layout.count.min(layout.ids.len() - 1)];
    let any = random.byte();
    let near = [
        (85, id),
        (4, id.wrapping_add(1)),
        (4, id.wrapping_sub(1)),
        (3, past),
        (2, any),
        (1, 0),
        (1, 255),
    ];
    (random.weighted(&near), length.into())
}

/// A place for `size` bytes: inside, at and across the ends of blocks and of the class, past them,
/// and far away.
fn offset(random: &mut Random, size: usize, length: usize) -> u16 {
    let any = random.below(length);
    let inside = any / BLOCK_LENGTH * BLOCK_LENGTH + random.below(BLOCK_LENGTH + 1 - size);
    let block_end = (any / BLOCK_LENGTH + 1) * BLOCK_LENGTH;
    let across = block_end - random.between(1, size);
    let far = random.below(1 << 16);
    let place = random.weighted(&[
        (40, inside),
        (6, 0),
        (10, length.saturating_sub(size)),
        (3, (length + 1).saturating_sub(size)),
        (2, length - 1),
        (2, length),
        (1, length + 1),
        (12, block_end - size),
        (16, across),
        (2, block_end),
        (2, any),
        // alike in their low bits, or with a block number that is
        (2, inside + 256),
        (2, inside + 256 * BLOCK_LENGTH),
        (2, (1 << 16) - size),
        (1, (1 << 16) - 1),
        (1, far),
    ]);
    u16::try_from(place).unwrap_or(u16::MAX)
}

/// Lowest and highest value: in about one case of six a pair that is no range of the kind.
fn range(random: &mut Random, kind: u8) -> (i64, i64) {
    let (low, high) = ends(kind);
    let (one, other) = (between(random, low, high), between(random, low, high));
    let (a, b) = (one.min(other), one.max(other));
    let beyond = numbers(kind);
    random.weighted(&[
        (25, (low, high)),
        (25, (a, b)),
        (10, (a, a)),
        (5, (low, low)),
        (5, (high, high)),
        (5, (low, b)),
        (5, (a, high)),
        // no ranges
        (2, (low - 1, high)),
        (2, (low, high + 1)),
        (1, (low - 1, low - 1)),
        (1, (high + 1, high + 1)),
        (2, (a + 1, a)),
        (1, (high, low)),
        (1, (i64::MIN, i64::MAX)),
        (1, (i64::MAX, i64::MIN)),
        (1, (i64::MIN, high)),
        (1, (low, i64::MAX)),
        (1, (a + beyond, b + beyond)),
        (1, (a - beyond, b - beyond)),
        // that of the other sign
        (2, ends(kind ^ SIGNED)),
    ])
}

/// A value for a row: inside its range, at its ends and those of its kind, just outside, and far
/// away.
pub fn value(random: &mut Random, row: &Parameter) -> i64 {
    let (low, high) = ends(row.kind);
    let inside = if row.min <= row.max { between(random, row.min, row.max) } else { row.max };
    let any = random.number() as i64;
    random.weighted(&[
        (40, inside),
        (10, row.min),
        (10, row.max),
        (4, row.min.saturating_sub(1)),
        (4, row.max.saturating_add(1)),
        (2, low),
        (2, high),
        (2, low - 1),
        (2, high + 1),
        // alike in their low bits
        (2, inside.wrapping_add(numbers(row.kind))),
        (2, inside.wrapping_sub(numbers(row.kind))),
        (1, inside.wrapping_add(1 << 32)),
        (1, 0),
        (1, -1),
        (1, i64::MIN),
        (1, i64::MAX),
        (1, any),
    ])
}

/// A number from `low` to `high`, both included.
pub fn between(random: &mut Random, low: i64, high: i64) -> i64 {
    let span = high.wrapping_sub(low) as u64;
    let step = if span == u64::MAX { random.number() } else { random.number() % (span + 1) };
    low.wrapping_add(step as i64)
}
