//! Good scripts: one function a kind.

use crate::draft::Draft;
use crate::moves::{self, play, step, Moves};
use crate::moves::{INFO, KEYS, KEY_BLOCKS, REKEY, SPANS, SUPPLY, TRANSFER, WORDS};
use generator::flash::Flash;
use generator::random::Random;
use model::layout::checksum;

/// The sizes at which a program that reads in pieces is likely to cut; smaller powers of two divide
/// it.
pub const PIECE: usize = 65_536;

/// All that a script can do.
const ALL: &[&Moves] = &[WORDS, KEYS, TRANSFER, TRANSFER, INFO, SPANS, REKEY, SUPPLY];

/// Moves of these tables from power-on.
pub fn from_power_on(
    random: &mut Random,
    flash: &Flash,
    tables: &[&Moves],
    lines: usize,
) -> Vec<u8> {
    let mut draft = Draft::new(random, flash);
    play(&mut draft, tables, lines);
    draft.text
}

pub fn one_line(random: &mut Random, flash: &Flash) -> Vec<u8> {
    let mut draft = Draft::new(random, flash);
    step(&mut draft, &[SPANS]);
    draft.text
}

pub fn sealed(random: &mut Random, flash: &Flash) -> Vec<u8> {
    let lines = random.between(20, 200);
    from_power_on(random, flash, &[INFO, INFO, INFO, SPANS], lines)
}

pub fn keys(random: &mut Random, flash: &Flash) -> Vec<u8> {
    let lines = random.between(20, 200);
    from_power_on(random, flash, &[KEYS, KEYS, WORDS], lines)
}

pub fn rekey(random: &mut Random, flash: &Flash) -> Vec<u8> {
    let lines = random.between(20, 150);
    from_power_on(random, flash, &[REKEY], lines)
}

pub fn key_blocks(random: &mut Random, flash: &Flash) -> Vec<u8> {
    let lines = random.between(20, 150);
    from_power_on(random, flash, &[KEY_BLOCKS], lines)
}

pub fn supply(random: &mut Random, flash: &Flash) -> Vec<u8> {
    let lines = random.between(20, 200);
    from_power_on(random, flash, &[SUPPLY, SUPPLY, SUPPLY, KEYS, TRANSFER, INFO], lines)
}

pub fn spans(random: &mut Random, flash: &Flash) -> Vec<u8> {
    let lines = random.between(20, 200);
    from_power_on(random, flash, &[SPANS, SPANS, TRANSFER, INFO], lines)
}

pub fn mixed(random: &mut Random, flash: &Flash) -> Vec<u8> {
    let lines = random.pick(&[2, 5, 20, 100, 300]);
    from_power_on(random, flash, ALL, lines)
}

/// Unsealed, BlockDataControl 0.
pub fn general(random: &mut Random, flash: &Flash) -> Vec<u8> {
    let lines = random.between(20, 300);
    let mut draft = Draft::new(random, flash);
    draft.open_with_control(0);
    if draft.random.chance(30) {
        moves::full_access(&mut draft);
    }
    play(&mut draft, &[TRANSFER], lines);
    draft.text
}

/// Unsealed, BlockDataControl 1.
pub fn open_info(random: &mut Random, flash: &Flash) -> Vec<u8> {
    let lines = random.between(20, 200);
    let mut draft = Draft::new(random, flash);
    draft.open_with_control(1);
    play(&mut draft, &[INFO], lines);
    draft.text
}

/// A block loaded and edited while open, then the gauge sealed: nothing of it may show.
pub fn seal_after_loading(random: &mut Random, flash: &Flash) -> Vec<u8> {
    let mut draft = Draft::new(random, flash);
    for _ in 0..10 {
        draft.open_with_control(0);
        play(&mut draft, &[TRANSFER], 6);
        moves::seal(&mut draft);
        play(&mut draft, &[INFO, WORDS], 6);
    }
    draft.text
}

/// More bytes than one, two or sixteen pieces.
pub fn long(random: &mut Random, flash: &Flash) -> Vec<u8> {
    let length = random.pick(&[1, 1, 2, 2, 16]) * PIECE + random.between(1, 5_000);
    let mut draft = Draft::new(random, flash);
    while draft.text.len() < length {
        step(&mut draft, ALL);
    }
    draft.text
}

/// Reads of all 128 registers: an output far longer than the script.
pub fn many_reads(random: &mut Random, flash: &Flash) -> Vec<u8> {
    let lines = random.pick(&[300, 600, 12_000]);
    let mut draft = Draft::new(random, flash);
    draft.open_with_control(0);
    for i in 0..lines {
        if i % 50 == 0 {
            play(&mut draft, &[TRANSFER], 3);
        }
        draft.read(0x00, 128);
    }
    draft.text
}

/// The name of the kind that `straddling` makes.
pub const STRADDLING: &str = "lines cut at 65,536";
/// How many multiples of `PIECE` a script of that kind goes over.
const CUTS: usize = 8;

/// Lines cut by a multiple of `PIECE` at every offset: each case takes the next few of all pairs of
/// a line and an offset.
pub fn straddling(random: &mut Random, flash: &Flash, ordinal: usize) -> Vec<u8> {
    let mut draft = Draft::new(random, flash);
    draft.open_with_control(0);
    for cut in 0..CUTS {
        let (length, offset) = cut_line(ordinal * CUTS + cut);
        fill_to(&mut draft, (cut + 1) * PIECE - offset);
        line_of_length(&mut draft, length);
        draft.read(0x00, 128);
    }
    draft.text
}

/// Ends at a multiple of 4,096, mostly at one of `PIECE`, or one character beside it.
pub fn ends_at_a_cut(random: &mut Random, flash: &Flash) -> Vec<u8> {
    let small = 4_096 * random.between(1, 8);
    let length = random.pick(&[PIECE, PIECE, 2 * PIECE, small]) + random.below(3) - 1;
    let mut draft = Draft::new(random, flash);
    draft.open_with_control(0);
    fill_to(&mut draft, length);
    draft.text
}

/// How many cases go through all pairs of a line and an offset.
pub fn straddling_cases() -> usize {
    cut_count().div_ceil(CUTS)
}

fn cut_count() -> usize {
    CUT_LENGTHS.iter().sum()
}

/// Lengths of the lines to be cut, line feed included: a write of nothing, a read, a word, 0x3E to
/// 0x61, 255 data bytes.
const CUT_LENGTHS: [usize; 5] = [5, 7, 9, 77, 515];

/// The line length and the offset in that line of one pair.
fn cut_line(number: usize) -> (usize, usize) {
    let mut offset = number % cut_count();
    for length in CUT_LENGTHS {
        if offset < length {
            return (length, offset);
        }
        offset -= length;
    }
    unreachable!("the offset is below the sum of the lengths")
}

fn line_of_length(draft: &mut Draft, length: usize) {
    match length {
        7 => draft.read(0x3E, 36),
        9 => draft.write(0x00, &[0, 0]),
        77 => {
            let class = draft.any_class();
            let window = draft.random.bytes(32);
            let bytes = [&[class, 0], &window[..], &[checksum(&window), 0]].concat();
            draft.write(0x3E, &bytes);
        }
        _ => write_of_length(draft, length),
    }
}

/// A write whose line has this odd length, 5 at least.
fn write_of_length(draft: &mut Draft, length: usize) {
    let register = draft.random.pick(&[0x00, 0x3F, 0x40, 0x50, 0x60, 0x62]);
    let bytes = draft.random.bytes((length - 5) / 2);
    draft.write(register, &bytes);
}

/// Moves, then writes that end the script at exactly this length. A line has an odd number of
/// characters, 5 at least.
fn fill_to(draft: &mut Draft, length: usize) {
    const LONGEST_MOVE: usize = 2_000;
    while draft.text.len() + LONGEST_MOVE < length {
        step(draft, &[TRANSFER]);
    }
    while length - draft.text.len() > 100 {
        let line = 5 + 2 * draft.random.below(40);
        write_of_length(draft, line);
    }
    if (length - draft.text.len()).is_multiple_of(2) {
        write_of_length(draft, 5);
    }
    write_of_length(draft, length - draft.text.len());
    assert_eq!(draft.text.len(), length, "no move is longer than assumed");
}
