//! Scripts with one frame that is none.

use crate::good::{self, PIECE};
use generator::flash::Flash;
use generator::random::Random;

/// A good script with one line put in: first, last or in between.
fn with_line(random: &mut Random, flash: &Flash, line: &[u8]) -> Vec<u8> {
    let text = good::mixed(random, flash);
    let mut lines: Vec<&[u8]> = text.split_inclusive(|&c| c == b'\n').collect();
    let any = random.below(lines.len());
    let place = random.pick(&[0, lines.len(), any]);
    lines.insert(place, line);
    lines.concat()
}

fn digits(random: &mut Random, bytes: usize) -> String {
    (0..bytes).map(|_| format!("{:02X}", random.byte())).collect()
}

/// A frame that is neither a write nor a read nor a supply.
pub fn unknown_type(random: &mut Random, flash: &Flash) -> Vec<u8> {
    let any = random.byte().max(3);
    let kind = random.pick(&[3, 3, 3, 4, 0x10, 0x11, 0x12, 0x20, 0x80, 0xFF, any]);
    let count = random.pick(&[0, 1, 2, 2, 2, 3, 4]);
    let rest = digits(random, count);
    with_line(random, flash, format!("{kind:02X}{rest}\n").as_bytes())
}

/// A frame of this type that has not two bytes behind it.
fn not_three_bytes(random: &mut Random, flash: &Flash, kind: &str) -> Vec<u8> {
    let count = random.pick(&[0, 1, 1, 3, 3, 4, 255, 256]);
    let rest = digits(random, count);
    with_line(random, flash, format!("{kind}{rest}\n").as_bytes())
}

/// A read without a count, or with a byte after it.
pub fn read_length(random: &mut Random, flash: &Flash) -> Vec<u8> {
    not_three_bytes(random, flash, "00")
}

/// A supply with a byte too few, or too many.
pub fn supply_length(random: &mut Random, flash: &Flash) -> Vec<u8> {
    not_three_bytes(random, flash, "02")
}

/// A write without a register.
pub fn lone_write(random: &mut Random, flash: &Flash) -> Vec<u8> {
    with_line(random, flash, b"01\n")
}

/// A write of 256 data bytes and more.
pub fn write_too_long(random: &mut Random, flash: &Flash) -> Vec<u8> {
    let count = random.pick(&[256, 256, 256, 256, 257, 300, 512, 5_000, 70_000]);
    let rest = digits(random, 1 + count);
    with_line(random, flash, format!("01{rest}\n").as_bytes())
}

/// An odd number of digits.
pub fn odd_digits(random: &mut Random, flash: &Flash) -> Vec<u8> {
    let line = random.pick(&[
        &b"0\n"[..],
        b"1\n",
        b"010\n",
        b"00000\n",
        b"01400\n",
        b"0140000\n",
        b"020A8\n",
    ]);
    with_line(random, flash, line)
}

/// A long script whose last line alone is bad.
pub fn late_bad_line(random: &mut Random, flash: &Flash) -> Vec<u8> {
    let mut text = good::long(random, flash);
    let line = random.pick(&[
        &b"0\n"[..],
        b"\n",
        b"0140\r\n",
        b"024001FF\n",
        b"0240\n",
        b"034001\n",
        b"0140",
        b"014a\n",
        b"01\n",
        b"0040\n",
    ]);
    text.extend_from_slice(line);
    text
}

/// A script with a line cut by a multiple of `PIECE`, and a character beside that cut that is no
/// digit.
pub fn bad_beside_a_cut(random: &mut Random, flash: &Flash, ordinal: usize) -> Vec<u8> {
    let mut text = good::straddling(random, flash, ordinal);
    let place = PIECE * random.between(1, 8) + random.below(4) - 2;
    text[place] = random.pick(b" \rag\0\xFF");
    text
}
