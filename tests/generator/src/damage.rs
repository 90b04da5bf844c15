//! Texts spoilt by a character or a line: for image files and scripts alike.

use crate::random::Random;

pub type Damage = fn(&mut Random, &[u8]) -> Vec<u8>;

/// A text with the bytes from `start` to `end` replaced.
fn replaced(text: &[u8], start: usize, end: usize, with: &[u8]) -> Vec<u8> {
    [&text[..start], with, &text[end..]].concat()
}

fn any_place(random: &mut Random, text: &[u8]) -> usize {
    random.below(text.len())
}

/// The place of any line feed.
fn any_line_end(random: &mut Random, text: &[u8]) -> usize {
    let ends: Vec<usize> = (0..text.len()).filter(|&place| text[place] == b'\n').collect();
    random.pick(&ends)
}

/// The place of any digit.
fn any_digit(random: &mut Random, text: &[u8]) -> usize {
    let digits: Vec<usize> = (0..text.len()).filter(|&place| text[place] != b'\n').collect();
    random.pick(&digits)
}

pub fn lines(text: &[u8]) -> Vec<&[u8]> {
    text.split_inclusive(|&c| c == b'\n').collect()
}

/// Another digit in place of a digit.
pub fn digit_changed(random: &mut Random, text: &[u8]) -> Vec<u8> {
    let place = any_digit(random, text);
    let digit = random.pick(b"0123456789ABCDEF");
    replaced(text, place, place + 1, &[digit])
}

/// Anything in place of a digit, mostly a neighbour of the digits.
pub fn no_digit(random: &mut Random, text: &[u8]) -> Vec<u8> {
    let place = any_digit(random, text);
    let other = random.pick(b"/:@Gafg`xX \t\r-+.\0\x7F\x80\xFF");
    replaced(text, place, place + 1, &[other])
}

pub fn nul(random: &mut Random, text: &[u8]) -> Vec<u8> {
    let place = any_digit(random, text);
    if random.chance(50) {
        replaced(text, place, place + 1, b"\0")
    } else {
        [text, b"\0"].concat()
    }
}

/// A byte that is no ASCII: a digit with its top bit set.
pub fn high_bit(random: &mut Random, text: &[u8]) -> Vec<u8> {
    let place = any_place(random, text);
    replaced(text, place, place + 1, &[text[place] | 0x80])
}

pub fn digit_removed(random: &mut Random, text: &[u8]) -> Vec<u8> {
    let place = any_digit(random, text);
    replaced(text, place, place + 1, b"")
}

pub fn digit_added(random: &mut Random, text: &[u8]) -> Vec<u8> {
    let place = any_place(random, text);
    let digit = random.pick(b"0123456789ABCDEF");
    replaced(text, place, place, &[digit])
}

/// A line feed removed: two lines become one.
pub fn lines_joined(random: &mut Random, text: &[u8]) -> Vec<u8> {
    let place = any_line_end(random, text);
    replaced(text, place, place + 1, b"")
}

pub fn line_broken(random: &mut Random, text: &[u8]) -> Vec<u8> {
    let place = any_digit(random, text);
    replaced(text, place, place, b"\n")
}

/// All digits, or one of them, in lower case. Without a letter in the text, one is put in.
pub fn lower_case(random: &mut Random, text: &[u8]) -> Vec<u8> {
    let letters: Vec<usize> =
        (0..text.len()).filter(|&place| text[place].is_ascii_uppercase()).collect();
    if letters.is_empty() {
        let place = any_digit(random, text);
        return replaced(text, place, place + 1, b"a");
    }
    if random.chance(30) {
        return text.to_ascii_lowercase();
    }
    let place = random.pick(&letters);
    replaced(text, place, place + 1, &[text[place].to_ascii_lowercase()])
}

pub fn carriage_returns(random: &mut Random, text: &[u8]) -> Vec<u8> {
    if random.chance(40) {
        return lines(text)
            .iter()
            .flat_map(|line| [&line[..line.len() - 1], b"\r\n"].concat())
            .collect();
    }
    let place = any_line_end(random, text);
    let instead = random.pick(&[&b"\r\n"[..], b"\r", b"\n\r"]);
    replaced(text, place, place + 1, instead)
}

/// A blank or a tab: at an end of a line, or anywhere.
pub fn blank(random: &mut Random, text: &[u8]) -> Vec<u8> {
    let place = match random.below(3) {
        0 => any_line_end(random, text),
        1 => any_line_end(random, text) + 1,
        _ => any_place(random, text),
    };
    let blank = random.pick(&[&b" "[..], b"\t", b"  "]);
    replaced(text, place, place, blank)
}

pub fn no_last_line_feed(_: &mut Random, text: &[u8]) -> Vec<u8> {
    text[..text.len() - 1].to_vec()
}

/// An empty line: first, last or in between.
pub fn empty_line(random: &mut Random, text: &[u8]) -> Vec<u8> {
    let between = any_line_end(random, text) + 1;
    let place = random.pick(&[0, text.len(), between]);
    replaced(text, place, place, b"\n")
}

pub fn byte_order_mark(_: &mut Random, text: &[u8]) -> Vec<u8> {
    [b"\xEF\xBB\xBF", text].concat()
}

/// Cut anywhere, sometimes at the end of a line.
pub fn truncated(random: &mut Random, text: &[u8]) -> Vec<u8> {
    let end =
        if random.chance(20) { any_line_end(random, text) + 1 } else { any_place(random, text) };
    text[..end].to_vec()
}

pub fn lines_swapped(random: &mut Random, text: &[u8]) -> Vec<u8> {
    let mut lines = lines(text);
    let (a, b) = (random.below(lines.len()), random.below(lines.len()));
    lines.swap(a, b);
    lines.concat()
}

pub fn line_doubled(random: &mut Random, text: &[u8]) -> Vec<u8> {
    let mut lines = lines(text);
    let place = random.below(lines.len());
    lines.insert(place, lines[place]);
    lines.concat()
}

pub fn line_removed(random: &mut Random, text: &[u8]) -> Vec<u8> {
    let mut lines = lines(text);
    let place = random.below(lines.len());
    lines.remove(place);
    lines.concat()
}

/// One more line, which is not a good one, at the very end.
pub fn bad_last_line(random: &mut Random, text: &[u8]) -> Vec<u8> {
    let line = random.pick(&[
        &b"0\n"[..],
        b"\n",
        b"0a\n",
        b"0",
        b"02\n",
        b"01\n",
        b"000\n",
        b"\0",
        b" \n",
        b"\xFF\n",
        b"\x1A",
    ]);
    [text, line].concat()
}

/// 100,000 digits without a line feed.
pub fn only_digits(random: &mut Random) -> Vec<u8> {
    (0..100_000).map(|_| random.pick(b"0123456789ABCDEF")).collect()
}

/// A million random bytes.
pub fn only_noise(random: &mut Random) -> Vec<u8> {
    random.bytes(1_000_000)
}
