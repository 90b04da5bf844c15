//! Image files that break one rule of the layout or of the lines, and are right otherwise.

use crate::damage;
use crate::flash::{self, line, Class, Flash};
use crate::random::Random;
use model::layout::{INFO_CLASS, KEY_CLASS, MAX_CLASS_LENGTH, MAX_IMAGE_LENGTH};
use model::text::push_byte;

/// A valid flash with the class of the given number replaced by bytes of another length, or left
/// out for length 0.
fn with_length(random: &mut Random, id: u8, length: usize) -> Vec<u8> {
    let mut flash = flash::any(random);
    if length == 0 {
        flash.classes.retain(|class| class.id != id);
    } else {
        flash.class(id).bytes.resize(length, 0);
    }
    flash.text()
}

pub fn no_info_class(random: &mut Random) -> Vec<u8> {
    with_length(random, INFO_CLASS, 0)
}

pub fn info_class_of_95(random: &mut Random) -> Vec<u8> {
    with_length(random, INFO_CLASS, 95)
}

pub fn info_class_of_97(random: &mut Random) -> Vec<u8> {
    with_length(random, INFO_CLASS, 97)
}

pub fn no_key_class(random: &mut Random) -> Vec<u8> {
    with_length(random, KEY_CLASS, 0)
}

pub fn key_class_of_27(random: &mut Random) -> Vec<u8> {
    with_length(random, KEY_CLASS, 27)
}

/// A class of 513 bytes: block 16 has one.
pub fn class_of_513(random: &mut Random) -> Vec<u8> {
    let mut flash = flash::any(random);
    flash.classes.retain(|class| [INFO_CLASS, KEY_CLASS].contains(&class.id));
    let id = random.pick(&[0, 48, 200, KEY_CLASS]);
    let bytes = random.bytes(MAX_CLASS_LENGTH + 1);
    flash.classes.retain(|class| class.id != id);
    flash.classes.push(Class { id, bytes });
    flash.classes.sort_by_key(|class| class.id);
    flash.text()
}

/// 33 classes, 4,096 bytes together at most.
pub fn classes_33(random: &mut Random) -> Vec<u8> {
    let mut flash = flash::any(random);
    flash.classes.retain(|class| [INFO_CLASS, KEY_CLASS].contains(&class.id));
    while flash.classes.len() < 33 {
        let id = random.byte();
        if flash.classes.iter().all(|class| class.id != id) {
            let length = random.between(1, 40);
            flash.classes.push(Class { id, bytes: random.bytes(length) });
        }
    }
    flash.classes.sort_by_key(|class| class.id);
    flash.text()
}

/// One byte more than fits.
pub fn bytes_4097(random: &mut Random) -> Vec<u8> {
    let mut flash = flash::full(random);
    assert_eq!(flash.length(), MAX_IMAGE_LENGTH);
    let growing = flash
        .classes
        .iter_mut()
        .find(|class| class.id != INFO_CLASS && class.bytes.len() < MAX_CLASS_LENGTH);
    growing.expect("not every class of a full flash is a longest one").bytes.push(0);
    flash.text()
}

/// Two classes in the wrong order, or the same class twice.
pub fn class_order(random: &mut Random) -> Vec<u8> {
    let mut flash = flash::any(random);
    let last = flash.classes.len() - 1;
    let place = random.below(last);
    if random.chance(70) {
        flash.classes.swap(place, place + 1);
    } else {
        let again = flash.classes[place].clone();
        flash.classes.insert(place + 1, again);
    }
    flash.text()
}

pub fn wrong_checksum(random: &mut Random) -> Vec<u8> {
    let text = flash::any(random).text();
    let mut lines = damage::lines(&text);
    let place = random.below(lines.len());
    let line = lines[place];
    let digits = std::str::from_utf8(&line[line.len() - 3..line.len() - 1]).expect("two digits");
    let right = u8::from_str_radix(digits, 16).expect("two digits");
    let mut wrong = line[..line.len() - 3].to_vec();
    let other = random.pick(&[right.wrapping_add(1), right.wrapping_sub(1), !right, right ^ 0x80]);
    push_byte(&mut wrong, other);
    wrong.push(b'\n');
    lines[place] = &wrong;
    lines.concat()
}

/// The text of a flash with the lines of one class replaced.
fn with_lines(flash: &Flash, id: u8, lines: &[Vec<u8>]) -> Vec<u8> {
    let parts = flash.classes.iter().map(|class| {
        if class.id == id {
            lines.concat()
        } else {
            flash::class_text(class)
        }
    });
    parts.collect::<Vec<_>>().concat()
}

/// Block numbers that do not run 0, 1, 2.
pub fn block_numbers(random: &mut Random) -> Vec<u8> {
    let numbers = random.pick(&[
        [0, 2, 3],
        [0, 1, 3],
        [1, 2, 3],
        [0, 2, 1],
        [0, 0, 1],
        [0, 1, 1],
        [0, 1, 255],
        [2, 1, 0],
    ]);
    let lines = numbers.map(|number| line(INFO_CLASS, number, &[number; 32]));
    with_lines(&flash::any(random), INFO_CLASS, &lines)
}

/// A first block that is not number 0; the blocks after it are numbered as they should be.
pub fn first_block_number(random: &mut Random) -> Vec<u8> {
    let text = flash::any(random).text();
    let mut lines = damage::lines(&text);
    let firsts: Vec<usize> =
        (0..lines.len()).filter(|&place| &lines[place][2..4] == b"00").collect();
    let place = random.pick(&firsts);
    let number = random.pick(&[&b"01"[..], b"02", b"10", b"FF"]);
    let changed = [&lines[place][..2], number, &lines[place][4..]].concat();
    lines[place] = &changed;
    lines.concat()
}

/// A short block that is not the last of its class; 96 bytes all the same.
pub fn short_block_inside(random: &mut Random) -> Vec<u8> {
    let lengths =
        random.pick(&[[31, 32, 32, 1], [32, 31, 32, 1], [32, 32, 31, 1], [1, 32, 32, 31]]);
    let lines = [0, 1, 2, 3]
        .map(|block| line(INFO_CLASS, block, &vec![block; lengths[usize::from(block)]]));
    with_lines(&flash::any(random), INFO_CLASS, &lines)
}

/// A last line of more than 32 data bytes, 33 mostly, in a class of good length.
pub fn long_block(random: &mut Random) -> Vec<u8> {
    let mut flash = flash::any(random);
    if random.chance(30) {
        return with_lines(
            &flash,
            INFO_CLASS,
            &[line(INFO_CLASS, 0, &[0; 32]), line(INFO_CLASS, 1, &[0; 64])],
        );
    }
    let length = random.pick(&[33, 33, 33, 34, 64]);
    flash.class(KEY_CLASS).bytes.resize(length, 0);
    let lines = [line(KEY_CLASS, 0, &flash.class(KEY_CLASS).bytes)];
    with_lines(&flash, KEY_CLASS, &lines)
}

/// A line without data: as a class of its own, after a full class, or as the whole file.
pub fn line_without_data(random: &mut Random) -> Vec<u8> {
    let text = flash::any(random).text();
    match random.below(4) {
        0 => line(INFO_CLASS, 0, &[]),
        1 => [line(0, 0, &[]), text].concat(),
        2 => [text, line(255, 0, &[])].concat(),
        _ => {
            let mut lines = [0, 1, 2].map(|block| line(INFO_CLASS, block, &[block; 32])).to_vec();
            lines.push(line(INFO_CLASS, 3, &[]));
            with_lines(&flash::any(random), INFO_CLASS, &lines)
        }
    }
}

/// Lines that are too short to have a class, a block and a checksum.
pub fn short_line(random: &mut Random) -> Vec<u8> {
    let text = flash::any(random).text();
    let line = random.pick(&[&b"00\n"[..], b"0000\n", b"FF\n", b"FF00\n"]);
    if random.chance(50) {
        [line, &text[..]].concat()
    } else {
        [&text[..], line].concat()
    }
}

/// A valid text, then far more good-looking lines than any image has.
pub fn far_too_long(random: &mut Random) -> Vec<u8> {
    let mut text = flash::any(random).text();
    let data = random.bytes(32);
    for block in 0..3_000u32 {
        text.extend(line(255, block as u8, &data));
    }
    text
}
