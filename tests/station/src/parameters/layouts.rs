//! Layouts with their images: valid ones, and those that break one rule and are right otherwise.

use crate::station::Layout;
use generator::flash::{self, Class, Flash};
use generator::random::Random;
use model::layout::{INFO_CLASS, INFO_LENGTH, KEY_CLASS, KEY_CLASS_MIN_LENGTH};
use model::layout::{MAX_CLASSES, MAX_CLASS_LENGTH, MAX_IMAGE_LENGTH};

pub struct Device {
    pub layout: Layout,
    pub image: Vec<u8>,
}

/// Layout and image of a flash, whatever the layout's rules say, with junk in the entries past its
/// last class.
fn device(random: &mut Random, flash: &Flash) -> Device {
    let mut layout =
        Layout { count: flash.classes.len(), ids: [0; MAX_CLASSES], lengths: [0; MAX_CLASSES] };
    for (place, class) in flash.classes.iter().enumerate() {
        layout.ids[place] = class.id;
        layout.lengths[place] = class.bytes.len() as u16;
    }
    fill_with_junk(random, &mut layout);
    let image = flash.classes.iter().flat_map(|class| class.bytes.iter().copied()).collect();
    Device { layout, image }
}

/// Zeros, ones, noise, or classes that would go on from the last one.
fn fill_with_junk(random: &mut Random, layout: &mut Layout) {
    let kind = random.below(4);
    for place in layout.count..MAX_CLASSES {
        let next_id = layout.ids[place - 1].wrapping_add(1);
        (layout.ids[place], layout.lengths[place]) = match kind {
            0 => (0, 0),
            1 => (u8::MAX, u16::MAX),
            2 => (random.byte(), random.number() as u16),
            _ => (next_id, random.between(1, 40) as u16),
        };
    }
}

pub fn valid(random: &mut Random) -> Device {
    let flash = flash::any(random);
    device(random, &flash)
}

/// Class 48 of 64 bytes beside the two that must be there, all of it zero.
pub fn plain(random: &mut Random) -> Device {
    let lengths = [(48, 64), (INFO_CLASS, INFO_LENGTH), (KEY_CLASS, KEY_CLASS_MIN_LENGTH)];
    let classes = lengths.map(|(id, length)| Class { id, bytes: vec![0; length] });
    device(random, &Flash { classes: classes.to_vec() })
}

/// Class 48 of so many bytes before the two that must be there, with any bytes.
pub fn with_first_class_of(random: &mut Random, length: usize) -> Device {
    let lengths = [(48, length), (INFO_CLASS, INFO_LENGTH), (KEY_CLASS, KEY_CLASS_MIN_LENGTH)];
    let classes = lengths
        .map(|(id, length)| Class { id, bytes: (0..length).map(|_| random.byte()).collect() });
    device(random, &Flash { classes: classes.to_vec() })
}

/// The image as it was, or none at all.
pub fn no_class(random: &mut Random) -> Device {
    let mut device = valid(random);
    device.layout.count = 0;
    if random.chance(50) {
        device.image.clear();
    }
    device
}

/// Some of these counts are right in their low bytes.
pub fn count_above_32(random: &mut Random) -> Device {
    let mut device = valid(random);
    let right = device.layout.count;
    device.layout.count = random.pick(&[
        33,
        34,
        64,
        255,
        256 + right,
        65_536 + right,
        (1 << 32) + right,
        (1 << 63) + right,
        usize::MAX,
    ]);
    device
}

pub fn one_class_less(random: &mut Random) -> Device {
    let mut device = valid(random);
    device.layout.count -= 1;
    device
}

/// The next entry is junk, or there is none.
pub fn one_class_more(random: &mut Random) -> Device {
    let mut device = valid(random);
    device.layout.count += 1;
    device
}

pub fn classes_swapped(random: &mut Random) -> Device {
    let mut flash = flash::any(random);
    let place = random.below(flash.classes.len() - 1);
    flash.classes.swap(place, place + 1);
    device(random, &flash)
}

/// One class twice, in a flash that has room for it.
pub fn class_doubled(random: &mut Random) -> Device {
    let mut flash = flash::any(random);
    while flash.classes.len() == MAX_CLASSES {
        flash = flash::any(random);
    }
    let place = random.below(flash.classes.len());
    let again = flash.classes[place].clone();
    flash.classes.insert(place, again);
    device(random, &flash)
}

/// A valid flash with a class that need not be there made longer or shorter.
fn with_a_class_of(random: &mut Random, length: usize) -> Device {
    let mut flash = flash::any(random);
    while flash.classes.len() == 2 {
        flash = flash::any(random);
    }
    let free: Vec<u8> = flash
        .classes
        .iter()
        .map(|class| class.id)
        .filter(|id| ![INFO_CLASS, KEY_CLASS].contains(id))
        .collect();
    let id = random.pick(&free);
    flash.class(id).bytes.resize(length, 0);
    device(random, &flash)
}

pub fn class_of_0(random: &mut Random) -> Device {
    with_a_class_of(random, 0)
}

pub fn class_of_513(random: &mut Random) -> Device {
    with_a_class_of(random, MAX_CLASS_LENGTH + 1)
}

/// A length that the image does not have: the longest one, or one that is right in its low bits.
pub fn class_of_far_too_many(random: &mut Random) -> Device {
    let mut device = valid(random);
    let place = random.below(device.layout.count);
    let right = device.layout.lengths[place];
    device.layout.lengths[place] =
        random.pick(&[u16::MAX, right | 0x8000, right + 4_096, right + 1_024]);
    device
}

/// A valid flash with the class of the given number resized, or left out for length 0.
fn with_length(random: &mut Random, id: u8, length: usize) -> Device {
    let mut flash = flash::any(random);
    if length == 0 {
        flash.classes.retain(|class| class.id != id);
    } else {
        flash.class(id).bytes.resize(length, 0);
    }
    device(random, &flash)
}

pub fn no_info_class(random: &mut Random) -> Device {
    with_length(random, INFO_CLASS, 0)
}

pub fn info_class_of_95(random: &mut Random) -> Device {
    with_length(random, INFO_CLASS, 95)
}

pub fn info_class_of_97(random: &mut Random) -> Device {
    with_length(random, INFO_CLASS, 97)
}

pub fn no_key_class(random: &mut Random) -> Device {
    with_length(random, KEY_CLASS, 0)
}

pub fn key_class_of_27(random: &mut Random) -> Device {
    with_length(random, KEY_CLASS, 27)
}

/// One byte more than fits.
pub fn bytes_4097(random: &mut Random) -> Device {
    let mut flash = flash::full(random);
    let growing = flash
        .classes
        .iter_mut()
        .find(|class| class.id != INFO_CLASS && class.bytes.len() < MAX_CLASS_LENGTH);
    growing.expect("not every class of a full flash is a longest one").bytes.push(0);
    assert_eq!(flash.length(), MAX_IMAGE_LENGTH + 1);
    device(random, &flash)
}

pub fn image_too_short(random: &mut Random) -> Device {
    let mut device = valid(random);
    device.image.pop();
    device
}

pub fn image_too_long(random: &mut Random) -> Device {
    let mut device = valid(random);
    device.image.push(0);
    device
}

pub fn image_empty(random: &mut Random) -> Device {
    Device { image: Vec::new(), ..valid(random) }
}
