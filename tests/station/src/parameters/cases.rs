//! The table of all kinds of cases, and the case of each number.

use super::layouts::{self, Device};
use super::rows::{self, row, size, value};
use crate::station::Layout;
use generator::random::Random;
use model::parameter::Parameter;
use std::ops::Range;

pub struct Case {
    pub device: Device,
    pub parameter: Parameter,
    pub value: i64,
}

pub struct Kind {
    pub name: &'static str,
    /// So many of every `total_weight()` cases are of this kind.
    weight: usize,
    /// What the model must say of layout and image: a check of the generator, and of the model.
    pub is_valid: bool,
    make: fn(&mut Random) -> Case,
}

const fn kind(
    weight: usize,
    name: &'static str,
    is_valid: bool,
    make: fn(&mut Random) -> Case,
) -> Kind {
    Kind { name, weight, is_valid, make }
}

pub const KINDS: &[Kind] = &[
    kind(71, "valid", true, |r| on(r, layouts::valid)),
    kind(8, "across a block's end", true, across),
    kind(1, "P11", true, p11),
    kind(1, "P12", true, p12),
    kind(1, "no class", false, |r| on(r, layouts::no_class)),
    kind(2, "count above 32", false, |r| on(r, layouts::count_above_32)),
    kind(1, "one class less", false, |r| on(r, layouts::one_class_less)),
    kind(1, "one class more", false, |r| on(r, layouts::one_class_more)),
    kind(1, "classes swapped", false, |r| on(r, layouts::classes_swapped)),
    kind(1, "class doubled", false, |r| on(r, layouts::class_doubled)),
    kind(1, "class of 0", false, |r| on(r, layouts::class_of_0)),
    kind(1, "class of 513", false, |r| on(r, layouts::class_of_513)),
    kind(1, "class of far too many", false, |r| on(r, layouts::class_of_far_too_many)),
    kind(1, "no class 58", false, |r| on(r, layouts::no_info_class)),
    kind(1, "class 58 of 95", false, |r| on(r, layouts::info_class_of_95)),
    kind(1, "class 58 of 97", false, |r| on(r, layouts::info_class_of_97)),
    kind(1, "no class 112", false, |r| on(r, layouts::no_key_class)),
    kind(1, "class 112 of 27", false, |r| on(r, layouts::key_class_of_27)),
    kind(1, "4097 bytes", false, |r| on(r, layouts::bytes_4097)),
    kind(1, "image too short", false, |r| on(r, layouts::image_too_short)),
    kind(1, "image too long", false, |r| on(r, layouts::image_too_long)),
    kind(1, "image empty", false, |r| on(r, layouts::image_empty)),
];

fn total_weight() -> usize {
    KINDS.iter().map(|kind| kind.weight).sum()
}

/// The place in the table of the kind of case `number`: every `total_weight()` cases go once
/// through the table.
pub fn kind_of(number: usize) -> usize {
    let mut rest = number % total_weight();
    for (place, kind) in KINDS.iter().enumerate() {
        if rest < kind.weight {
            return place;
        }
        rest -= kind.weight;
    }
    unreachable!("the rest is below the sum of the weights")
}

/// The case of this number. It depends on the seed and the number alone.
pub fn case(seed: u64, number: usize) -> Case {
    (KINDS[kind_of(number)].make)(&mut Random::new(seed, number as u64))
}

/// Any row and any value. In half of the cases such a value stands at the row's place already, now
/// and then the same one.
fn on(random: &mut Random, make: fn(&mut Random) -> Device) -> Case {
    let mut device = make(random);
    let parameter = row(random, &device.layout);
    let mut new = value(random, &parameter);
    if random.chance(50) {
        let old = value(random, &parameter);
        put(&mut device, &parameter, old);
        if random.chance(10) {
            new = old;
        }
    }
    Case { device, parameter, value: new }
}

/// A row across a block's end, and a value in its range.
fn across(random: &mut Random) -> Case {
    let mut device = layouts::valid(random);
    let (parameter, old, new) = rows::across(random, &device.layout);
    put(&mut device, &parameter, old);
    Case { device, parameter, value: new }
}

/// Where the row's bytes would be in the image, wherever that is.
pub fn place(layout: &Layout, parameter: &Parameter) -> Range<usize> {
    let before = layout.entries().take_while(|entry| entry.0 != parameter.class);
    let start =
        before.map(|entry| usize::from(entry.1)).sum::<usize>() + usize::from(parameter.offset);
    start..start + size(parameter.kind)
}

/// Puts the low bytes of a value at the row's place, if there are such bytes.
fn put(device: &mut Device, parameter: &Parameter, value: i64) {
    if let Some(bytes) = device.image.get_mut(place(&device.layout, parameter)) {
        bytes.copy_from_slice(&value.to_be_bytes()[8 - bytes.len()..]);
    }
}

/// "two bytes at offset 31: 12; at 30: accepted"; C-17: "offset 31 is accepted where the class goes
/// on". The class has 64 bytes.
fn p11(random: &mut Random) -> Case {
    let kind = random.pick(&[0x02, 0x82]);
    let offset = random.pick(&[30, 31, 62, 63]);
    let parameter = Parameter { class: 48, offset, kind, min: 0, max: 1_000 };
    Case { device: layouts::plain(random), parameter, value: 258 }
}

/// "signed byte -128 is 80"
fn p12(random: &mut Random) -> Case {
    let parameter =
        Parameter { class: 48, offset: random.below(64) as u16, kind: 0x81, min: -128, max: 127 };
    Case { device: layouts::plain(random), parameter, value: -128 }
}
