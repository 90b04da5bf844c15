//! The station library's functions, as C has them, on bytes that are lent.

use crate::lent::Lent;
use model::layout::{Class, MAX_CLASSES};
use model::parameter::Parameter as Row;

/// Only the first `count` entries mean anything.
#[repr(C)]
#[derive(Clone, Copy)]
pub struct Layout {
    pub count: usize,
    pub ids: [u8; MAX_CLASSES],
    pub lengths: [u16; MAX_CLASSES],
}

impl Layout {
    /// Identifier and length of each class, as far as there are entries.
    pub fn entries(&self) -> impl Iterator<Item = (u8, u16)> + '_ {
        self.ids.iter().copied().zip(self.lengths).take(self.count)
    }

    /// The same layout for the model. A 33rd class has no entry, but whatever it was, the layout
    /// would break its rules.
    pub fn for_model(&self) -> model::layout::Layout {
        let entries = self.entries();
        let mut classes: Vec<Class> =
            entries.map(|(id, length)| Class { id, length: length.into() }).collect();
        if self.count > MAX_CLASSES {
            classes.push(Class { id: u8::MAX, length: 1 });
        }
        model::layout::Layout { classes }
    }
}

#[repr(C)]
struct Parameter {
    class: u8,
    offset: u16,
    kind: u8,
    min: i64,
    max: i64,
}

impl From<Row> for Parameter {
    fn from(row: Row) -> Parameter {
        let Row { class, offset, kind, min, max } = row;
        Parameter { class, offset, kind, min, max }
    }
}

#[repr(C)]
pub struct ParameterValue {
    pub error: u8,
    pub value: i64,
    /// A C bool, taken as a byte: anything but 0 and 1 is seen as well.
    pub in_range: u8,
}

extern "C" {
    fn oversnithe_checksum(bytes: *const u8, length: usize) -> u8;
    fn oversnithe_image_check(text: *const u8, length: usize) -> u8;
    fn oversnithe_parameter_get(
        layout: Layout,
        image: *const u8,
        length: usize,
        parameter: Parameter,
    ) -> ParameterValue;
    fn oversnithe_parameter_set(
        layout: Layout,
        image: *mut u8,
        length: usize,
        parameter: Parameter,
        value: i64,
    ) -> u8;
    fn oversnithe_parameter_set_lower(
        layout: Layout,
        image: *mut u8,
        length: usize,
        parameter: Parameter,
        value: i64,
    ) -> u8;
}

pub fn checksum(bytes: &Lent) -> u8 {
    // SAFETY: pointer and length are those of the lent bytes.
    unsafe { oversnithe_checksum(bytes.as_ptr(), bytes.len()) }
}

pub fn image_check(text: &Lent) -> u8 {
    // SAFETY: pointer and length are those of the lent text.
    unsafe { oversnithe_image_check(text.as_ptr(), text.len()) }
}

pub fn parameter_get(layout: Layout, image: &Lent, parameter: Row) -> ParameterValue {
    // SAFETY: pointer and length are those of the lent image.
    unsafe { oversnithe_parameter_get(layout, image.as_ptr(), image.len(), parameter.into()) }
}

pub fn parameter_set(layout: Layout, image: &mut Lent, parameter: Row, value: i64) -> u8 {
    let length = image.len();
    // SAFETY: pointer and length are those of the lent image, which nobody else has.
    unsafe { oversnithe_parameter_set(layout, image.as_mut_ptr(), length, parameter.into(), value) }
}

pub fn parameter_set_lower(layout: Layout, image: &mut Lent, parameter: Row, value: i64) -> u8 {
    let (length, parameter) = (image.len(), parameter.into());
    // SAFETY: pointer and length are those of the lent image, which nobody else has.
    unsafe { oversnithe_parameter_set_lower(layout, image.as_mut_ptr(), length, parameter, value) }
}
