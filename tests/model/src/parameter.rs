//! 01, "The parameter desk": typed settings with ranges, read from an image and stored into it; and
//! C-17, those that cross a block's end.

use crate::error::Error;
use crate::gauge::Gauge;
use crate::layout::{checksum, Layout, BLOCK_LENGTH};
use crate::record::Boot;
use std::num::TryFromIntError;
use std::ops::{Range, RangeInclusive};

/// "Kinds: unsigned or two's complement signed, of 1, 2 or 4 bytes, most significant byte first".
#[derive(Clone, Copy, Debug, PartialEq, Eq)]
pub enum Kind {
    U8,
    U16,
    U32,
    I8,
    I16,
    I32,
}

impl Kind {
    /// The number of a kind is the project's choice: its bytes, and 0x80 more for a signed one.
    pub fn of(number: u8) -> Option<Kind> {
        match number {
            0x01 => Some(Kind::U8),
            0x02 => Some(Kind::U16),
            0x04 => Some(Kind::U32),
            0x81 => Some(Kind::I8),
            0x82 => Some(Kind::I16),
            0x84 => Some(Kind::I32),
            _ => None,
        }
    }

    pub fn length(self) -> usize {
        match self {
            Kind::U8 | Kind::I8 => 1,
            Kind::U16 | Kind::I16 => 2,
            Kind::U32 | Kind::I32 => 4,
        }
    }

    /// The values that fit.
    pub fn values(self) -> RangeInclusive<i64> {
        match self {
            Kind::U8 => u8::MIN.into()..=u8::MAX.into(),
            Kind::U16 => u16::MIN.into()..=u16::MAX.into(),
            Kind::U32 => u32::MIN.into()..=u32::MAX.into(),
            Kind::I8 => i8::MIN.into()..=i8::MAX.into(),
            Kind::I16 => i16::MIN.into()..=i16::MAX.into(),
            Kind::I32 => i32::MIN.into()..=i32::MAX.into(),
        }
    }

    fn decode(self, bytes: &[u8]) -> i64 {
        match (self, bytes) {
            (Kind::U8, &[a]) => u8::from_be_bytes([a]).into(),
            (Kind::U16, &[a, b]) => u16::from_be_bytes([a, b]).into(),
            (Kind::U32, &[a, b, c, d]) => u32::from_be_bytes([a, b, c, d]).into(),
            (Kind::I8, &[a]) => i8::from_be_bytes([a]).into(),
            (Kind::I16, &[a, b]) => i16::from_be_bytes([a, b]).into(),
            (Kind::I32, &[a, b, c, d]) => i32::from_be_bytes([a, b, c, d]).into(),
            _ => unreachable!("as many bytes as the kind has"),
        }
    }

    fn encode(self, value: i64) -> Result<Vec<u8>, TryFromIntError> {
        Ok(match self {
            Kind::U8 => u8::try_from(value)?.to_be_bytes().to_vec(),
            Kind::U16 => u16::try_from(value)?.to_be_bytes().to_vec(),
            Kind::U32 => u32::try_from(value)?.to_be_bytes().to_vec(),
            Kind::I8 => i8::try_from(value)?.to_be_bytes().to_vec(),
            Kind::I16 => i16::try_from(value)?.to_be_bytes().to_vec(),
            Kind::I32 => i32::try_from(value)?.to_be_bytes().to_vec(),
        })
    }
}

/// "A row has class, offset, kind, lowest, highest."
#[derive(Clone, Copy, Debug, PartialEq, Eq)]
pub struct Parameter {
    pub class: u8,
    pub offset: u16,
    /// The number of a kind, or any other number.
    pub kind: u8,
    pub min: i64,
    pub max: i64,
}

impl Parameter {
    /// The kind of a valid row: "A row is sound when lowest is at most highest and both fit the
    /// kind."
    pub fn valid_kind(&self) -> Result<Kind, Error> {
        let kind = Kind::of(self.kind).ok_or(Error::Parameter)?;
        let fits = |value| kind.values().contains(value);
        if self.min <= self.max && fits(&self.min) && fits(&self.max) {
            Ok(kind)
        } else {
            Err(Error::Parameter)
        }
    }

    pub fn in_range(&self, value: i64) -> bool {
        self.min <= value && value <= self.max
    }
}

/// "Reading answers the value and whether it is in range; if refused, 0 and no."
#[derive(Clone, Copy, Debug, PartialEq, Eq)]
pub struct Reading {
    pub error: Option<Error>,
    pub value: i64,
    pub in_range: bool,
}

pub fn get(layout: &Layout, image: &[u8], parameter: &Parameter) -> Reading {
    match find(layout, image.len(), parameter) {
        Err(error) => Reading { error: Some(error), value: 0, in_range: false },
        Ok((kind, place)) => {
            let value = kind.decode(&image[place]);
            Reading { error: None, value, in_range: parameter.in_range(value) }
        }
    }
}

/// How far a set gets before power is cut.
#[derive(Clone, Copy, Debug, PartialEq, Eq)]
pub enum Commits {
    /// C-17: "between the two the new bytes of the lower block with the old of the upper". Inside a
    /// block there is no other commit.
    First,
    All,
}

/// "Setting changes exactly the bytes of that row", and a refused one nothing.
pub fn set(
    layout: &Layout,
    image: &mut [u8],
    parameter: &Parameter,
    value: i64,
    made: Commits,
) -> Result<(), Error> {
    let change = Change::of(layout, image.len(), parameter, value)?;
    let commits = change.commits(layout, image);
    let lower = change.block_of(change.place.start);
    for (index, byte) in change.place.clone().zip(&change.bytes) {
        if made == Commits::All || change.block_of(index) == lower {
            image[index] = *byte;
        }
    }
    assert!(commits.len() <= 2, "a row in three blocks");
    let left_by_gauge = match made {
        Commits::First => commits.first(),
        Commits::All => commits.last(),
    };
    assert!(Some(&*image) == left_by_gauge.map(Vec::as_slice), "a gauge leaves another image");
    Ok(())
}

/// A row whose bytes are to become others.
struct Change {
    class: u8,
    /// Where its class begins in the image.
    class_start: usize,
    place: Range<usize>,
    bytes: Vec<u8>,
}

impl Change {
    /// All five refusals, or what is to be done.
    fn of(
        layout: &Layout,
        image_length: usize,
        parameter: &Parameter,
        value: i64,
    ) -> Result<Change, Error> {
        let (kind, place) = find(layout, image_length, parameter)?;
        if !parameter.in_range(value) {
            return Err(Error::Range);
        }
        Ok(Change {
            class: parameter.class,
            class_start: place.start - usize::from(parameter.offset),
            place,
            bytes: kind.encode(value).expect("a valid row's range fits its kind"),
        })
    }

    /// The block that a byte of the image belongs to.
    fn block_of(&self, index: usize) -> usize {
        (index - self.class_start) / BLOCK_LENGTH
    }

    /// "the image becomes what a full access gauge leaves that loads the block, writes them and
    /// commits"; C-17: "two commits, lower block first". The image after each commit. Every byte is
    /// a write of its own, and none but the commit alters the image.
    fn commits(&self, layout: &Layout, image: &[u8]) -> Vec<Vec<u8>> {
        let mut images = vec![image.to_vec()];
        let mut gauge = Gauge::power_on(layout.clone(), image.to_vec(), Boot::Open);
        accepted(&mut gauge, 0x61, &[0]);
        let mut indices = self.place.clone().peekable();
        while let Some(&first) = indices.peek() {
            let block = self.block_of(first);
            let number = u8::try_from(block).expect("a class has at most 16 blocks");
            accepted(&mut gauge, 0x3E, &[self.class, number]);
            while let Some(index) = indices.next_if(|&index| self.block_of(index) == block) {
                let register = 0x40 + ((index - self.class_start) % BLOCK_LENGTH) as u8;
                accepted(&mut gauge, register, &[self.bytes[index - self.place.start]]);
                assert!(images.last() == Some(&gauge.image), "stored before the commit");
            }
            let sum = checksum(&gauge.record.window);
            accepted(&mut gauge, 0x60, &[sum]);
            images.push(gauge.image.clone());
        }
        images.split_off(1)
    }
}

/// "For the desk: 10, 11, 4, 12, 13." Here the first four, and else the kind and the range of the
/// row's bytes in the image.
fn find(
    layout: &Layout,
    image_length: usize,
    parameter: &Parameter,
) -> Result<(Kind, Range<usize>), Error> {
    layout.check_image(image_length)?;
    let kind = parameter.valid_kind()?;
    let class = layout.class(parameter.class)?;
    // C-17: "12 now only for a row that leaves its class"
    let first = usize::from(parameter.offset);
    let last = first + kind.length() - 1;
    if last >= class.len() {
        return Err(Error::Place);
    }
    Ok((kind, class.start + first..class.start + last + 1))
}

fn accepted(gauge: &mut Gauge, register: u8, bytes: &[u8]) {
    let written = gauge.write(register, bytes);
    assert_eq!((written.error, written.accepted), (None, bytes.len()));
}

#[cfg(test)]
mod tests {
    use super::*;
    use crate::layout::Class;

    /// A value and its bytes.
    type Stored = (i64, &'static [u8]);

    /// Every kind's number, lowest value and highest value.
    const ENDS: [(u8, Stored, Stored); 6] = [
        (0x01, (0, &[0]), (255, &[0xFF])),
        (0x02, (0, &[0, 0]), (65_535, &[0xFF, 0xFF])),
        (0x04, (0, &[0, 0, 0, 0]), (4_294_967_295, &[0xFF, 0xFF, 0xFF, 0xFF])),
        (0x81, (-128, &[0x80]), (127, &[0x7F])),
        (0x82, (-32_768, &[0x80, 0]), (32_767, &[0x7F, 0xFF])),
        (0x84, (-2_147_483_648, &[0x80, 0, 0, 0]), (2_147_483_647, &[0x7F, 0xFF, 0xFF, 0xFF])),
    ];

    /// A class of 66 bytes (0, 1, .. 65) before the two that must be there, and one of 3 bytes
    /// after them.
    fn layout() -> Layout {
        let classes = [(48, 66), (58, 96), (112, 28), (255, 3)];
        Layout { classes: classes.map(|(id, length)| Class { id, length }).to_vec() }
    }

    fn image() -> Vec<u8> {
        (0..66 + 96 + 28 + 3).collect()
    }

    fn parameter(class: u8, offset: u16, kind: u8, min: i64, max: i64) -> Parameter {
        Parameter { class, offset, kind, min, max }
    }

    /// Sets a value and answers with the image.
    fn stored(parameter: &Parameter, value: i64) -> Vec<u8> {
        let mut image = image();
        assert_eq!(set(&layout(), &mut image, parameter, value, Commits::All), Ok(()));
        assert_eq!(
            get(&layout(), &image, parameter),
            Reading { error: None, value, in_range: true }
        );
        image
    }

    /// Get and set are refused alike and change nothing.
    fn assert_refused(
        layout: &Layout,
        image: &[u8],
        parameter: &Parameter,
        value: i64,
        error: Error,
    ) {
        let refused = Reading { error: Some(error), value: 0, in_range: false };
        assert_eq!(get(layout, image, parameter), refused, "{parameter:?}");
        let mut after = image.to_vec();
        assert_eq!(
            set(layout, &mut after, parameter, value, Commits::All),
            Err(error),
            "{parameter:?}"
        );
        assert_eq!(after, image);
    }

    /// "P11's offset 31 is accepted where the class goes on"
    #[test]
    fn p11_two_bytes_at_a_blocks_end() {
        for kind in [0x02, 0x82] {
            for offset in [30, 31] {
                let mut expected = image();
                expected[offset..offset + 2].copy_from_slice(&[1, 2]);
                let row = parameter(48, offset as u16, kind, 0, 1000);
                assert_eq!(stored(&row, 258), expected, "offset {offset}");
            }
            let at_the_end = parameter(58, 95, kind, 0, 1000);
            assert_refused(&layout(), &image(), &at_the_end, 258, Error::Place);
        }
    }

    /// Sets a value with a cut of power after the first commit, and answers with the image.
    fn cut(parameter: &Parameter, value: i64) -> Vec<u8> {
        let mut image = image();
        assert_eq!(set(&layout(), &mut image, parameter, value, Commits::First), Ok(()));
        image
    }

    /// "A new pack has a four-byte setting at offset 30": every place of every kind, and what a cut
    /// finds there. The class has 66 bytes, so block 1 is whole and block 2 has two.
    #[test]
    fn c17_rows_across_a_blocks_end() {
        for (kind, length) in [(0x01, 1), (0x02, 2), (0x04, 4), (0x81, 1), (0x82, 2), (0x84, 4)] {
            for offset in 26..=66 - length {
                // 01, 01 02 or 01 02 03 04, at a place where none of these stands
                let (bytes, value) = match length {
                    1 => (vec![1], 0x01),
                    2 => (vec![1, 2], 0x0102),
                    _ => (vec![1, 2, 3, 4], 0x0102_0304),
                };
                let row = parameter(48, offset as u16, kind, 0, value);
                let mut expected = image();
                expected[offset..offset + length].copy_from_slice(&bytes);
                assert_eq!(stored(&row, value), expected, "kind {kind:02X}, offset {offset}");
                let end = (offset / 32 + 1) * 32;
                let mut between = image();
                for index in offset..(offset + length).min(end) {
                    between[index] = expected[index];
                }
                assert_eq!(cut(&row, value), between, "kind {kind:02X}, offset {offset}");
            }
        }
    }

    /// "before the first commit the old bytes, between the two the new bytes of the lower block
    /// with the old of the upper, afterwards all new"
    #[test]
    fn c17_what_a_cut_of_power_finds() {
        let row = parameter(48, 30, 0x04, 0, 0x1E1F_2021);
        // 30, 31, 32 and 33 stand there
        let read = |image: &[u8]| get(&layout(), image, &row);
        assert_eq!(read(&image()).value, 0x1E1F_2021);
        let between = cut(&row, 0x0102_0304);
        assert_eq!(read(&between), Reading { error: None, value: 0x0102_2021, in_range: true });
        assert_eq!(read(&stored(&row, 0x0102_0304)).value, 0x0102_0304);
        // neither the old value nor the new one, and out of range
        let narrow = parameter(48, 30, 0x04, 0x1E1F_2021, 0x1E20_0000);
        let between = cut(&narrow, 0x1E20_0000);
        let found = get(&layout(), &between, &narrow);
        assert_eq!(found, Reading { error: None, value: 0x1E20_2021, in_range: false });
        // once more: as without the cut
        let mut mended = between;
        assert_eq!(set(&layout(), &mut mended, &narrow, 0x1E20_0000, Commits::All), Ok(()));
        assert_eq!(mended, stored(&narrow, 0x1E20_0000));
    }

    /// A cut is refused as a set is, and leaves everything.
    #[test]
    fn c17_refusals_of_a_cut() {
        let mut after = image();
        for (row, value, error) in [
            (parameter(48, 30, 0x03, 0, 9), 5, Error::Parameter),
            (parameter(49, 30, 0x04, 0, 9), 5, Error::NoClass),
            (parameter(48, 63, 0x04, 0, 9), 5, Error::Place),
            (parameter(48, 30, 0x04, 0, 9), 10, Error::Range),
        ] {
            assert_eq!(
                set(&layout(), &mut after, &row, value, Commits::First),
                Err(error),
                "{row:?}"
            );
            assert_eq!(after, image());
        }
        let row = parameter(48, 30, 0x04, 0, 9);
        assert_eq!(set(&layout(), &mut after[1..], &row, 5, Commits::First), Err(Error::Invalid));
        assert_eq!(after, image());
    }

    /// In full access the keys may be set too, and blocks A and B at once.
    #[test]
    fn c17_across_blocks_a_and_b() {
        let row = parameter(58, 31, 0x02, 0, 65_535);
        let mut expected = image();
        expected[66 + 31..66 + 33].copy_from_slice(&[0xAB, 0xCD]);
        assert_eq!(stored(&row, 0xABCD), expected);
        expected[66 + 32] = image()[66 + 32];
        assert_eq!(cut(&row, 0xABCD), expected);
    }

    #[test]
    fn p12_a_signed_byte() {
        let signed = parameter(58, 5, 0x81, -128, 127);
        let mut expected = image();
        expected[66 + 5] = 0x80;
        assert_eq!(stored(&signed, -128), expected);
    }

    #[test]
    fn the_ends_of_every_kind() {
        for (kind, lowest, highest) in ENDS {
            let (low, high) = (lowest.0, highest.0);
            let whole = parameter(112, 8, kind, low, high);
            for (value, bytes) in [lowest, highest] {
                let mut expected = image();
                expected[170..170 + bytes.len()].copy_from_slice(bytes);
                assert_eq!(stored(&whole, value), expected, "kind {kind:02X}");
            }
            for value in [low - 1, high + 1, i64::MIN, i64::MAX] {
                assert_eq!(
                    set(&layout(), &mut image(), &whole, value, Commits::All),
                    Err(Error::Range),
                    "kind {kind:02X}"
                );
            }
            let too_wide = [
                (low - 1, high),
                (low, high + 1),
                (i64::MIN, high),
                (low, i64::MAX),
                (low + 1, low),
            ];
            for (min, max) in too_wide {
                assert_refused(
                    &layout(),
                    &image(),
                    &parameter(112, 8, kind, min, max),
                    low,
                    Error::Parameter,
                );
            }
        }
    }

    #[test]
    fn the_most_significant_byte_is_first() {
        let mut expected = image();
        expected[66..70].copy_from_slice(&[0x12, 0x34, 0x56, 0x78]);
        assert_eq!(stored(&parameter(58, 0, 0x04, 0, 0xFFFF_FFFF), 0x1234_5678), expected);
        expected[66..70].copy_from_slice(&[0xFF, 0xFF, 0xFF, 0xFE]);
        assert_eq!(stored(&parameter(58, 0, 0x84, -2, -2), -2), expected);
    }

    #[test]
    fn every_other_number_is_no_kind() {
        for kind in (0..=255).filter(|kind| ENDS.iter().all(|end| end.0 != *kind)) {
            assert_refused(&layout(), &image(), &parameter(48, 0, kind, 0, 0), 0, Error::Parameter);
        }
    }

    #[test]
    fn a_value_outside_its_range_is_read() {
        let reading = |min, max| get(&layout(), &image(), &parameter(48, 7, 0x01, min, max));
        assert_eq!(reading(7, 7), Reading { error: None, value: 7, in_range: true });
        assert_eq!(reading(8, 255), Reading { error: None, value: 7, in_range: false });
        assert_eq!(reading(0, 6), Reading { error: None, value: 7, in_range: false });
    }

    #[test]
    fn the_same_value_again_changes_nothing() {
        assert_eq!(stored(&parameter(48, 4, 0x02, 0, 65_535), 0x0405), image());
    }

    #[test]
    fn the_end_of_a_class() {
        for (class, length) in [(48, 66), (58, 96), (112, 28), (255, 3)] {
            stored(&parameter(class, length - 2, 0x02, 0, 9), 9);
            for offset in [length - 1, length, length + 1, u16::MAX - 1, u16::MAX] {
                assert_refused(
                    &layout(),
                    &image(),
                    &parameter(class, offset, 0x02, 0, 9),
                    9,
                    Error::Place,
                );
            }
        }
        assert_refused(&layout(), &image(), &parameter(255, 0, 0x84, 0, 9), 9, Error::Place);
        // the last byte is the class's last one, and one further
        stored(&parameter(48, 62, 0x04, 0, 9), 9);
        assert_refused(&layout(), &image(), &parameter(48, 63, 0x04, 0, 9), 9, Error::Place);
    }

    #[test]
    fn order_of_refusals() {
        let (layout, image) = (layout(), image());
        // no kind, an unknown class, an offset beyond it, a value outside the range: each fault
        // with all those after it
        let mut parameter = parameter(49, u16::MAX, 0x03, 5, 9);
        assert_refused(&layout, &image[1..], &parameter, 10, Error::Invalid);
        assert_refused(&Layout::default(), &[], &parameter, 10, Error::Invalid);
        assert_refused(&layout, &image, &parameter, 10, Error::Parameter);
        parameter.kind = 0x02;
        assert_refused(&layout, &image, &parameter, 10, Error::NoClass);
        parameter.class = 48;
        assert_refused(&layout, &image, &parameter, 10, Error::Place);
        parameter.offset = 30;
        assert_eq!(
            set(&layout, &mut image.clone(), &parameter, 10, Commits::All),
            Err(Error::Range)
        );
        assert_eq!(
            get(&layout, &image, &parameter),
            Reading { error: None, value: 30 * 256 + 31, in_range: false }
        );
        // an unsound range on an unknown class
        let unsound = Parameter { class: 49, min: 9, max: 5, ..parameter };
        assert_refused(&layout, &image, &unsound, 7, Error::Parameter);
    }
}
