//! 01, "Layout and image": valid layouts, class and block lookup, and the checksum.

use crate::error::Error;
use std::ops::Range;

pub const MAX_CLASSES: usize = 32;
pub const MAX_CLASS_LENGTH: usize = 512;
pub const MAX_IMAGE_LENGTH: usize = 4096;
/// Bytes of a full block, and of the window.
pub const BLOCK_LENGTH: usize = 32;

/// The class of the manufacturer blocks: "present with exactly 96 bytes".
pub const INFO_CLASS: u8 = 58;
pub const INFO_LENGTH: usize = 96;
/// The class of the keys: "present with at least 28".
pub const KEY_CLASS: u8 = 112;
pub const KEY_CLASS_MIN_LENGTH: usize = 28;

#[derive(Clone, Copy, Debug, PartialEq, Eq)]
pub struct Class {
    pub id: u8,
    pub length: usize,
}

#[derive(Clone, Debug, Default, PartialEq, Eq)]
pub struct Layout {
    pub classes: Vec<Class>,
}

impl Layout {
    /// "A layout is 1 to 32 classes, identifiers 0 to 255, strictly ascending, each 1 to 512 bytes
    /// long, 4,096 bytes together at most. Class 58 is present with exactly 96 bytes. Class 112 is
    /// present with at least 28."
    pub fn is_valid(&self) -> bool {
        (1..=MAX_CLASSES).contains(&self.classes.len())
            && self.classes.windows(2).all(|pair| pair[0].id < pair[1].id)
            && self.classes.iter().all(|class| (1..=MAX_CLASS_LENGTH).contains(&class.length))
            && self.length() <= MAX_IMAGE_LENGTH
            && self.position(INFO_CLASS).is_some_and(|place| place.len() == INFO_LENGTH)
            && self.position(KEY_CLASS).is_some_and(|place| place.len() >= KEY_CLASS_MIN_LENGTH)
    }

    /// The length of its images.
    pub fn length(&self) -> usize {
        self.classes.iter().map(|class| class.length).sum()
    }

    /// "The image is the classes' bytes in that order, end to end."
    fn position(&self, id: u8) -> Option<Range<usize>> {
        let mut start = 0;
        for class in &self.classes {
            if class.id == id {
                return Some(start..start + class.length);
            }
            start += class.length;
        }
        None
    }

    /// "Finding a class either gives its start and length or ends at once with refusal 4, 10 for
    /// the layout coming first." Here: the range of its bytes in the image.
    pub fn class(&self, id: u8) -> Result<Range<usize>, Error> {
        if !self.is_valid() {
            return Err(Error::Invalid);
        }
        self.position(id).ok_or(Error::NoClass)
    }

    /// "Block b of a class holds bytes 32b to 32b+31, or to the end of the class if that comes
    /// first. It exists when 32b is less than the length." Here: the range of its bytes in an image
    /// of the given length.
    pub fn block(&self, image_length: usize, id: u8, block: u8) -> Result<Range<usize>, Error> {
        self.check_image(image_length)?;
        let class = self.class(id)?;
        let start = class.start + BLOCK_LENGTH * usize::from(block);
        if start >= class.end {
            return Err(Error::NoBlock);
        }
        Ok(start..class.end.min(start + BLOCK_LENGTH))
    }

    /// "file or layout breaks its rules, or image length differs from it"
    pub fn check_image(&self, image_length: usize) -> Result<(), Error> {
        if self.is_valid() && image_length == self.length() {
            Ok(())
        } else {
            Err(Error::Invalid)
        }
    }
}

/// "255 less the low eight bits of the sum", and "any number of bytes and sums them all". The zero
/// bytes past a short block add nothing, so its own bytes will do.
pub fn checksum(bytes: &[u8]) -> u8 {
    let sum: u64 = bytes.iter().map(|&byte| u64::from(byte)).sum();
    255 - (sum % 256) as u8
}

/// "t = (255 - old checksum - old byte) mod 256 with t never negative, new checksum = 255 - ((t +
/// new byte) mod 256)"
pub fn checksum_short_way(old_checksum: u8, old_byte: u8, new_byte: u8) -> u8 {
    let t = (255 - old_checksum).wrapping_sub(old_byte);
    255 - t.wrapping_add(new_byte)
}

#[cfg(test)]
mod tests {
    use super::*;

    fn layout(classes: &[(u8, usize)]) -> Layout {
        Layout { classes: classes.iter().map(|&(id, length)| Class { id, length }).collect() }
    }

    #[test]
    fn validity() {
        assert!(layout(&[(58, 96), (112, 28)]).is_valid());
        assert!(layout(&[(0, 1), (58, 96), (112, 512), (255, 512)]).is_valid());
        let bad: [&[(u8, usize)]; 10] = [
            &[],
            &[(112, 28)],
            &[(58, 96)],
            &[(58, 95), (112, 28)],
            &[(58, 97), (112, 28)],
            &[(58, 96), (112, 27)],
            &[(112, 28), (58, 96)],
            &[(58, 96), (58, 96), (112, 28)],
            &[(48, 0), (58, 96), (112, 28)],
            &[(48, 513), (58, 96), (112, 28)],
        ];
        for classes in bad {
            assert!(!layout(classes).is_valid(), "{classes:?}");
        }
    }

    #[test]
    fn at_most_32_classes_and_4096_bytes() {
        let many = |others: u8| {
            let mut classes = vec![(58, 96), (112, 28)];
            classes.extend((0..others).map(|i| (200 + i, 1)));
            layout(&classes)
        };
        assert!(many(30).is_valid());
        assert!(!many(31).is_valid());
        let wide = |last: usize| {
            let mut classes = vec![(58, 96), (112, 512)];
            classes.extend((0..6).map(|i| (200 + i, 512)));
            classes.push((255, last));
            layout(&classes)
        };
        assert_eq!(wide(416).length(), 4096);
        assert!(wide(416).is_valid());
        assert!(!wide(417).is_valid());
    }

    #[test]
    fn p1_to_p4_checksums() {
        assert_eq!(checksum(&[0; 32]), 255);
        assert_eq!(checksum(&[0xFF; 32]), 31);
        assert_eq!(checksum_short_way(31, 0xFF, 0x00), 30);
        assert_eq!(checksum_short_way(0xFE, 0x01, 0x02), 0xFD);
    }

    #[test]
    fn checksums_of_any_number_of_bytes() {
        assert_eq!(checksum(&[]), 255);
        assert_eq!(checksum(&[0xFF]), 0);
        assert_eq!(checksum(&[0xFF; 256]), 255);
        assert_eq!(checksum(&[0xFF; 257]), 0);
        assert_eq!(checksum(&[1; 100_000]), 255 - 160);
    }

    #[test]
    fn the_short_way_is_the_long_way() {
        for sum in 0..=255u8 {
            for old in 0..=255u8 {
                for new in [0, 1, 127, 128, 254, 255, old, !old] {
                    let (before, after) = (checksum(&[sum, old]), checksum(&[sum, new]));
                    assert_eq!(checksum_short_way(before, old, new), after);
                }
            }
        }
    }

    #[test]
    fn p6_the_second_block_of_33_bytes() {
        let layout = layout(&[(48, 33), (58, 96), (112, 28)]);
        let length = layout.length();
        assert_eq!(layout.block(length, 48, 0), Ok(0..32));
        assert_eq!(layout.block(length, 48, 1), Ok(32..33));
        assert_eq!(layout.block(length, 48, 2), Err(Error::NoBlock));
        assert_eq!(layout.block(length, 48, 255), Err(Error::NoBlock));
        assert_eq!(layout.block(length, 58, 2), Ok(97..129));
        assert_eq!(layout.block(length, 49, 0), Err(Error::NoClass));
        assert_eq!(layout.block(length + 1, 49, 0), Err(Error::Invalid));
        assert_eq!(layout.class(112), Ok(129..157));
        assert_eq!(layout.class(113), Err(Error::NoClass));
    }
}
