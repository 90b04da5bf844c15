//! C-14, "Only full access may change keys."

use crate::error::Error;
use crate::layout::{Layout, KEY_CLASS};

/// "bytes 0 to 7" of class 112.
pub const KEYS_LENGTH: usize = 8;

/// Both keys, as an image has them.
pub fn key_bytes<'a>(layout: &Layout, image: &'a [u8]) -> Result<&'a [u8], Error> {
    let start = layout.class(KEY_CLASS)?.start;
    Ok(&image[start..start + KEYS_LENGTH])
}

#[cfg(test)]
mod tests {
    use crate::error::Error;
    use crate::gauge::tests::{done, gauge, refused, send, with_block};
    use crate::gauge::{Gauge, Written};
    use crate::layout::{checksum, Class};
    use crate::record::{Boot, Loaded, Mode};

    const KEYS: [u8; 8] = [0x14, 0x04, 0x72, 0x36, 0x01, 0x02, 0x03, 0x04];
    const KEY_BLOCK: (u8, u8) = (112, 0);
    /// Where the keys begin in the image of `gauge`.
    const START: usize = 33 + 96;

    fn edit(gauge: &mut Gauge, register: u8, bytes: &[u8]) {
        assert_eq!(gauge.write(register, bytes), done(bytes.len()));
    }

    /// Unsealed by its key, BlockDataControl 0.
    fn unseal(gauge: &mut Gauge) {
        send(gauge, &[0x0414, 0x3672]);
        assert_eq!(gauge.record.mode, Mode::Unsealed);
        edit(gauge, 0x61, &[0]);
    }

    /// Unsealed, with this block loaded.
    fn unsealed_with((class, block): (u8, u8)) -> Gauge {
        let mut gauge = gauge(Boot::Sealed);
        unseal(&mut gauge);
        edit(&mut gauge, 0x3E, &[class, block]);
        gauge
    }

    fn commit(gauge: &mut Gauge) -> Written {
        let sum = checksum(&gauge.record.window);
        gauge.write(0x60, &[sum])
    }

    fn stored(changed: usize) -> Written {
        Written { changed, ..done(1) }
    }

    #[test]
    fn no_byte_of_a_key_is_changed_unsealed() {
        for place in 0..8 {
            let mut gauge = unsealed_with(KEY_BLOCK);
            let image = gauge.image.clone();
            edit(&mut gauge, 0x40 + place as u8, &[KEYS[place] ^ 0x80]);
            assert_eq!(commit(&mut gauge), refused(Error::Keys, 0), "byte {place}");
            assert_eq!(gauge.image, image);
        }
    }

    #[test]
    fn both_keys_whole_are_refused_too() {
        let mut gauge = unsealed_with(KEY_BLOCK);
        edit(&mut gauge, 0x40, &[9; 32]);
        assert_eq!(commit(&mut gauge), refused(Error::Keys, 0));
    }

    #[test]
    fn bytes_behind_the_keys_stand() {
        for place in 8..28 {
            let mut gauge = unsealed_with(KEY_BLOCK);
            edit(&mut gauge, 0x40 + place as u8, &[9]);
            assert_eq!(commit(&mut gauge), stored(1), "byte {place}");
            assert_eq!(gauge.image[START + place], 9);
        }
    }

    #[test]
    fn key_bytes_that_are_there_may_be_written() {
        let mut gauge = unsealed_with(KEY_BLOCK);
        edit(&mut gauge, 0x40, &KEYS);
        assert_eq!(commit(&mut gauge), stored(0));
        edit(&mut gauge, 0x40, &[&KEYS[..], &[1, 2]].concat());
        assert_eq!(commit(&mut gauge), stored(2));
    }

    #[test]
    fn full_access_changes_keys() {
        let mut gauge = with_block(112, 0);
        edit(&mut gauge, 0x40, &[9; 8]);
        assert_eq!(commit(&mut gauge), stored(8));
        assert_eq!(gauge.image[START..START + 8], [9; 8]);
        let mut gauge = unsealed_with(KEY_BLOCK);
        edit(&mut gauge, 0x40, &[9; 8]);
        assert_eq!(commit(&mut gauge), refused(Error::Keys, 0));
        send(&mut gauge, &[0x0201, 0x0403]);
        assert_eq!(gauge.record.mode, Mode::FullAccess);
        assert_eq!(commit(&mut gauge), stored(8), "window and loading stay");
    }

    #[test]
    fn window_and_loading_stay_and_it_may_be_tried_again() {
        let mut gauge = unsealed_with(KEY_BLOCK);
        edit(&mut gauge, 0x40, &[9]);
        let record = gauge.record.clone();
        assert_eq!(commit(&mut gauge), refused(Error::Keys, 0));
        assert_eq!(gauge.record, record);
        assert_eq!(gauge.record.loaded, Some(Loaded { class: 112, block: 0 }));
        edit(&mut gauge, 0x40, &[0x14]);
        edit(&mut gauge, 0x48, &[9]);
        assert_eq!(commit(&mut gauge), stored(1));
    }

    #[test]
    fn eight_comes_first() {
        let mut gauge = unsealed_with(KEY_BLOCK);
        edit(&mut gauge, 0x40, &[9]);
        let wrong = checksum(&gauge.record.window).wrapping_add(1);
        assert_eq!(gauge.write(0x60, &[wrong]), refused(Error::Checksum, 0));
    }

    #[test]
    fn in_one_write_the_bytes_before_0x60_stand() {
        let mut gauge = unsealed_with(KEY_BLOCK);
        let mut window = gauge.record.window;
        window[0] = 9;
        let bytes = [&window[..], &[checksum(&window), 0]].concat();
        assert_eq!(gauge.write(0x40, &bytes), refused(Error::Keys, 32));
        assert_eq!(gauge.record.window, window);
        assert_eq!(gauge.record.control, 0);
    }

    #[test]
    fn other_blocks_are_free_unsealed() {
        for block in [(48, 0), (48, 1), (58, 0), (58, 1), (58, 2)] {
            let mut gauge = unsealed_with(block);
            let before = gauge.record.window[0];
            edit(&mut gauge, 0x40, &[before ^ 1]);
            assert_eq!(commit(&mut gauge), stored(1), "{block:?}");
        }
    }

    #[test]
    fn other_blocks_of_the_class_are_free() {
        let mut gauge = gauge(Boot::Sealed);
        gauge.layout.classes[2] = Class { id: 112, length: 40 };
        gauge.image.extend([0xFF; 12]);
        unseal(&mut gauge);
        edit(&mut gauge, 0x3E, &[112, 1]);
        edit(&mut gauge, 0x40, &[0; 8]);
        assert_eq!(commit(&mut gauge), stored(8));
        assert_eq!(gauge.image[START + 32..], [0, 0, 0, 0, 0, 0, 0, 0]);
    }

    #[test]
    fn the_comparison_is_with_the_flash_at_the_commit() {
        // full access changes a key, and the gauge that is unsealed later finds that one
        let mut gauge = gauge(Boot::Sealed);
        unseal(&mut gauge);
        send(&mut gauge, &[0x0201, 0x0403]);
        edit(&mut gauge, 0x3E, &[112, 0]);
        edit(&mut gauge, 0x47, &[9]);
        assert_eq!(commit(&mut gauge), stored(1));
        send(&mut gauge, &[0x0020]);
        unseal(&mut gauge);
        edit(&mut gauge, 0x3E, &[112, 0]);
        edit(&mut gauge, 0x47, &[0x04]);
        assert_eq!(commit(&mut gauge), refused(Error::Keys, 0));
        edit(&mut gauge, 0x47, &[9]);
        assert_eq!(commit(&mut gauge), stored(0));
    }
}
