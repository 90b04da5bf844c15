//! 01, "Transactions": a write byte by byte, the control words, a read.

use crate::changed::count_differing;
use crate::error::Error;
use crate::keys::key_bytes;
use crate::layout::{checksum, Layout, BLOCK_LENGTH, INFO_CLASS, KEY_CLASS};
use crate::record::{Boot, Loaded, Mode, Record, BLOCK_A};
use crate::supply::{COMMIT_SUPPLY, MAX_SUPPLY};

/// "r + n at most 128"
const REGISTERS: usize = 128;

const STATUS_WORD: u16 = 0x0000;
const SEAL_WORD: u16 = 0x0020;
const RESET_WORD: u16 = 0x0041;

/// "The answer is the refusal number (0 if none) and the number of bytes taken."
#[derive(Clone, Copy, Debug, PartialEq, Eq)]
pub struct Written {
    pub error: Option<Error>,
    pub accepted: usize,
    /// C-12: "how many bytes of the image differ before and after, and every write answer carries
    /// it as a third number: 0 unless 0x60 committed, and at most 32".
    pub changed: usize,
}

/// A layout, an image and a record, as a caller would lend them.
#[derive(Clone, Debug)]
pub struct Gauge {
    pub layout: Layout,
    pub image: Vec<u8>,
    pub record: Record,
}

impl Gauge {
    pub fn power_on(layout: Layout, image: Vec<u8>, boot: Boot) -> Gauge {
        Gauge { layout, image, record: Record::power_on(boot) }
    }

    /// The answer of a write. No other byte of it than the one at 0x60 changes the image, and that
    /// one stands if a later one is refused; so the images before and after the whole write are
    /// those before and after its commit.
    pub fn write(&mut self, register: u8, bytes: &[u8]) -> Written {
        let before = self.image.clone();
        let (error, accepted) = self.take(register, bytes);
        Written { error, accepted, changed: count_differing(&before, &self.image) }
    }

    /// "A write takes its bytes one by one at r, r+1 and so on. The first refused byte ends it."
    pub fn take(&mut self, register: u8, bytes: &[u8]) -> (Option<Error>, usize) {
        if let Err(error) = self.judge(register, bytes.len()) {
            return (Some(error), 0);
        }
        for (i, &byte) in bytes.iter().enumerate() {
            if let Err(error) = self.write_byte(usize::from(register) + i, byte) {
                return (Some(error), i);
            }
        }
        (None, bytes.len())
    }

    /// Puts the answer of a read at the start of a lent buffer, or leaves the buffer untouched.
    /// "Reading changes nothing."
    pub fn read(&self, register: u8, count: usize, buffer: &mut [u8]) -> Result<(), Error> {
        self.judge(register, count)?;
        if buffer.len() < count {
            return Err(Error::Buffer);
        }
        for (i, byte) in buffer[..count].iter_mut().enumerate() {
            *byte = self.read_byte(usize::from(register) + i);
        }
        Ok(())
    }

    /// The loaded block's bytes in the image; none if no block is loaded.
    pub fn loaded_bytes(&self) -> &[u8] {
        let find = |loaded: Loaded| self.layout.block(self.image.len(), loaded.class, loaded.block);
        match self.record.loaded.map(find) {
            Some(Ok(place)) => &self.image[place],
            _ => &[],
        }
    }

    /// "Order for a transaction: 10, 15, 1, 14, then byte by byte". The 14 is a read's own.
    fn judge(&self, register: u8, count: usize) -> Result<(), Error> {
        self.judge_record()?;
        if count == 0 || usize::from(register) + count > REGISTERS {
            return Err(Error::Argument);
        }
        Ok(())
    }

    /// 10 and 15.
    fn judge_record(&self) -> Result<(), Error> {
        self.layout.check_image(self.image.len())?;
        if !self.record.is_valid(&self.layout) {
            return Err(Error::Record);
        }
        Ok(())
    }

    /// C-16: "Refusals: 10, 15, 1 for a supply above 4,500".
    pub fn set_supply(&mut self, millivolts: u16) -> Result<(), Error> {
        self.judge_record()?;
        if millivolts > MAX_SUPPLY {
            return Err(Error::Argument);
        }
        self.record.supply = millivolts;
        Ok(())
    }

    fn write_byte(&mut self, register: usize, byte: u8) -> Result<(), Error> {
        match register {
            0x00 => self.record.low = byte,
            0x01 => self.obey(u16::from_le_bytes([self.record.low, byte]))?,
            0x3E => self.set_class(byte)?,
            0x3F => self.load(byte)?,
            0x40..=0x5F => {
                self.check_editable()?;
                self.record.window[register - 0x40] = byte;
            }
            0x60 => self.commit(byte)?,
            0x61 => self.set_control(byte)?,
            _ => return Err(Error::ReadOnly),
        }
        Ok(())
    }

    /// "These three clear the waiting word first and are never key words."
    fn obey(&mut self, word: u16) -> Result<(), Error> {
        match word {
            STATUS_WORD => {
                self.record.pending = None;
                self.record.result = match self.record.mode {
                    Mode::Sealed => 0x6000,
                    Mode::Unsealed => 0x4000,
                    Mode::FullAccess => 0x0000,
                };
            }
            SEAL_WORD => self.record.restart(Boot::Sealed),
            RESET_WORD => self.record.restart(self.record.boot),
            _ => self.take_key_word(word)?,
        }
        Ok(())
    }

    /// "Any other word sets the result to 0; then, if sealed (or unsealed) and a word is waiting,
    /// the waiting word and this one are compared with the unseal key (or full access key) [...]
    /// Equal: mode becomes unsealed (or full access), none waiting. Otherwise this word waits. In
    /// full access none waits."
    fn take_key_word(&mut self, word: u16) -> Result<(), Error> {
        self.record.result = 0;
        // "bytes 0 to 3 unseal key, 4 to 7 full access key"
        let (place, next) = match self.record.mode {
            Mode::Sealed => (0, Mode::Unsealed),
            Mode::Unsealed => (4, Mode::FullAccess),
            Mode::FullAccess => return Ok(()),
        };
        let start = self.layout.class(KEY_CLASS)?.start + place;
        let key = &self.image[start..start + 4];
        if self.record.pending.is_some_and(|first| as_sent(first, word) == key) {
            self.record.mode = next;
            self.record.pending = None;
        } else {
            self.record.pending = Some(word);
        }
        Ok(())
    }

    /// "0x3E | not sealed: class set, in the layout or not; unload"
    fn set_class(&mut self, byte: u8) -> Result<(), Error> {
        self.check_unsealed()?;
        self.record.class = byte;
        self.record.unload();
        Ok(())
    }

    /// "0x3F | general: loads that block of the class. Otherwise 1, 2, 3 load A, B, C"
    fn load(&mut self, byte: u8) -> Result<(), Error> {
        let loaded = if self.record.general_access() {
            Loaded { class: self.record.class, block: byte }
        } else if (1..=3).contains(&byte) {
            Loaded { class: INFO_CLASS, block: byte - 1 }
        } else {
            return Err(Error::NoBlock);
        };
        let bytes = &self.image[self.layout.block(self.image.len(), loaded.class, loaded.block)?];
        // "bytes past a short block counted as zero when it is loaded"
        self.record.window = [0; BLOCK_LENGTH];
        self.record.window[..bytes.len()].copy_from_slice(bytes);
        self.record.loaded = Some(loaded);
        // "Loading sets the block register to the byte written."
        self.record.block = byte;
        Ok(())
    }

    /// "0x60 | commit, if it equals the window's checksum"; "A commit copies the window's bytes
    /// into the loaded block, as many as that block has; window and loading stay."
    fn commit(&mut self, byte: u8) -> Result<(), Error> {
        let loaded = self.check_editable()?;
        if byte != checksum(&self.record.window) {
            return Err(Error::Checksum);
        }
        let place = self.layout.block(self.image.len(), loaded.class, loaded.block)?;
        let length = place.len();
        let mut after = self.image.clone();
        after[place].copy_from_slice(&self.record.window[..length]);
        self.check_keys(&after)?;
        self.check_supply()?;
        self.image = after;
        Ok(())
    }

    /// C-14: "An unsealed commit to block 0 of class 112 that would change any of bytes 0 to 7 is
    /// refused"; no other commit can change them.
    fn check_keys(&self, after: &[u8]) -> Result<(), Error> {
        let changes = key_bytes(&self.layout, &self.image)? != key_bytes(&self.layout, after)?;
        if self.record.mode == Mode::Unsealed && changes {
            return Err(Error::Keys);
        }
        Ok(())
    }

    /// C-16: "A commit under 2,700 is refused; 2,700 itself is accepted."
    fn check_supply(&self) -> Result<(), Error> {
        if self.record.supply < COMMIT_SUPPLY {
            return Err(Error::Supply);
        }
        Ok(())
    }

    /// "0x61 | not sealed: 0 or 1 set; unload"
    fn set_control(&mut self, byte: u8) -> Result<(), Error> {
        self.check_unsealed()?;
        if byte > 1 {
            return Err(Error::Control);
        }
        self.record.control = byte;
        self.record.unload();
        Ok(())
    }

    /// "0x3E or 0x61 while sealed"
    fn check_unsealed(&self) -> Result<(), Error> {
        if self.record.mode == Mode::Sealed {
            return Err(Error::Sealed);
        }
        Ok(())
    }

    /// The loaded block: "0x40 to 0x60 with none loaded" is 6, "0x40 to 0x60, block A, sealed" is
    /// 7.
    fn check_editable(&self) -> Result<Loaded, Error> {
        let loaded = self.record.loaded.ok_or(Error::NotLoaded)?;
        if self.record.mode == Mode::Sealed && loaded == BLOCK_A {
            return Err(Error::BlockA);
        }
        Ok(loaded)
    }

    /// "Reads: 0x00, 0x01 the result, low byte first; 0x3E class and 0x61 BlockDataControl, both 0
    /// when sealed; 0x3F block; 0x40 to 0x5F window; 0x60 its checksum; every other register 0."
    fn read_byte(&self, register: usize) -> u8 {
        let record = &self.record;
        match register {
            0x00 | 0x01 => record.result.to_le_bytes()[register],
            0x3E if record.mode != Mode::Sealed => record.class,
            0x3F => record.block,
            0x40..=0x5F => record.window[register - 0x40],
            0x60 => checksum(&record.window),
            0x61 if record.mode != Mode::Sealed => record.control,
            _ => 0,
        }
    }
}

/// "the four bytes as sent, low byte first"
fn as_sent(first: u16, second: u16) -> [u8; 4] {
    let ([a, b], [c, d]) = (first.to_le_bytes(), second.to_le_bytes());
    [a, b, c, d]
}

#[cfg(test)]
pub mod tests {
    use super::*;
    use crate::layout::Class;

    const DONE_ONE: Written = done(1);
    const DONE_TWO: Written = done(2);

    pub const fn done(accepted: usize) -> Written {
        Written { error: None, accepted, changed: 0 }
    }

    pub const fn refused(error: Error, accepted: usize) -> Written {
        Written { error: Some(error), accepted, changed: 0 }
    }

    /// Class 48 of 33 bytes (0, 1, .. 32), the manufacturer blocks, and document 01's unseal key.
    pub fn gauge(boot: Boot) -> Gauge {
        let classes = [(48, 33), (58, 96), (112, 28)].map(|(id, length)| Class { id, length });
        let mut image: Vec<u8> = (0..33).collect();
        image.extend([0xAA; 32]);
        image.extend([0xBB; 32]);
        image.extend([0xCC; 32]);
        image.extend([0x14, 0x04, 0x72, 0x36, 0x01, 0x02, 0x03, 0x04]);
        image.extend([0xFF; 20]);
        Gauge::power_on(Layout { classes: classes.to_vec() }, image, boot)
    }

    pub fn send(gauge: &mut Gauge, words: &[u16]) {
        for word in words {
            assert_eq!(gauge.write(0, &word.to_le_bytes()), DONE_TWO);
        }
    }

    fn read(gauge: &Gauge, register: u8) -> u8 {
        let mut buffer = [0; 1];
        assert_eq!(gauge.read(register, 1, &mut buffer), Ok(()));
        buffer[0]
    }

    /// Full access, BlockDataControl 0, that block loaded.
    pub fn with_block(class: u8, block: u8) -> Gauge {
        let mut gauge = gauge(Boot::Open);
        assert_eq!(gauge.write(0x61, &[0]), DONE_ONE);
        assert_eq!(gauge.write(0x3E, &[class, block]), DONE_TWO);
        gauge
    }

    #[test]
    fn p5_span_of_a_read() {
        let gauge = gauge(Boot::Sealed);
        let mut buffer = [9; 2];
        assert_eq!(gauge.read(0x7F, 2, &mut buffer), Err(Error::Argument));
        assert_eq!(gauge.read(0x7F, 0, &mut buffer), Err(Error::Argument));
        assert_eq!(gauge.read(0xFF, 255, &mut buffer), Err(Error::Argument));
        assert_eq!(buffer, [9, 9]);
        assert_eq!(gauge.read(0x7F, 1, &mut buffer), Ok(()));
        assert_eq!(buffer, [0, 9]);
        assert_eq!(gauge.read(0, 3, &mut buffer), Err(Error::Buffer));
        assert_eq!(gauge.read(0, 0, &mut []), Err(Error::Argument));
    }

    #[test]
    fn p6_and_p7_a_block_of_one_byte() {
        let mut gauge = with_block(48, 1);
        assert_eq!((read(&gauge, 0x40), read(&gauge, 0x41)), (32, 0));
        assert_eq!(gauge.write(0x41, &[7]), DONE_ONE);
        assert_eq!(read(&gauge, 0x60), 255 - 32 - 7);
        let before = gauge.image.clone();
        assert_eq!(gauge.write(0x60, &[255 - 32]), refused(Error::Checksum, 0));
        assert_eq!(gauge.write(0x60, &[255 - 32 - 7]), DONE_ONE);
        assert_eq!(gauge.image, before);
        assert_eq!(read(&gauge, 0x41), 7);
        assert_eq!(gauge.write(0x3F, &[2]), refused(Error::NoBlock, 0));
        assert_eq!((read(&gauge, 0x3F), read(&gauge, 0x41)), (1, 7));
    }

    #[test]
    fn p8_key_words() {
        let mode_after = |words: &[u16]| {
            let mut gauge = gauge(Boot::Sealed);
            send(&mut gauge, words);
            gauge.record.mode
        };
        assert_eq!(mode_after(&[0x0414, 0x0414, 0x3672]), Mode::Unsealed);
        assert_eq!(mode_after(&[0x0414, 0x0000, 0x3672]), Mode::Sealed);
        assert_eq!(mode_after(&[0x0414, 0x0020, 0x3672]), Mode::Sealed);
        assert_eq!(mode_after(&[0x0414, 0x0041, 0x3672]), Mode::Sealed);
        assert_eq!(mode_after(&[0x3672, 0x0414]), Mode::Sealed);
        assert_eq!(mode_after(&[0x0414, 0x3672, 0x0414, 0x3672]), Mode::Unsealed);
        assert_eq!(mode_after(&[0x0414, 0x3672, 0x0201, 0x0403]), Mode::FullAccess);
        assert_eq!(mode_after(&[0x0414, 0x3672, 0x0201, 0x0403, 0x0041]), Mode::Sealed);
    }

    #[test]
    fn the_seal_word_makes_the_boot_sealed() {
        let mut gauge = gauge(Boot::Open);
        send(&mut gauge, &[0x1234, 0x0041]);
        assert_eq!(gauge.record, Record::power_on(Boot::Open));
        send(&mut gauge, &[0x0020, 0x0041]);
        assert_eq!(gauge.record, Record::power_on(Boot::Sealed));
    }

    #[test]
    fn p9_block_a_while_sealed() {
        let mut gauge = gauge(Boot::Sealed);
        assert_eq!(gauge.write(0x3F, &[1]), DONE_ONE);
        assert_eq!(gauge.write(0x40, &[0]), refused(Error::BlockA, 0));
        assert_eq!(gauge.write(0x60, &[read(&gauge, 0x60)]), refused(Error::BlockA, 0));
        assert_eq!(gauge.write(0x3F, &[2, 0xBC]), DONE_TWO);
        let sum = read(&gauge, 0x60);
        let stored = Written { changed: 1, ..refused(Error::Sealed, 1) };
        assert_eq!(gauge.write(0x60, &[sum, 0]), stored);
        assert_eq!(gauge.image[33 + 32..33 + 34], [0xBC, 0xBB]);
    }

    #[test]
    fn p10_sealing_clears_the_window() {
        let mut gauge = with_block(48, 0);
        assert_eq!(read(&gauge, 0x45), 5);
        send(&mut gauge, &[0x0020]);
        assert_eq!(read(&gauge, 0x45), 0);
        assert_eq!(gauge.write(0x40, &[1]), refused(Error::NotLoaded, 0));
    }

    #[test]
    fn one_write_over_all_transfer_registers() {
        let mut gauge = with_block(58, 0);
        let mut bytes = vec![48, 0];
        bytes.extend([3; 32]);
        bytes.extend([255 - 96, 2]);
        // byte 3 was a 3 before
        let stored = Written { changed: 31, ..refused(Error::Control, 35) };
        assert_eq!(gauge.write(0x3E, &bytes), stored);
        assert_eq!(gauge.image[..33], [[3; 32].as_slice(), &[32]].concat());
        *bytes.last_mut().unwrap() = 1;
        bytes.push(0);
        assert_eq!(gauge.write(0x3E, &bytes), refused(Error::ReadOnly, 36));
        assert_eq!((gauge.record.class, gauge.record.block, gauge.record.loaded), (48, 0, None));
        assert_eq!(gauge.write(0x3F, &[0]), refused(Error::NoBlock, 0));
    }

    #[test]
    fn order_before_the_bytes() {
        let mut invalid = gauge(Boot::Sealed);
        invalid.record.control = 2;
        assert_eq!(invalid.write(0xFF, &[]), refused(Error::Record, 0));
        invalid.image.pop();
        assert_eq!(invalid.write(0xFF, &[]), refused(Error::Invalid, 0));
        assert_eq!(gauge(Boot::Sealed).write(0x3E, &[]), refused(Error::Argument, 0));
        assert_eq!(gauge(Boot::Sealed).write(0x61, &[2]), refused(Error::Sealed, 0));
    }
}
