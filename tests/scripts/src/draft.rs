//! A script in the making, with the model running alongside, so that the next frame can be chosen
//! by the gauge's state.

use generator::flash::Flash;
use generator::random::Random;
use model::gauge::Gauge;
use model::imagefile;
use model::keys::key_bytes;
use model::layout::{checksum, BLOCK_LENGTH};
use model::record::{Boot, Mode};
use model::text::push_bytes;

pub struct Draft<'a> {
    pub random: &'a mut Random,
    pub gauge: Gauge,
    pub text: Vec<u8>,
    pub lines: usize,
}

impl<'a> Draft<'a> {
    pub fn new(random: &'a mut Random, flash: &Flash) -> Draft<'a> {
        let (layout, image) = imagefile::read(&flash.text()).expect("a generated flash is valid");
        Draft {
            random,
            gauge: Gauge::power_on(layout, image, Boot::Sealed),
            text: Vec::new(),
            lines: 0,
        }
    }

    pub fn write(&mut self, register: u8, bytes: &[u8]) {
        self.gauge.write(register, bytes);
        self.frame(&[&[1, register], bytes].concat());
    }

    pub fn read(&mut self, register: u8, count: u8) {
        self.frame(&[0, register, count]);
    }

    /// Accepted or not.
    pub fn supply(&mut self, millivolts: u16) {
        let _ = self.gauge.set_supply(millivolts);
        let [high, low] = millivolts.to_be_bytes();
        self.frame(&[2, high, low]);
    }

    fn frame(&mut self, bytes: &[u8]) {
        push_bytes(&mut self.text, bytes);
        self.text.push(b'\n');
        self.lines += 1;
    }

    /// A control word, mostly in one write.
    pub fn word(&mut self, word: u16) {
        let [low, high] = word.to_le_bytes();
        if self.random.chance(85) {
            self.write(0x00, &[low, high]);
        } else {
            self.write(0x00, &[low]);
            self.write(0x01, &[high]);
        }
    }

    pub fn words(&mut self, words: &[u16]) {
        for &word in words {
            self.word(word);
        }
    }

    pub fn mode(&self) -> Mode {
        self.gauge.record.mode
    }

    /// The words of the unseal key.
    pub fn unseal_words(&self) -> [u16; 2] {
        self.key_words(0)
    }

    /// The words of the full access key.
    pub fn full_access_words(&self) -> [u16; 2] {
        self.key_words(4)
    }

    fn key_words(&self, place: usize) -> [u16; 2] {
        let keys = self.key_bytes();
        [place, place + 2].map(|at| u16::from_le_bytes([keys[at], keys[at + 1]]))
    }

    /// Both keys, as they are stored.
    pub fn key_bytes(&self) -> Vec<u8> {
        let (layout, image) = (&self.gauge.layout, &self.gauge.image);
        key_bytes(layout, image).expect("every layout has the key class").to_vec()
    }

    /// A byte for 0x3E: mostly a class of the layout.
    pub fn any_class(&mut self) -> u8 {
        if self.random.chance(85) {
            let place = self.random.below(self.gauge.layout.classes.len());
            self.gauge.layout.classes[place].id
        } else {
            self.random.byte()
        }
    }

    /// A byte for 0x3F that mostly loads something, if this class is the class register's.
    pub fn any_block(&mut self, class: u8) -> u8 {
        if !self.gauge.record.general_access() {
            return self.random.pick(&[1, 1, 2, 2, 3, 3, 0, 4]);
        }
        let length = self.gauge.layout.class(class).map_or(1, |place| place.len());
        let count = length.div_ceil(BLOCK_LENGTH);
        match self.random.below(20) {
            // the first block that is not there
            0 | 1 => count as u8,
            2 => self.random.byte(),
            3..=8 => (count - 1) as u8,
            _ => self.random.below(count) as u8,
        }
    }

    /// 32 bytes for a window.
    pub fn any_window(&mut self) -> Vec<u8> {
        match self.random.below(5) {
            0 => vec![0; BLOCK_LENGTH],
            1 => vec![self.random.byte(); BLOCK_LENGTH],
            2 => self.gauge.record.window.to_vec(),
            _ => self.random.bytes(BLOCK_LENGTH),
        }
    }

    /// 32 bytes for a window: the loaded block's as they are stored, and past them those that the
    /// window has; then some of them changed.
    pub fn changed_window(&mut self) -> Vec<u8> {
        let mut window = self.gauge.record.window.to_vec();
        let stored = self.gauge.loaded_bytes();
        window[..stored.len()].copy_from_slice(stored);
        for place in self.any_places() {
            let (bit, any) = (1 << self.random.below(8), self.random.between(1, 0xFF) as u8);
            window[place] ^= self.random.pick(&[bit, any]);
        }
        window
    }

    /// Places in the window: none of them, one, some or all; an end of the loaded block, or only
    /// what is past it.
    fn any_places(&mut self) -> Vec<usize> {
        let all = 0..BLOCK_LENGTH;
        let one = self.random.below(BLOCK_LENGTH);
        let length = self.loaded_length();
        match self.random.below(9) {
            0 => Vec::new(),
            1 => vec![one],
            2 => vec![0],
            3 => vec![length.max(1) - 1],
            4 => (length..BLOCK_LENGTH).collect(),
            5 => (one..BLOCK_LENGTH).collect(),
            6 => all.filter(|_| self.random.chance(50)).collect(),
            7 => all.filter(|&place| place != one).collect(),
            _ => all.collect(),
        }
    }

    /// A byte for 0x60 with this window: mostly its checksum.
    pub fn any_checksum(&mut self, window: &[u8]) -> u8 {
        let right = checksum(window);
        match self.random.below(10) {
            0 => right.wrapping_add(1),
            1 => right.wrapping_sub(1),
            2 => self.random.pick(&[!right, 0x00, 0xFF, right ^ 0x80]),
            _ => right,
        }
    }

    /// How many of the window's bytes belong to the loaded block, 0 if none is loaded.
    pub fn loaded_length(&self) -> usize {
        self.gauge.loaded_bytes().len()
    }

    /// Unseals the gauge if it is sealed, and sets BlockDataControl.
    pub fn open_with_control(&mut self, control: u8) {
        if self.mode() == Mode::Sealed {
            let key = self.unseal_words();
            self.words(&key);
        }
        self.write(0x61, &[control]);
    }
}
