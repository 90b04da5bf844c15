//! What is counted of a case, by running its script once more.

use model::changed::count_differing;
use model::error::Error;
use model::gauge::Gauge;
use model::keys::{key_bytes, KEYS_LENGTH};
use model::layout::{BLOCK_LENGTH, INFO_CLASS, KEY_CLASS};
use model::record::{Boot, Loaded, Mode, Record};
use model::script::{frame, Frame, MAX_FRAME};
use model::supply::COMMIT_SUPPLY;
use model::text;
use scripts::files::Files;
use std::ops::Range;
use std::sync::LazyLock;

const WINDOW: usize = 0x40;
const WORD_MADE: usize = 0x01;
const COMMIT: usize = 0x60;
const CONTROL: usize = 0x61;
/// The low bytes of the words 0x0020 and 0x0041.
const SEAL: u8 = 0x20;
const RESET: u8 = 0x41;
const BLOCK_B: Loaded = Loaded { class: INFO_CLASS, block: 1 };
const BLOCK_C: Loaded = Loaded { class: INFO_CLASS, block: 2 };
const KEY_BLOCK: Loaded = Loaded { class: KEY_CLASS, block: 0 };

/// A line of a script as the model has answered it.
struct Line<'a> {
    /// The mode that it met.
    mode: Mode,
    /// The keys that it met in the image.
    keys: Vec<u8>,
    /// The word that it found waiting.
    pending: Option<u16>,
    /// The supply that it met.
    supply: u16,
    /// The low byte of the last word that sealed or reset the gauge since the supply was set.
    restarted: Option<u8>,
    /// What a supply frame asks for.
    millivolts: Option<u16>,
    /// The gauge that it left.
    gauge: &'a Gauge,
    error: Option<Error>,
    /// The registers whose bytes a write has taken; none of a read or a supply.
    taken: Range<usize>,
    /// How many bytes of the image a write has changed; 0 of a read or a supply.
    changed: usize,
}

/// An event, and whether a line meets it.
type Event = (&'static str, fn(&Line) -> bool);

/// The event of a whole case, before those of its lines.
const REFUSED_FILE: &str = "output 0A";

/// Refusals 1 to 9, 16 and 17 are those of spans, bytes and supplies.
const OF_LINES: &[Event] = &[
    ("refusal 1", |line| line.is_refused(Error::Argument)),
    ("refusal 2", |line| line.is_refused(Error::ReadOnly)),
    ("refusal 3", |line| line.is_refused(Error::Sealed)),
    ("refusal 4", |line| line.is_refused(Error::NoClass)),
    ("refusal 5", |line| line.is_refused(Error::NoBlock)),
    ("refusal 6", |line| line.is_refused(Error::NotLoaded)),
    ("refusal 7", |line| line.is_refused(Error::BlockA)),
    ("refusal 8", |line| line.is_refused(Error::Checksum)),
    ("refusal 9", |line| line.is_refused(Error::Control)),
    ("refusal 16", |line| line.is_refused(Error::Keys)),
    ("refusal 17", |line| line.is_refused(Error::Supply)),
    ("gauge unsealed", |line| line.passes(Mode::Sealed, Mode::Unsealed)),
    ("full access reached", |line| line.passes(Mode::Unsealed, Mode::FullAccess)),
    ("wrong key, in its first byte alone", |line| line.wrong_key_bytes() == [0]),
    ("wrong key, in its second byte alone", |line| line.wrong_key_bytes() == [1]),
    ("wrong key, in its third byte alone", |line| line.wrong_key_bytes() == [2]),
    ("wrong key, in its fourth byte alone", |line| line.wrong_key_bytes() == [3]),
    ("wrong key, in all four bytes", |line| line.wrong_key_bytes() == [0, 1, 2, 3]),
    ("flash changed by a commit", |line| line.changed > 0),
    ("commit that changed 32 bytes", |line| line.changed == BLOCK_LENGTH),
    ("commit that changed nothing", |line| line.commits() && line.changed == 0),
    ("fewer bytes changed than written", |line| line.commits() && line.changed < line.own_bytes()),
    ("commit of a short block, bytes past its end", |line| line.commits() && line.is_past_end()),
    ("refusal 8, window edited", |line| line.is_refused(Error::Checksum) && line.is_edited()),
    ("block B changed while sealed", |line| line.changes_while_sealed(BLOCK_B)),
    ("block C changed while sealed", |line| line.changes_while_sealed(BLOCK_C)),
    ("flash changed, then refusal 2", |line| line.changed > 0 && line.is_refused(Error::ReadOnly)),
    ("flash changed, then refusal 3", |line| line.changed > 0 && line.is_refused(Error::Sealed)),
    ("flash changed, then refusal 9", |line| line.changed > 0 && line.is_refused(Error::Control)),
    ("flash changed, then 0x61 accepted", |line| line.changed > 0 && line.ends_at(CONTROL)),
    ("refusal 16, one key byte", |line| line.is_refused(Error::Keys) && line.other_keys() == 1),
    ("refusal 16, all key bytes", |line| {
        line.is_refused(Error::Keys) && line.other_keys() == KEYS_LENGTH
    }),
    ("refusal 16, only of the full access key", |line| {
        line.is_refused(Error::Keys) && line.is_window(0..KEYS_LENGTH / 2)
    }),
    ("refusal 8, and else 16", |line| {
        line.is_refused(Error::Checksum)
            && line.has_key_block(Mode::Unsealed)
            && line.other_keys() > 0
    }),
    ("unsealed, key block changed behind the keys", |line| {
        line.has_key_block(Mode::Unsealed) && line.changed > 0
    }),
    ("unsealed, key block committed as it is", |line| {
        line.has_key_block(Mode::Unsealed) && line.commits() && line.changed == 0
    }),
    ("unsealed, another block of class 112 changed", |line| {
        line.mode == Mode::Unsealed && line.changed > 0 && line.is_behind_key_block()
    }),
    ("full access, key changed", |line| {
        line.has_key_block(Mode::FullAccess) && line.keys != line.stored_keys()
    }),
    ("refusal 17 while sealed", |line| line.is_17() && line.mode == Mode::Sealed),
    ("refusal 17, unsealed", |line| line.is_17() && line.mode == Mode::Unsealed),
    ("refusal 17, full access", |line| line.is_17() && line.mode == Mode::FullAccess),
    ("refusal 17 at 2,699", |line| line.is_17() && line.supply == 2_699),
    ("refusal 17 at 0", |line| line.is_17() && line.supply == 0),
    ("refusal 17 with window bytes before", |line| line.is_17() && !line.taken.is_empty()),
    ("refusal 17, nothing to change", |line| line.is_17() && !line.is_edited()),
    ("refusal 17, sealed since the supply", |line| line.is_17() && line.restarted == Some(SEAL)),
    ("refusal 17, reset since the supply", |line| line.is_17() && line.restarted == Some(RESET)),
    ("flash changed at 2,700", |line| line.changed > 0 && line.supply == 2_700),
    ("flash changed at 4,500", |line| line.changed > 0 && line.supply == 4_500),
    ("low supply, refusal 1", |line| line.is_low(Error::Argument) && line.millivolts.is_none()),
    ("low supply, refusal 2", |line| line.is_low(Error::ReadOnly)),
    ("low supply, refusal 3", |line| line.is_low(Error::Sealed)),
    ("low supply, refusal 4", |line| line.is_low(Error::NoClass)),
    ("low supply, refusal 5", |line| line.is_low(Error::NoBlock)),
    ("low supply, refusal 6 of a commit", |line| line.is_low_commit(Error::NotLoaded)),
    ("low supply, refusal 7 of a commit", |line| line.is_low_commit(Error::BlockA)),
    ("low supply, refusal 8", |line| line.is_low(Error::Checksum)),
    ("low supply, refusal 9", |line| line.is_low(Error::Control)),
    ("low supply, refusal 16", |line| line.is_low(Error::Keys)),
    ("supply 0", |line| line.sets(0)),
    ("supply 2,699", |line| line.sets(2_699)),
    ("supply 2,700", |line| line.sets(2_700)),
    ("supply 4,500", |line| line.sets(4_500)),
    ("supply 4,501 refused", |line| line.refuses(4_501)),
    ("supply 0xFFFF refused", |line| line.refuses(0xFFFF)),
    ("supply refused while it is low", |line| line.is_low(Error::Argument) && line.asks()),
    ("supply while sealed", |line| line.asks() && line.mode == Mode::Sealed),
    ("supply, unsealed", |line| line.asks() && line.mode == Mode::Unsealed),
    ("supply, full access", |line| line.asks() && line.mode == Mode::FullAccess),
    ("supply while a key word waits", |line| line.asks() && line.pending.is_some()),
];

pub static EVENTS: LazyLock<Vec<&str>> = LazyLock::new(|| {
    let of_lines = OF_LINES.iter().map(|event| event.0);
    [REFUSED_FILE].into_iter().chain(of_lines).collect()
});

/// Counts the events of one case and answers the number of its script lines.
pub fn count(files: &Files, times: &mut [usize]) -> usize {
    let (refused_file, of_lines) = times.split_first_mut().expect("one count an event");
    let Some((mut gauge, script)) = files.run() else {
        *refused_file += 1;
        return 0;
    };
    let mut buffer = [0; MAX_FRAME];
    let mut lines = 0;
    let mut restarted = None;
    for line in text::lines(script).expect("a valid script") {
        lines += 1;
        let frame = frame(line, &mut buffer).expect("a valid script");
        let low = low_byte(&gauge, frame);
        let line = run(&mut gauge, frame, restarted);
        assert!(line.is_in_bounds(), "the model counts {} changed bytes", line.changed);
        for ((_, is_met), count) in OF_LINES.iter().zip(&mut *of_lines) {
            *count += usize::from(is_met(&line));
        }
        if line.asks() && line.error.is_none() {
            restarted = None;
        } else if line.is_restart() {
            restarted = Some(low);
        }
    }
    lines
}

fn run<'a>(gauge: &'a mut Gauge, frame: Frame, restarted: Option<u8>) -> Line<'a> {
    let Record { mode, pending, supply, .. } = gauge.record;
    let keys = stored_keys(gauge).to_vec();
    let mut millivolts = None;
    let (error, taken, changed) = match frame {
        Frame::Write { register, bytes } => {
            let written = gauge.write(register, bytes);
            let first = usize::from(register);
            (written.error, first..first + written.accepted, written.changed)
        }
        Frame::Read { register, count } => {
            (gauge.read(register, usize::from(count), &mut [0; 255]).err(), 0..0, 0)
        }
        Frame::Supply { millivolts: asked } => {
            millivolts = Some(asked);
            (gauge.set_supply(asked).err(), 0..0, 0)
        }
    };
    Line { mode, keys, pending, supply, restarted, millivolts, gauge, error, taken, changed }
}

/// The low byte of the word that a frame may make.
fn low_byte(gauge: &Gauge, frame: Frame) -> u8 {
    match frame {
        Frame::Write { register: 0x00, bytes: [low, ..] } => *low,
        _ => gauge.record.low,
    }
}

fn stored_keys(gauge: &Gauge) -> &[u8] {
    key_bytes(&gauge.layout, &gauge.image).expect("every layout has the key class")
}

impl Line<'_> {
    fn is_refused(&self, error: Error) -> bool {
        self.error == Some(error)
    }

    fn is_17(&self) -> bool {
        self.is_refused(Error::Supply)
    }

    /// Whether it met a supply too low for a commit and was refused like this.
    fn is_low(&self, error: Error) -> bool {
        self.supply < COMMIT_SUPPLY && self.is_refused(error)
    }

    /// The same of its byte for 0x60.
    fn is_low_commit(&self, error: Error) -> bool {
        self.is_low(error) && self.taken.end == COMMIT
    }

    /// Whether it is a supply frame.
    fn asks(&self) -> bool {
        self.millivolts.is_some()
    }

    fn sets(&self, millivolts: u16) -> bool {
        self.millivolts == Some(millivolts) && self.error.is_none()
    }

    fn refuses(&self, millivolts: u16) -> bool {
        self.millivolts == Some(millivolts) && self.is_refused(Error::Argument)
    }

    /// Whether it obeyed 0x0020 or 0x0041: what the gauge is then, it is but for its supply by
    /// nothing else.
    fn is_restart(&self) -> bool {
        let record = &self.gauge.record;
        let fresh = Record { supply: record.supply, ..Record::power_on(Boot::Sealed) };
        self.taken.contains(&WORD_MADE) && *record == fresh
    }

    fn passes(&self, from: Mode, to: Mode) -> bool {
        (self.mode, self.gauge.record.mode) == (from, to)
    }

    /// In which places two words in a row are not the key that the gauge waited for: none where no
    /// second word was made, or not taken for one of a key, or where they are the key.
    fn wrong_key_bytes(&self) -> Vec<usize> {
        let words = self.pending.zip(self.gauge.record.pending);
        let Some((first, second)) = words.filter(|_| self.taken.contains(&WORD_MADE)) else {
            return Vec::new();
        };
        let key = if self.mode == Mode::Sealed { &self.keys[..4] } else { &self.keys[4..] };
        let sent = [first.to_le_bytes(), second.to_le_bytes()].concat();
        (0..4).filter(|&place| sent[place] != key[place]).collect()
    }

    fn commits(&self) -> bool {
        self.taken.contains(&COMMIT)
    }

    /// Whether it is accepted with its last byte at this register.
    fn ends_at(&self, register: usize) -> bool {
        self.error.is_none() && self.taken.end == register + 1
    }

    /// C-12: "0 unless 0x60 committed, and at most 32"
    fn is_in_bounds(&self) -> bool {
        self.changed == 0 || self.commits() && self.changed <= BLOCK_LENGTH
    }

    /// How many of the loaded block's own bytes a write with a commit has written before that.
    fn own_bytes(&self) -> usize {
        let before = self.taken.start.saturating_sub(WINDOW);
        self.gauge.loaded_bytes().len().saturating_sub(before)
    }

    fn changes_while_sealed(&self, block: Loaded) -> bool {
        self.changed > 0 && self.mode == Mode::Sealed && self.gauge.record.loaded == Some(block)
    }

    fn stored_keys(&self) -> &[u8] {
        stored_keys(self.gauge)
    }

    /// Whether it met this mode and left the block of the keys loaded.
    fn has_key_block(&self, mode: Mode) -> bool {
        self.mode == mode && self.gauge.record.loaded == Some(KEY_BLOCK)
    }

    fn is_behind_key_block(&self) -> bool {
        self.gauge.record.loaded.is_some_and(|loaded| loaded.class == KEY_CLASS && loaded.block > 0)
    }

    /// How many of the first bytes of the window it left are not those of the keys.
    fn other_keys(&self) -> usize {
        count_differing(self.stored_keys(), &self.gauge.record.window)
    }

    /// Whether these bytes of the window are those of the keys.
    fn is_window(&self, keys: Range<usize>) -> bool {
        self.stored_keys()[keys.clone()] == self.gauge.record.window[keys]
    }

    /// Whether the window it left is not as the loaded block is stored.
    fn is_edited(&self) -> bool {
        !self.gauge.record.window.starts_with(self.gauge.loaded_bytes())
    }

    /// Whether the window it left has bytes other than 0 past the loaded block's end.
    fn is_past_end(&self) -> bool {
        let length = self.gauge.loaded_bytes().len();
        self.gauge.record.window[length..].iter().any(|&byte| byte != 0)
    }
}
