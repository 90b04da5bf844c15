//! What is counted of a case, by running its script once more: each kind of cause, and what lies
//! between the cause and the refusal that a wrong answer would take for it.
//!
//! Some cannot be. A write that seals ends at 0x02, so 3 never names the line itself. Nor does 6:
//! of the bytes that unload, 0x3E is followed by 0x3F, which loads or ends the write, and 0x01 and
//! 0x61 by a register that takes no writes. At power-on none is loaded, so 7 and 8 never name 0.
//! With none loaded a checksum is refused with 6, so there is no unload between an 8 and its cause.

use model::error::Error;
use model::layout::checksum;
use model::record::{Boot, Mode, Record, BLOCK_A};
use model::script::{frame, Frame, MAX_FRAME};
use model::text;
use model::why::{Entry, History, Refusal};
use scripts::files::Files;
use std::sync::LazyLock;

const WORD: u8 = 0x01;
const CLASS: u8 = 0x3E;
const BLOCK: u8 = 0x3F;
const COMMIT: u8 = 0x60;
const CONTROL: u8 = 0x61;
/// The low bytes of the words 0x0020 and 0x0041.
const SEAL: u8 = 0x20;
const RESET: u8 = 0x41;

/// What a script has done up to a line.
struct Past {
    history: History,
    /// Line and register of each refused byte.
    refused: Vec<(u32, u8)>,
    /// The line of the first refused read.
    refused_read: Option<u32>,
    /// The line of the last supply that was set.
    supply: Option<u32>,
}

/// A refused write or supply.
struct Refused<'a> {
    /// With this line in it.
    past: &'a Past,
    refusal: Refusal,
    is_supply: bool,
}

type IsMet = fn(&Refused) -> bool;

/// The events of a whole case, before those of its refusals.
const OF_CASES: [&str; 2] = ["output 0A", "nothing refused"];

/// An event of any refusal, and whether a refused write meets it.
const OF_ANY: &[(&str, IsMet)] = &[
    ("refused read before the cause", |write| write.is_after_refused_read()),
    ("cause above line 255", |write| write.cause() > 255),
];

use Error::Supply;
use Error::{
    Argument, BlockA, Checksum, Control, Keys, NoBlock, NoClass, NotLoaded, ReadOnly, Sealed,
};

/// An event of one refusal.
const OF_ONE: &[(&str, Error, IsMet)] = &[
    ("1, the line itself", Argument, |write| !write.is_supply),
    ("1, a supply's own line", Argument, |write| write.is_supply),
    ("2, the line itself", ReadOnly, |_| true),
    ("9, the line itself", Control, |_| true),
    ("16, window written before", Keys, |write| !write.has_own_window()),
    ("16, window written by the line itself", Keys, |write| write.has_own_window()),
    ("17, window written before", Supply, |write| !write.has_own_window()),
    ("17, window written by the line itself", Supply, |write| write.has_own_window()),
    ("3, sealed since power-on", Sealed, |write| write.cause() == 0),
    ("3, sealed by 0x0020", Sealed, |write| write.is_by(is_seal)),
    ("3, sealed by 0x0041", Sealed, |write| write.is_by(is_reset)),
    ("3, sealed again since", Sealed, |write| write.has_since(starts_anew)),
    ("3, supply set since", Sealed, |write| write.has_supply_since()),
    ("6, none loaded since power-on", NotLoaded, |write| write.cause() == 0),
    ("6, unloaded by 0x3E", NotLoaded, |write| write.is_by(|e| e.register == CLASS && unloads(e))),
    ("6, unloaded by 0x61", NotLoaded, |write| write.is_by(|e| e.register == CONTROL)),
    ("6, unloaded by 0x0020", NotLoaded, |write| write.is_by(is_seal)),
    ("6, unloaded by 0x0041", NotLoaded, |write| write.is_by(is_reset)),
    ("6, loaded and unloaded in one write", NotLoaded, |write| write.is_by_load_and_unload()),
    ("6, unloaded again since", NotLoaded, |write| write.has_since(unloads_again)),
    ("6, load refused since", NotLoaded, |write| write.has_refused_since(BLOCK)),
    ("6, mode changed since", NotLoaded, |write| write.has_since(changes_mode)),
    ("6, supply set since", NotLoaded, |write| write.has_supply_since()),
    ("7, A loaded before", BlockA, |write| !write.is_own()),
    ("7, A loaded by the line itself", BlockA, |write| write.is_own()),
    ("7, A loaded over B or C", BlockA, |write| write.is_by(|e| e.before.loaded.is_some())),
    ("7, A loaded over A since", BlockA, |write| write.has_since(loads_a_over_a)),
    ("7, load refused since", BlockA, |write| write.has_refused_since(BLOCK)),
    ("7, supply set since", BlockA, |write| write.has_supply_since()),
    ("4, class 0 since power-on", NoClass, |write| write.cause() == 0),
    ("4, class set before", NoClass, |write| write.is_by_class_before()),
    ("4, class set by the line itself", NoClass, |write| write.is_own()),
    ("4, class set to 0 by 0x0020", NoClass, |write| write.is_by_class_of(SEAL)),
    ("4, class set to 0 by 0x0041", NoClass, |write| write.is_by_class_of(RESET)),
    ("4, same class set since", NoClass, |write| write.has_since(sets_same_class)),
    ("4, sealed or reset since", NoClass, |write| write.has_since(starts_anew)),
    ("4, supply set since", NoClass, |write| write.has_supply_since()),
    ("5, class 0 since power-on", NoBlock, |write| write.cause() == 0),
    ("5, class set before", NoBlock, |write| write.is_by_class_before()),
    ("5, class set by the line itself", NoBlock, |write| write.is_general() && write.is_own()),
    ("5, class set to 0 by 0x0020", NoBlock, |write| write.is_by_class_of(SEAL)),
    ("5, class set to 0 by 0x0041", NoBlock, |write| write.is_by_class_of(RESET)),
    ("5, same class set since", NoBlock, |write| write.has_since(sets_same_class)),
    ("5, sealed or reset since", NoBlock, |write| write.has_since(starts_anew)),
    ("5, supply set since", NoBlock, |write| write.has_supply_since()),
    ("5 while sealed", NoBlock, |write| write.is_sealed()),
    ("5 open, BlockDataControl 1", NoBlock, |write| !write.is_sealed() && !write.is_general()),
    ("8, loaded before", Checksum, |write| !write.is_own() && write.is_by_load()),
    ("8, window written before", Checksum, |write| !write.is_own() && !write.is_by_load()),
    ("8, window written by the line itself", Checksum, |write| write.is_own()),
    ("8, loaded as it was", Checksum, |write| write.is_by_same_window() && write.is_by_load()),
    ("8, written as it was", Checksum, |write| write.is_by_same_window() && !write.is_by_load()),
    ("8, checksum changed by the line itself", Checksum, |write| write.changes_checksum()),
    ("8, commit since", Checksum, |write| write.has_since(commits)),
    ("8, load refused since", Checksum, |write| write.has_refused_since(BLOCK)),
    ("8, refused with 8 since", Checksum, |write| write.has_refused_since(COMMIT)),
    ("8, mode changed since", Checksum, |write| write.has_since(changes_mode)),
    ("8, supply set since", Checksum, |write| write.has_supply_since()),
];

pub static EVENTS: LazyLock<Vec<&str>> = LazyLock::new(|| {
    let of_any = OF_ANY.iter().map(|event| event.0);
    let of_one = OF_ONE.iter().map(|event| event.0);
    OF_CASES.into_iter().chain(of_any).chain(of_one).collect()
});

/// Counts the events of one case and answers the number of its refused writes and supplies.
pub fn count(files: &Files, times: &mut [usize]) -> usize {
    let (of_case, of_writes) = times.split_at_mut(OF_CASES.len());
    let Some((gauge, script)) = files.run() else {
        of_case[0] += 1;
        return 0;
    };
    let history = History::new(gauge);
    let mut past = Past { history, refused: Vec::new(), refused_read: None, supply: None };
    let mut buffer = [0; MAX_FRAME];
    let mut explained = 0;
    for line in text::lines(script).expect("a valid script") {
        let frame = frame(line, &mut buffer).expect("a valid script");
        if let Some(refusal) = past.run(frame) {
            let is_supply = matches!(frame, Frame::Supply { .. });
            Refused { past: &past, refusal, is_supply }.count(of_writes);
            explained += 1;
        }
    }
    of_case[1] += usize::from(explained == 0);
    explained
}

impl Past {
    fn run(&mut self, frame: Frame) -> Option<Refusal> {
        let refusal = self.history.run(frame);
        match (frame, refusal) {
            (Frame::Read { register, count }, _) => self.see_read(register, count),
            (Frame::Write { register, .. }, Some(refusal)) => self.see_refused(register, refusal),
            (Frame::Supply { .. }, None) => self.supply = Some(self.history.line),
            _ => {}
        }
        refusal
    }

    fn see_read(&mut self, register: u8, count: u8) {
        let gauge = &self.history.gauge;
        if gauge.read(register, usize::from(count), &mut [0; 255]).is_err() {
            self.refused_read.get_or_insert(self.history.line);
        }
    }

    /// A write from this register; 1 refuses no byte.
    fn see_refused(&mut self, register: u8, refusal: Refusal) {
        if refusal.error != Argument {
            let accepted = self.entries_of(self.history.line).len();
            self.refused.push((self.history.line, register + accepted as u8));
        }
    }

    /// The accepted bytes of a line; none of line 0.
    fn entries_of(&self, line: u32) -> &[Entry] {
        let entries = &self.history.entries;
        let start = entries.partition_point(|entry| entry.line < line);
        let end = entries.partition_point(|entry| entry.line <= line);
        &entries[start..end]
    }
}

impl Refused<'_> {
    fn count(&self, times: &mut [usize]) {
        let (of_any, of_one) = times.split_at_mut(OF_ANY.len());
        for ((_, is_met), count) in OF_ANY.iter().zip(of_any) {
            *count += usize::from(is_met(self));
        }
        for ((_, error, is_met), count) in OF_ONE.iter().zip(of_one) {
            *count += usize::from(self.refusal.error == *error && is_met(self));
        }
    }

    fn cause(&self) -> u32 {
        self.refusal.cause
    }

    fn record(&self) -> &Record {
        &self.past.history.gauge.record
    }

    fn is_own(&self) -> bool {
        self.cause() == self.past.history.line
    }

    fn is_general(&self) -> bool {
        self.record().general_access()
    }

    fn is_sealed(&self) -> bool {
        self.record().mode == Mode::Sealed
    }

    fn is_after_refused_read(&self) -> bool {
        self.past.refused_read.is_some_and(|line| line < self.cause())
    }

    /// The accepted bytes of the line that is the cause.
    fn of_cause(&self) -> &[Entry] {
        self.past.entries_of(self.cause())
    }

    /// Whether the line that is the cause has such a byte.
    fn is_by(&self, is_such: fn(&Entry) -> bool) -> bool {
        self.of_cause().iter().any(is_such)
    }

    /// Whether a line after the cause has such a byte, the refused line included.
    fn has_since(&self, is_such: fn(&Entry) -> bool) -> bool {
        let entries = &self.past.history.entries;
        let start = entries.partition_point(|entry| entry.line <= self.cause());
        entries[start..].iter().any(is_such)
    }

    /// Whether a line between the cause and this one was refused at this register.
    fn has_refused_since(&self, register: u8) -> bool {
        let line = self.past.history.line;
        let mut later = self.past.refused.iter().rev().take_while(|entry| entry.0 > self.cause());
        later.any(|entry| entry.0 < line && entry.1 == register)
    }

    /// Whether a supply was set between the cause and this line.
    fn has_supply_since(&self) -> bool {
        !self.is_own() && self.past.supply.is_some_and(|line| line > self.cause())
    }

    /// Whether the write that is the cause met no loaded block and left none.
    fn is_by_load_and_unload(&self) -> bool {
        self.of_cause().first().is_some_and(|entry| entry.before.loaded.is_none())
    }

    fn is_by_class_before(&self) -> bool {
        !self.is_own() && self.is_by(|entry| entry.register == CLASS && changes_class(entry))
    }

    /// Whether it was 0x0020 or 0x0041, by its low byte, that gave the class register another
    /// number.
    fn is_by_class_of(&self, low: u8) -> bool {
        let is_such = |entry: &Entry| is_word(entry, low) && changes_class(entry);
        !self.is_own() && self.of_cause().iter().any(is_such)
    }

    /// The bytes of the cause that wrote or loaded the window.
    fn window_entries(&self) -> impl Iterator<Item = &Entry> {
        self.of_cause().iter().filter(|entry| (BLOCK..COMMIT).contains(&entry.register))
    }

    /// Whether the refused line itself wrote or loaded the window, if it is the cause.
    fn has_own_window(&self) -> bool {
        self.is_own() && self.window_entries().next().is_some()
    }

    fn is_by_load(&self) -> bool {
        self.window_entries().last().is_some_and(|entry| entry.register == BLOCK)
    }

    /// Whether the cause wrote or loaded what the window had already.
    fn is_by_same_window(&self) -> bool {
        self.window_entries().all(|entry| entry.before.window == entry.after.window)
    }

    /// Whether the refused line itself gave the window another checksum.
    fn changes_checksum(&self) -> bool {
        let own = self.past.entries_of(self.past.history.line).first();
        own.is_some_and(|entry| checksum(&entry.before.window) != checksum(&self.record().window))
    }
}

/// Whether it is the high byte of 0x0020 or 0x0041.
fn starts_anew(entry: &Entry) -> bool {
    let fresh = Record { supply: entry.after.supply, ..Record::power_on(Boot::Sealed) };
    entry.register == WORD && entry.after == fresh
}

/// The same, by the word's low byte.
fn is_word(entry: &Entry, low: u8) -> bool {
    starts_anew(entry) && entry.before.low == low
}

fn is_seal(entry: &Entry) -> bool {
    is_word(entry, SEAL)
}

fn is_reset(entry: &Entry) -> bool {
    is_word(entry, RESET)
}

fn unloads(entry: &Entry) -> bool {
    entry.before.loaded.is_some() && entry.after.loaded.is_none()
}

/// Whether it unloads although none is loaded.
fn unloads_again(entry: &Entry) -> bool {
    let is_unload = [CLASS, CONTROL].contains(&entry.register) || starts_anew(entry);
    is_unload && entry.before.loaded.is_none()
}

fn changes_mode(entry: &Entry) -> bool {
    entry.before.mode != entry.after.mode
}

fn changes_class(entry: &Entry) -> bool {
    entry.before.class != entry.after.class
}

fn sets_same_class(entry: &Entry) -> bool {
    entry.register == CLASS && !changes_class(entry)
}

fn loads_a_over_a(entry: &Entry) -> bool {
    entry.register == BLOCK && [&entry.before, &entry.after].map(|r| r.loaded) == [Some(BLOCK_A); 2]
}

fn commits(entry: &Entry) -> bool {
    entry.register == COMMIT
}
