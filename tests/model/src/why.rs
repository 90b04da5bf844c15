//! C-13, "Tell the operator why": what the tool prints for an image file and a script file. The
//! whole history is kept, one entry a byte that was accepted, and searched backwards for each
//! refused write. C-16: "C-13 lists a refused supply frame too".

use crate::error::Error;
use crate::gauge::Gauge;
use crate::imagefile;
use crate::layout::checksum;
use crate::record::{Boot, Mode, Record, BLOCK_A};
use crate::script::{frame, is_valid, Frame, MAX_FRAME};
use crate::text::{lines, push_byte, push_bytes};
use std::io::{self, Write};

/// A byte that was accepted.
#[derive(Clone, Debug)]
pub struct Entry {
    /// "Lines count from 1".
    pub line: u32,
    pub register: u8,
    pub before: Record,
    pub after: Record,
}

/// "the refusal and then the line that caused it"
#[derive(Clone, Copy, Debug, PartialEq, Eq)]
pub struct Refusal {
    pub error: Error,
    pub cause: u32,
    /// For 8 "then the checksum that would have matched".
    pub checksum: Option<u8>,
}

/// "the script's history": the gauge, the number of its last line, and every byte that it accepted.
#[derive(Clone, Debug)]
pub struct History {
    pub gauge: Gauge,
    pub line: u32,
    pub entries: Vec<Entry>,
}

impl History {
    pub fn new(gauge: Gauge) -> History {
        History { gauge, line: 0, entries: Vec::new() }
    }

    /// Runs the frame of the next line. "one hexadecimal line a refused write": a refused read is a
    /// line of the script all the same.
    pub fn run(&mut self, frame: Frame) -> Option<Refusal> {
        self.line += 1;
        match frame {
            Frame::Write { register, bytes } => self.write(register, bytes),
            Frame::Read { .. } => None,
            Frame::Supply { millivolts } => {
                self.gauge.set_supply(millivolts).err().map(|error| self.explain(error))
            }
        }
    }

    /// "A write takes its bytes one by one at r, r+1 and so on.": as many writes of one byte as it
    /// has accepted ones.
    fn write(&mut self, register: u8, bytes: &[u8]) -> Option<Refusal> {
        let (error, accepted) = self.gauge.clone().take(register, bytes);
        for (&byte, register) in bytes[..accepted].iter().zip(register..) {
            self.accept(register, byte);
        }
        error.map(|error| self.explain(error))
    }

    fn accept(&mut self, register: u8, byte: u8) {
        let before = self.gauge.record.clone();
        let answer = self.gauge.take(register, &[byte]);
        assert_eq!(answer, (None, 1), "a byte of a write is accepted alone as well");
        let after = self.gauge.record.clone();
        self.entries.push(Entry { line: self.line, register, before, after });
    }

    /// The reason for a refusal, with the line's own accepted bytes in the history.
    fn explain(&self, error: Error) -> Refusal {
        let record = &self.gauge.record;
        let cause = match error {
            // "For 3, 6 and 7 it is the line of the latest byte after which sealed, none loaded, or
            // block A loaded while sealed holds and before which it did not"
            Error::Sealed => self.began(is_sealed),
            Error::NotLoaded => self.began(has_none_loaded),
            Error::BlockA => self.began(has_block_a_sealed),
            // "For 4 and 5 in general access"
            Error::NoClass => self.class_changed(),
            Error::NoBlock if record.general_access() => self.class_changed(),
            Error::Checksum => self.window_touched(),
            // "For 1, 2 and 9 that is the line itself."; "for 5 otherwise, the line itself"; C-16,
            // of a supply and of 17: "for both names the line itself"
            _ => self.line,
        };
        let matching = checksum(&record.window);
        Refusal { error, cause, checksum: (error == Error::Checksum).then_some(matching) }
    }

    /// The line since which this holds; "0 if so since power-on".
    fn began(&self, holds: fn(&Record) -> bool) -> u32 {
        self.latest(|entry| holds(&entry.after) && !holds(&entry.before))
    }

    /// "the line that last gave the class register another number, or 0"
    fn class_changed(&self) -> u32 {
        self.latest(|entry| entry.after.class != entry.before.class)
    }

    /// "the last line that wrote or loaded the window": 0x40 to 0x5F, whatever was there, or 0x3F
    fn window_touched(&self) -> u32 {
        self.latest(|entry| matches!(entry.register, 0x3F..=0x5F))
    }

    /// The line of the latest such byte, 0 if there is none.
    fn latest(&self, is_such: impl Fn(&Entry) -> bool) -> u32 {
        self.entries.iter().rfind(|entry| is_such(entry)).map_or(0, |entry| entry.line)
    }
}

fn is_sealed(record: &Record) -> bool {
    record.mode == Mode::Sealed
}

fn has_none_loaded(record: &Record) -> bool {
    record.loaded.is_none()
}

fn has_block_a_sealed(record: &Record) -> bool {
    record.loaded == Some(BLOCK_A) && is_sealed(record)
}

/// The output as one text. `None` is a file that is missing or cannot be read.
pub fn why(image: Option<&[u8]>, script: Option<&[u8]>) -> Vec<u8> {
    let mut output = Vec::new();
    run(image, script, &mut output).expect("a vector takes every byte");
    output
}

/// "a tool over image.hex and script.hex, run as the replay runs them"
pub fn run(image: Option<&[u8]>, script: Option<&[u8]>, output: &mut impl Write) -> io::Result<()> {
    let good_script = script.filter(|text| is_valid(text) && is_countable(line_count(text)));
    let good_image = image.and_then(|text| imagefile::read(text).ok());
    // "A file that breaks its rules prints the single line 0A."
    let (Some((layout, image)), Some(script)) = (good_image, good_script) else {
        return output.write_all(b"0A\n");
    };
    let mut history = History::new(Gauge::power_on(layout, image, Boot::Sealed));
    let mut buffer = [0; MAX_FRAME];
    for line in lines(script).into_iter().flatten() {
        let refusal = frame(line, &mut buffer).and_then(|frame| history.run(frame));
        if let Some(refusal) = refusal {
            output.write_all(&printed(refusal))?;
        }
    }
    Ok(())
}

fn line_count(text: &[u8]) -> usize {
    lines(text).map_or(0, Iterator::count)
}

/// "for this tool a script of more lines than four bytes can count breaks its rules"
fn is_countable(lines: usize) -> bool {
    u32::try_from(lines).is_ok()
}

/// "the refusal and then the line that caused it [...] four bytes, high first"; for 8 "then the
/// checksum that would have matched".
fn printed(refusal: Refusal) -> Vec<u8> {
    let mut line = Vec::new();
    push_byte(&mut line, refusal.error.number());
    push_bytes(&mut line, &refusal.cause.to_be_bytes());
    push_bytes(&mut line, refusal.checksum.as_slice());
    line.push(b'\n');
    line
}

#[cfg(test)]
mod tests {
    use super::*;
    use crate::gauge::tests::gauge;
    use crate::layout::Class;
    use crate::script::answer;

    const SEAL: (&str, &str) = ("01002000", "");
    const RESET: (&str, &str) = ("01004100", "");
    /// The two key words, and general access: three lines.
    const OPEN: [(&str, &str); 3] = [("01001404", ""), ("01007236", ""), ("016100", "")];

    /// Each line of a script with what is printed for it, "" where it is not refused. A gauge that
    /// takes its writes whole runs alongside.
    fn check_on(gauge: Gauge, script: &[(&str, &str)]) {
        let mut whole = gauge.clone();
        let mut history = History::new(gauge);
        let mut buffer = [0; MAX_FRAME];
        for (line, expected) in script {
            let frame = frame(line.as_bytes(), &mut buffer).unwrap();
            let output = history.run(frame).map(printed).unwrap_or_default();
            let output = String::from_utf8(output).unwrap();
            assert_eq!(output.trim_end(), *expected, "line {}: {line}", history.line);
            answer(&mut whole, frame, &mut Vec::new());
            assert_eq!(history.gauge.record, whole.record);
            assert_eq!(history.gauge.image, whole.image);
        }
    }

    fn check(script: &[(&str, &str)]) {
        check_on(gauge(Boot::Sealed), script);
    }

    /// With the three lines of `OPEN` first, so that the first line here is line 4.
    fn check_open(script: &[(&str, &str)]) {
        check(&[&OPEN, script].concat());
    }

    /// A write at 0x3F: block 0, 32 window bytes 03, their checksum, and these bytes after it.
    fn load_to_commit(after: &str) -> String {
        format!("013F00{}9F{after}", "03".repeat(32))
    }

    #[test]
    fn for_1_2_and_9_the_line_itself() {
        check_open(&[
            ("0140", "0100000004"),
            ("017F0000", "0100000005"),
            ("01FF00", "0100000006"),
            ("010200", "0200000007"),
            ("0100000000", "0200000008"),
            ("016102", "0900000009"),
        ]);
        check_open(&[("013E30", ""), (&load_to_commit("02"), "0900000005")]);
    }

    #[test]
    fn sealed_since_power_on() {
        check(&[("013E30", "0300000000"), ("016100", "0300000000"), ("016102", "0300000000")]);
        check(&[SEAL, RESET, ("013E30", "0300000000")]);
    }

    #[test]
    fn the_line_that_sealed() {
        check_open(&[SEAL, ("013E30", "0300000004"), ("016100", "0300000004")]);
        check_open(&[RESET, ("013E30", "0300000004")]);
        // a word in two lines is obeyed at its high byte
        check_open(&[("010020", ""), ("010100", ""), ("013E30", "0300000005")]);
        // and in a write that is refused after it
        check_open(&[("0100200000", "0200000004"), ("013E30", "0300000004")]);
    }

    #[test]
    fn sealing_again_while_sealed_is_no_change() {
        check_open(&[SEAL, SEAL, RESET, ("013E30", "0300000004")]);
        let twice = [&[SEAL][..], &OPEN, &[SEAL, SEAL, ("013E30", "0300000008")]].concat();
        check_open(&twice);
    }

    #[test]
    fn none_loaded_since_power_on() {
        check(&[("0160FF", "0600000000"), ("014000", "0600000000"), ("015F00", "0600000000")]);
        // unloaded, but nothing was loaded
        check_open(&[("013E30", ""), SEAL, RESET, ("014000", "0600000000")]);
    }

    #[test]
    fn the_line_that_unloaded() {
        for unload in [("013E30", ""), ("013E3A", ""), ("016100", ""), ("016101", ""), SEAL, RESET]
        {
            check_open(&[("013E3000", ""), unload, ("014000", "0600000005")]);
        }
    }

    #[test]
    fn unloading_again_is_no_change() {
        let again = [("013E30", ""), ("016101", ""), ("013E31", ""), SEAL, RESET];
        let load_and_unload = [("013E3000", ""), ("016100", "")];
        let refused = [("014000", "0600000005"), ("0160FF", "0600000005")];
        check_open(&[&load_and_unload[..], &again, &refused].concat());
    }

    #[test]
    fn a_load_over_another_block_is_no_change_of_none_loaded() {
        check(&[("013F02", ""), ("013F01", ""), ("013F03", ""), SEAL, ("014000", "0600000004")]);
        check(&[("013F02", ""), SEAL, ("013F03", ""), SEAL, ("014000", "0600000004")]);
    }

    #[test]
    fn a_refused_load_is_no_change() {
        check_open(&[
            ("013E3000", ""),
            ("013E30", ""),
            ("013F02", "0500000004"),
            ("014000", "0600000005"),
        ]);
        check(&[("013F04", "0500000001"), ("014000", "0600000000")]);
    }

    #[test]
    fn key_words_and_the_status_are_no_change() {
        let full_access = [("01000102", ""), ("01000304", ""), ("01000000", "")];
        let before = [("013E3000", ""), ("016100", "")];
        check_open(&[&before[..], &full_access, &[("014000", "0600000005")]].concat());
        check(&[&[("014000", "0600000000")], &OPEN[..], &[("014000", "0600000000")]].concat());
    }

    #[test]
    fn a_change_inside_one_write_counts() {
        let load_and_unload = load_to_commit("00");
        check_open(&[("013E30", ""), (&load_and_unload, ""), ("014000", "0600000005")]);
        let refused_after = load_to_commit("0000");
        check_open(&[
            ("013E30", ""),
            (&refused_after, "0200000005"),
            ("014000", "0600000005"),
            (&load_and_unload, ""),
            (&load_and_unload, ""),
            ("014000", "0600000008"),
        ]);
    }

    #[test]
    fn block_a_loaded_while_sealed() {
        check(&[("013F01", ""), ("014000", "0700000001"), ("0160FF", "0700000001")]);
        check(&[("013F02", ""), ("013F01", ""), ("014000", "0700000002")]);
        check(&[("013F01", ""), ("013F02", ""), ("013F01", ""), ("014000", "0700000003")]);
        check(&[("013F01", ""), SEAL, ("013F01", ""), ("014000", "0700000003")]);
        // in the line itself
        check(&[("013F0100", "0700000001"), ("014000", "0700000001")]);
        check(&[("013F02", ""), ("013F0100", "0700000002")]);
    }

    #[test]
    fn block_a_over_block_a_is_no_change() {
        check(&[("013F01", ""), ("013F01", ""), ("013F0100", "0700000001")]);
        check(&[("013F01", ""), ("013F04", "0500000002"), ("014000", "0700000001")]);
        check(&[("013F01", ""), ("01001404", ""), ("014000", "0700000001")]);
    }

    #[test]
    fn for_4_the_line_that_gave_the_class_another_number() {
        check_open(&[("013F00", "0400000000")]);
        check_open(&[("013E31", ""), ("013F00", "0400000004")]);
        check_open(&[("013E30", ""), ("013E31", ""), ("013F00", "0400000005")]);
        check_open(&[("013E31", ""), ("013E30", ""), ("013E31", ""), ("013F00", "0400000006")]);
        // in the line itself
        check_open(&[("013E30", ""), ("013E3100", "0400000005"), ("013F01", "0400000005")]);
    }

    #[test]
    fn for_5_in_general_access_too() {
        check_open(&[("013E30", ""), ("013F02", "0500000004")]);
        check_open(&[("013E30", ""), ("013F01", ""), ("013F02", "0500000004")]);
        check_open(&[("013E31", ""), ("013E3002", "0500000005"), ("013F03", "0500000005")]);
        let mut with_class_0 = gauge(Boot::Sealed);
        with_class_0.layout.classes.insert(0, Class { id: 0, length: 1 });
        with_class_0.image.insert(0, 0);
        check_on(with_class_0, &[&OPEN[..], &[("013F01", "0500000000")]].concat());
    }

    #[test]
    fn the_class_written_with_its_own_number_is_no_change() {
        check_open(&[("013E31", ""), ("013E31", ""), ("013E3100", "0400000004")]);
        check_open(&[("013E30", ""), ("013E30", ""), ("013E3002", "0500000004")]);
        check_open(&[("013E00", ""), ("013F00", "0400000000")]);
    }

    #[test]
    fn sealing_and_reset_set_another_class_to_0() {
        let refused = [&OPEN[..], &[("013F00", "0400000005")]].concat();
        for word in [SEAL, RESET] {
            check_open(&[&[("013E30", ""), word], &refused[..]].concat());
            check_open(&[&[("013E30", ""), word, SEAL, RESET], &refused[..]].concat());
            // a class that is 0 stays it
            check_open(&[&[word], &OPEN[..], &[("013F00", "0400000000")]].concat());
        }
        // and 0x3E is refused while sealed
        let sealed = [SEAL, ("013E31", "0300000004")];
        check_open(&[&sealed, &OPEN[..], &[("013F00", "0400000000")]].concat());
    }

    #[test]
    fn for_5_otherwise_the_line_itself() {
        check(&[("013F00", "0500000001"), ("013F04", "0500000002"), ("013FFF", "0500000003")]);
        check_open(&[("013E30", ""), ("016101", ""), ("013F00", "0500000006")]);
        check_open(&[("013E30", ""), SEAL, ("013F0400", "0500000006")]);
    }

    #[test]
    fn the_last_line_that_wrote_or_loaded_the_window() {
        check(&[("013F02", ""), ("0160FF", "08000000019F"), ("016000", "08000000019F")]);
        check(&[("013F02", ""), ("0140BC", ""), ("0160FF", "08000000029E")]);
        check(&[("013F02", ""), ("0140BC", ""), ("013F03", ""), ("0160FF", "08000000037F")]);
        check(&[("013F02", ""), ("013F02", ""), ("0160FF", "08000000029F")]);
        // a write that is refused after it
        check(&[("013F02", ""), ("015FBC00", "08000000029E"), ("0160FF", "08000000029E")]);
        let three = "03".repeat(32);
        check_open(&[("013E30", ""), (&format!("013F00{three}00"), "08000000059F")]);
        // past the end of a short block
        check_open(&[("013E3001", ""), ("015F01", ""), ("0160FF", "0800000005DE")]);
    }

    #[test]
    fn a_window_byte_counts_with_the_value_that_was_there() {
        check(&[("013F02", ""), ("0140BB", ""), ("016000", "08000000029F")]);
        check(&[("013F02", ""), ("0140BC", ""), ("0140BC", ""), ("016000", "08000000039E")]);
    }

    #[test]
    fn a_commit_a_key_and_a_refused_byte_do_not_count() {
        check(&[("013F02", ""), ("0140BC", ""), ("01609E", ""), ("016000", "08000000029E")]);
        check(&[("013F02", ""), ("013F00", "0500000002"), ("016000", "08000000019F")]);
        check(&[("013F02", ""), OPEN[0], OPEN[1], ("016000", "08000000019F")]);
        // nor do unloads, of which there is none after the latest load
        check(&[("013F02", ""), SEAL, ("013F03", ""), ("016000", "08000000037F")]);
    }

    #[test]
    fn the_checksum_is_that_at_the_refusal() {
        let written = [("013F02", ""), ("015EBCBC00", "08000000029D")];
        let one_back = [("015EBB", ""), ("016000", "08000000039E")];
        check(&[&written[..], &one_back, &[("015FBB00", "08000000059F")]].concat());
        check(&[("013F02", ""), ("015FBC9F", "08000000029E"), ("01609E", "")]);
    }

    #[test]
    fn refused_reads_are_lines_and_are_not_listed() {
        let reads = [("007F02", ""), ("000000", ""), ("004001", "")];
        check(&[&reads[..], &[("0140", "0100000004")]].concat());
        check(&[&[("013F01", "")], &reads[..], &[("014000", "0700000001")]].concat());
        check(&[&reads[..], &[("013F0100", "0700000004")]].concat());
    }

    #[test]
    fn a_refused_supply_and_17_name_the_line_itself() {
        check(&[("021195", "0100000001"), ("02FFFF", "0100000002"), ("021194", "")]);
        let low = [("013F02", ""), ("020A8B", ""), ("0140BC", "")];
        let refused = [("01609E", "1100000004"), ("0140BC", ""), ("015FBC9D", "1100000006")];
        check(&[&low[..], &refused, &[("020A8C", ""), ("01609D", "")]].concat());
    }

    #[test]
    fn a_supply_is_a_line_and_leaves_every_reason() {
        let low = ("020000", "");
        check(&[low, ("013E30", "0300000000"), ("0160FF", "0600000000")]);
        check(&[("013F01", ""), low, ("014000", "0700000001")]);
        check(&[("013F02", ""), low, ("021195", "0100000003"), ("016000", "08000000019F")]);
        check_open(&[("013E31", ""), low, ("013F00", "0400000004")]);
        check_open(&[("013E30", ""), low, SEAL, ("013E30", "0300000006")]);
        check_open(&[("013E3000", ""), ("016100", ""), low, ("014000", "0600000005")]);
    }

    #[test]
    fn four_bytes_high_first() {
        let refusal = Refusal { error: Error::NotLoaded, cause: 0x0102_03FF, checksum: None };
        assert_eq!(printed(refusal), b"06010203FF\n");
        let refusal = Refusal { error: Error::Checksum, cause: 10, checksum: Some(0x0B) };
        assert_eq!(printed(refusal), b"080000000A0B\n");
    }

    #[test]
    fn whole_files() {
        let gauge = gauge(Boot::Sealed);
        let image = imagefile::write(&gauge.layout, &gauge.image).unwrap();
        let refused = |script: &[u8]| why(Some(&image), Some(script));
        assert_eq!(refused(b"0160FF\n007F02\n013F02\n016000\n"), b"0600000000\n08000000039F\n");
        // nothing is refused
        assert_eq!(refused(b""), b"");
        assert_eq!(refused(b"013F02\n004020\n007F02\n"), b"");
        // "breaks its rules"
        assert_eq!(refused(b"0160FF\n02\n"), b"0A\n");
        assert_eq!(refused(b"0160FF"), b"0A\n");
        assert_eq!(why(Some(&image[1..]), Some(b"0160FF\n")), b"0A\n");
        assert_eq!(why(None, Some(b"")), b"0A\n");
        assert_eq!(why(Some(&image), None), b"0A\n");
        assert_eq!(why(None, None), b"0A\n");
    }

    #[test]
    fn as_many_lines_as_four_bytes_can_count() {
        assert!(is_countable(4_294_967_295));
        assert!(!is_countable(4_294_967_296));
        assert_eq!(line_count(b"0140\n000001\n"), 2);
    }
}
