//! 01, "The replay program": the whole output for an image file and a script file.

use crate::gauge::Gauge;
use crate::imagefile;
use crate::record::Boot;
use crate::script::{answer, frame, is_valid, MAX_FRAME};
use crate::text::lines;
use std::io::{self, Write};

/// The output as one text. `None` is a file that is missing or cannot be read.
pub fn replay(image: Option<&[u8]>, script: Option<&[u8]>) -> Vec<u8> {
    let mut output = Vec::new();
    run(image, script, &mut output).expect("a vector takes every byte");
    output
}

/// "It reads image.hex and script.hex and prints one line an answer, powered on sealed."
pub fn run(image: Option<&[u8]>, script: Option<&[u8]>, output: &mut impl Write) -> io::Result<()> {
    let good_script = script.filter(|text| is_valid(text));
    let good_image = image.and_then(|text| imagefile::read(text).ok());
    // "A file that breaks its rules prints the single line 0A."
    let (Some((layout, image)), Some(script)) = (good_image, good_script) else {
        return output.write_all(b"0A\n");
    };
    let mut gauge = Gauge::power_on(layout, image, Boot::Sealed);
    let mut buffer = [0; MAX_FRAME];
    let mut reply = Vec::new();
    for line in lines(script).into_iter().flatten() {
        if let Some(frame) = frame(line, &mut buffer) {
            reply.clear();
            answer(&mut gauge, frame, &mut reply);
            output.write_all(&reply)?;
        }
    }
    Ok(())
}

#[cfg(test)]
mod tests {
    use super::*;

    /// Script and whole output of document 01's session. C-12: "the session's tenth line reads
    /// 000101 and its other write lines end in 00".
    const SESSION: [(&str, &str); 12] = [
        ("013E30", "030000"),
        ("01001404", "000200"),
        ("01007236", "000200"),
        ("016100", "000100"),
        ("013E3000", "000200"),
        ("004006", "00000000000001"),
        ("006001", "00FE"),
        ("014502", "000100"),
        ("0160FE", "080000"),
        ("0160FD", "000101"),
        ("01000000", "000200"),
        ("000002", "000040"),
    ];

    fn session_image() -> Vec<u8> {
        let zeros = "00".repeat(32);
        let keys = format!("14047236{}", "FF".repeat(24));
        let lines = [
            "3000000000000001FE".to_string(),
            format!("3A00{zeros}FF"),
            format!("3A01{zeros}FF"),
            format!("3A02{zeros}FF"),
            format!("7000{keys}57"),
        ];
        lines.map(|line| line + "\n").concat().into_bytes()
    }

    fn column(side: fn(&(&'static str, &'static str)) -> &'static str) -> Vec<u8> {
        SESSION.iter().map(|line| format!("{}\n", side(line))).collect::<String>().into_bytes()
    }

    #[test]
    fn the_session() {
        let script = column(|line| line.0);
        let output = replay(Some(&session_image()), Some(&script));
        assert_eq!(String::from_utf8(output), String::from_utf8(column(|line| line.1)));
    }

    #[test]
    fn an_empty_script_prints_nothing() {
        assert_eq!(replay(Some(&session_image()), Some(b"")), b"");
    }

    #[test]
    fn a_bad_file_prints_one_line() {
        let image = session_image();
        let late = [&column(|line| line.0)[..], b"0\n"].concat();
        let is_refused =
            |image: Option<&[u8]>, script: Option<&[u8]>| replay(image, script) == b"0A\n";
        assert!(is_refused(None, Some(b"")));
        assert!(is_refused(Some(&image), None));
        assert!(is_refused(None, None));
        assert!(is_refused(Some(b""), Some(b"")));
        assert!(is_refused(Some(&image[1..]), Some(b"000001\n")));
        assert!(is_refused(Some(&image), Some(&late)));
        assert!(is_refused(Some(b""), Some(b"0\n")));
    }

    #[test]
    fn a_write_line_ends_in_the_count_of_changed_bytes() {
        // block B while sealed: all its bytes, their checksum, and 0x61, which is refused
        let script = format!("013F02\n0140{}DF00\n0160DF\n", "01".repeat(32));
        let output = replay(Some(&session_image()), Some(script.as_bytes()));
        assert_eq!(output, b"000100\n032120\n000100\n");
    }

    #[test]
    fn writes_without_data_and_refused_reads() {
        let output = replay(Some(&session_image()), Some(b"0140\n007F01\n007F02\n000000\n"));
        assert_eq!(output, b"010000\n0000\n01\n01\n");
    }
}
