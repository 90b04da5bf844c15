//! Runs a build of the host program, and says what is wrong with what it did.

use super::files::{File, Verdict};
use model::error::Error;
use std::io::{self, Write};
use std::path::Path;
use std::process::{Command, Stdio};

/// Seconds after which a run is ended.
const TIME_LIMIT: usize = 60;

/// What a run leaves.
pub struct Outcome {
    status: i32,
    output: String,
    messages: String,
}

impl Outcome {
    /// What is expected of a run on these files.
    pub fn of(files: &[&File]) -> Outcome {
        let mut outcome = Outcome { status: 0, output: String::new(), messages: String::new() };
        files.iter().for_each(|file| outcome.add(file));
        outcome
    }

    fn add(&mut self, File { path, verdict }: &File) {
        match verdict {
            Verdict::Read { is_image: true, checksum } => {
                self.output += &format!("{path}: image file, checksum {checksum:02X}\n");
                return;
            }
            Verdict::Read { is_image: false, checksum } => {
                let error = Error::Invalid.number();
                self.output +=
                    &format!("{path}: no image file ({error}), checksum {checksum:02X}\n");
            }
            Verdict::Unread { reason } => {
                self.messages += &format!("imagecheck: {path}: {reason}\n");
            }
        }
        self.status = 1;
    }

    /// The same with a standard output that takes nothing.
    pub fn with_lost_output(mut self) -> Outcome {
        self.output.clear();
        self.messages += "imagecheck: standard output could not be written\n";
        self.status = 1;
        self
    }

    /// What is expected of a run on no files.
    pub fn of_wrong_use() -> Outcome {
        let messages = "usage: imagecheck FILE...\n".to_string();
        Outcome { status: 2, output: String::new(), messages }
    }
}

pub struct Program<'a> {
    pub path: &'a Path,
    pub runs: usize,
}

impl Program<'_> {
    /// Compares a run on these files.
    pub fn compare(&mut self, files: &[&File]) -> Result<(), String> {
        self.compare_with("", b"", files, &Outcome::of(files))
    }

    /// Compares a run after a line of shell, with this standard input. If it differs, what it put
    /// on standard error is printed: a sanitizer says there what it found.
    pub fn compare_with(
        &mut self,
        setup: &str,
        input: &[u8],
        files: &[&File],
        expected: &Outcome,
    ) -> Result<(), String> {
        self.runs += 1;
        let program = self.path.display();
        let actual =
            self.run(setup, input, files).map_err(|error| format!("{program}: {error}"))?;
        differences(expected, &actual).map_err(|what| {
            print!("{}", actual.messages);
            let first = files.first().map_or("", |file| &file.path);
            format!("{setup}{program} on {} files, \"{first}\" first: {what}", files.len())
        })
    }

    fn run(&self, setup: &str, input: &[u8], files: &[&File]) -> io::Result<Outcome> {
        let mut child = Command::new("sh")
            .arg("-c")
            .arg(format!("{setup}exec timeout {TIME_LIMIT} \"$@\""))
            .arg("sh")
            .arg(self.path)
            .args(files.iter().map(|file| &file.path))
            .stdin(Stdio::piped())
            .stdout(Stdio::piped())
            .stderr(Stdio::piped())
            .spawn()?;
        let mut pipe = child.stdin.take().expect("standard input is a pipe");
        // a program that does not read it is told by what it prints
        let _ = pipe.write_all(input);
        drop(pipe);
        let ended = child.wait_with_output()?;
        let text = |bytes: &[u8]| String::from_utf8_lossy(bytes).into_owned();
        let (output, messages) = (text(&ended.stdout), text(&ended.stderr));
        let status =
            ended.status.code().ok_or_else(|| io::Error::other(ended.status.to_string()))?;
        Ok(Outcome { status, output, messages })
    }
}

fn differences(expected: &Outcome, actual: &Outcome) -> Result<(), String> {
    compare_lines("standard output", &expected.output, &actual.output)?;
    compare_lines("standard error", &expected.messages, &actual.messages)?;
    if actual.status != expected.status {
        return Err(format!("status {}, and not {}", actual.status, expected.status));
    }
    Ok(())
}

/// Names the first line that differs, which is empty past the last one.
fn compare_lines(name: &str, expected: &str, actual: &str) -> Result<(), String> {
    if actual == expected {
        return Ok(());
    }
    let (mut expected, mut actual) = (expected.split_inclusive('\n'), actual.split_inclusive('\n'));
    let mut number = 1;
    loop {
        let (line, right) = (actual.next().unwrap_or(""), expected.next().unwrap_or(""));
        if line != right {
            return Err(format!("{name}, line {number}: {line:?}, and not {right:?}"));
        }
        number += 1;
    }
}
