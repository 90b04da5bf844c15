//! Runs the program on one case, and says what is wrong with what it did.

use crate::case::{Case, Input};
use std::ffi::OsString;
use std::fs::{self, File};
use std::io;
use std::path::Path;
use std::process::{Child, Command, ExitStatus, Stdio};
use std::thread::sleep;
use std::time::{Duration, Instant};

const TIME_LIMIT: Duration = Duration::from_secs(20);
/// A program that prints without end is stopped when its output is this much longer than the
/// expected one.
const TOO_LONG: u64 = 10_000_000;

pub enum Ending {
    Exited(ExitStatus),
    /// Stopped by us, and why.
    Stopped(&'static str),
}

pub struct Outcome {
    pub ending: Ending,
    pub output: Vec<u8>,
    pub messages: String,
    /// Whether the folder has the case's files and nothing else, as they were.
    pub untouched: bool,
}

/// Puts the case's files into an empty folder.
pub fn write_inputs(folder: &Path, case: &impl Case) -> io::Result<()> {
    if folder.exists() {
        fs::remove_dir_all(folder)?;
    }
    fs::create_dir_all(folder)?;
    for (name, input) in case.files() {
        let path = folder.join(name);
        match input {
            Input::Text(text) => fs::write(path, text)?,
            Input::Missing => {}
            Input::Folder => fs::create_dir(path)?,
        }
    }
    Ok(())
}

/// Runs the program with `folder` as its current folder. Its two outputs go to files beside that
/// folder: nothing has to be read while it runs.
pub fn run(
    program: &Path,
    folder: &Path,
    case: &impl Case,
    expected_length: usize,
) -> io::Result<Outcome> {
    let (output, messages) = (folder.with_extension("stdout"), folder.with_extension("stderr"));
    let mut child = Command::new(program)
        .current_dir(folder)
        .stdin(Stdio::null())
        .stdout(File::create(&output)?)
        .stderr(File::create(&messages)?)
        .spawn()?;
    let ending = wait(&mut child, &output, expected_length as u64 + TOO_LONG)?;
    Ok(Outcome {
        ending,
        output: fs::read(output)?,
        messages: String::from_utf8_lossy(&fs::read(messages)?).into_owned(),
        untouched: is_untouched(folder, case)?,
    })
}

fn wait(child: &mut Child, output: &Path, longest: u64) -> io::Result<Ending> {
    let start = Instant::now();
    loop {
        if let Some(status) = child.try_wait()? {
            return Ok(Ending::Exited(status));
        }
        let reason = if start.elapsed() > TIME_LIMIT {
            Some("did not end in time")
        } else if fs::metadata(output)?.len() > longest {
            Some("prints far too much")
        } else {
            None
        };
        if let Some(reason) = reason {
            child.kill()?;
            child.wait()?;
            return Ok(Ending::Stopped(reason));
        }
        // short waits first: most cases end within a millisecond or two
        sleep((start.elapsed() / 4).clamp(Duration::from_micros(100), Duration::from_millis(20)));
    }
}

/// Whether the folder is as `write_inputs` left it.
fn is_untouched(folder: &Path, case: &impl Case) -> io::Result<bool> {
    let files = case.files();
    let is_input = |found: &OsString| files.iter().any(|(name, _)| found == name);
    Ok(names_in(folder)?.iter().all(is_input)
        && files.iter().all(|(name, input)| is_as_before(folder, name, input)))
}

fn is_as_before(folder: &Path, name: &str, input: &Input) -> bool {
    let path = folder.join(name);
    match input {
        Input::Text(text) => fs::read(path).is_ok_and(|found| found == *text),
        Input::Missing => !path.exists(),
        Input::Folder => names_in(&path).is_ok_and(|names| names.is_empty()),
    }
}

fn names_in(folder: &Path) -> io::Result<Vec<OsString>> {
    fs::read_dir(folder)?.map(|entry| Ok(entry?.file_name())).collect()
}

/// Every difference from what the case asks for, in words.
pub fn differences(case: &impl Case, expected: &[u8], outcome: &Outcome) -> Vec<String> {
    let mut found = Vec::new();
    match outcome.ending {
        Ending::Stopped(reason) => found.push(reason.to_string()),
        Ending::Exited(status) if !status.success() => found.push(format!("{status}")),
        Ending::Exited(_) => {}
    }
    if outcome.output != expected {
        found.push(format!(
            "standard output differs in line {}",
            first_difference(expected, &outcome.output)
        ));
    }
    found.extend(wrong_reasons(&case.reasons(), &outcome.messages));
    if !outcome.untouched {
        found.push("the folder is not as it was".to_string());
    }
    found
}

/// What standard error lacks, and what it has beyond that.
fn wrong_reasons(reasons: &[String], messages: &str) -> Vec<String> {
    let lines: Vec<&str> = messages.split_inclusive('\n').collect();
    let is_said =
        |reason: &String| lines.iter().any(|line| line.strip_suffix('\n') == Some(reason));
    let missing = reasons.iter().filter(|reason| !is_said(reason));
    let mut found: Vec<String> =
        missing.map(|reason| format!("standard error has no line \"{reason}\"")).collect();
    if lines.len() > reasons.len() {
        found.push("standard error has more lines than there are reasons".to_string());
    }
    found
}

/// The number of the first line that differs, from 1.
fn first_difference(expected: &[u8], actual: &[u8]) -> usize {
    let alike = expected.iter().zip(actual).take_while(|(a, b)| a == b).count();
    1 + expected[..alike].iter().filter(|&&c| c == b'\n').count()
}

/// Writes a failing case to `kept`, with the expected and the actual output.
pub fn keep(
    case: &impl Case,
    kept: &Path,
    expected: &[u8],
    outcome: &Outcome,
    found: &[String],
) -> io::Result<()> {
    write_inputs(kept, case)?;
    fs::write(kept.join("expected"), expected)?;
    fs::write(kept.join("actual"), &outcome.output)?;
    fs::write(kept.join("stderr"), &outcome.messages)?;
    fs::write(kept.join("differences"), found.join("\n") + "\n")
}
