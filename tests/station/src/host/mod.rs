//! The host program, station/imagecheck.c: what it prints and its status, beside what the model
//! says of the same bytes.

mod files;
mod program;

use files::{File, Files, Verdict, BAD, GOOD, HUGE, MISSING};
use generator::flash;
use generator::random::Random;
use program::{Outcome, Program};
use std::error::Error;
use std::io;
use std::path::Path;

/// So many files may be open at a time, fewer than are named: one that is left open is noticed.
const FEW_FILES: usize = 16;

/// Kilobytes of memory that cannot hold the huge file.
const LITTLE_MEMORY: usize = 16_000;
/// The number of the reason then.
const ENOMEM: i32 = 12;

/// More bytes than a pipe holds.
const LONG_INPUT: usize = 200_000;

/// Compares both builds, or says why that failed.
pub fn compare(folder: &Path, seed: u64) -> Result<(), Box<dyn Error>> {
    let files = files::write(&folder.join("files"), seed)?;
    let plain = folder.join("imagecheck");
    let sanitized = folder.join("imagecheck-sanitized");
    for path in [&plain, &sanitized] {
        let mut program = Program { path, runs: 0 };
        compare_files(&mut program, &files)?;
        compare_input(&mut program, seed)?;
        compare_lost_output(&mut program, &files)?;
        // the sanitizers reserve more memory than any limit lets them
        if path == &plain {
            compare_little_memory(&mut program, &files)?;
        }
        println!("{}: {} runs as expected", path.display(), program.runs);
    }
    Ok(())
}

/// No file, all files, each alone, and pairs, so that no file decides the status for another.
fn compare_files(program: &mut Program, files: &Files) -> Result<(), String> {
    program.compare_with("", b"", &[], &Outcome::of_wrong_use())?;
    let all = files.all();
    let setup = format!("ulimit -n {FEW_FILES}; ");
    program.compare_with(&setup, b"", &all, &Outcome::of(&all))?;
    for file in all {
        program.compare(&[file])?;
    }
    for first in [GOOD, BAD, MISSING] {
        for second in [GOOD, BAD, MISSING] {
            program.compare(&[files.named(first), files.named(second)])?;
        }
    }
    Ok(())
}

/// A pipe, whose length nobody knows before its end.
fn compare_input(program: &mut Program, seed: u64) -> Result<(), String> {
    let mut random = Random::new(seed, 0);
    let good = flash::any(&mut random).text();
    for input in [good, Vec::new(), random.bytes(LONG_INPUT)] {
        let pipe = File { path: "/dev/stdin".to_string(), verdict: Verdict::of(&input) };
        program.compare_with("", &input, &[&pipe], &Outcome::of(&[&pipe]))?;
    }
    Ok(())
}

/// A standard output that is full or closed, for less and for more than the program keeps back.
fn compare_lost_output(program: &mut Program, files: &Files) -> Result<(), String> {
    for setup in ["exec >/dev/full; ", "exec >&-; "] {
        for files in [vec![files.named(GOOD)], files.all()] {
            let expected = Outcome::of(&files).with_lost_output();
            program.compare_with(setup, b"", &files, &expected)?;
        }
    }
    Ok(())
}

/// A file that memory cannot hold is one that cannot be read; the next one follows.
fn compare_little_memory(program: &mut Program, files: &Files) -> Result<(), String> {
    let verdict = Verdict::unread(&io::Error::from_raw_os_error(ENOMEM));
    let huge = File { path: files.named(HUGE).path.clone(), verdict };
    let named = [&huge, files.named(GOOD)];
    let setup = format!("ulimit -v {LITTLE_MEMORY}; ");
    program.compare_with(&setup, b"", &named, &Outcome::of(&named))
}
