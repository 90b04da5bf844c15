//! Looks for branches in the code that the key's comparison is compiled to: in its MIR, and in the
//! machine code of programs, between the first and the last byte of the key that is read.

mod listing;
mod mir;
mod reads;
mod trial;

use reads::{four_reads, FourReads};
use std::env;
use std::fs;
use std::path::{Path, PathBuf};
use std::process::ExitCode;
use trial::Trial;

/// Counts the bytes in which a key differs.
const COMPARISON: &str = "controlword::key_differing";

fn main() -> ExitCode {
    match run() {
        Ok(()) => ExitCode::SUCCESS,
        Err(reason) => {
            eprintln!("keycode: {reason}");
            ExitCode::FAILURE
        }
    }
}

fn run() -> Result<(), String> {
    let mut arguments = env::args().skip(1).map(PathBuf::from);
    let usage = "usage: keycode FOLDER IMAGE PROGRAM.. (FOLDER has the MIR, in the file mir)";
    let folder = absolute(&arguments.next().ok_or(usage)?)?;
    let image = arguments.next().ok_or(usage)?;
    check_mir(&folder.join("mir"))?;
    let trial = Trial::new(&image, &folder)?;
    let programs: Vec<PathBuf> = arguments.collect();
    if programs.is_empty() {
        return Err(usage.to_string());
    }
    programs.iter().try_for_each(|program| check_program(&trial, &absolute(program)?))
}

fn absolute(path: &Path) -> Result<PathBuf, String> {
    fs::canonicalize(path).map_err(|reason| format!("{}: {reason}", path.display()))
}

fn check_mir(file: &Path) -> Result<(), String> {
    let mir = fs::read_to_string(file).map_err(|e| format!("{}: {e}", file.display()))?;
    let functions = mir::reached(&mir, COMPARISON)?;
    for function in &functions {
        let branches = mir::branches(&mir, function)?;
        if !branches.is_empty() {
            return Err(format!("{function} has a branch in its MIR: {branches:?}"));
        }
    }
    let bypasses = mir::bypasses(&mir, COMPARISON)?;
    if !bypasses.is_empty() {
        return Err(format!("key bytes may be known without all of {COMPARISON}: {bypasses:?}"));
    }
    println!("no branch in the MIR of {}, and no way past", Vec::from_iter(functions).join(", "));
    Ok(())
}

fn check_program(trial: &Trial, program: &Path) -> Result<(), String> {
    let functions = listing::disassemble(program)?;
    let candidates: Vec<FourReads> = functions.iter().flat_map(four_reads).collect();
    let mut found = 0;
    for reads in &candidates {
        if trial.is_of_key(program, reads)? {
            check_stretch(program, reads)?;
            found += 1;
        }
    }
    match found {
        0 => Err(format!("{}: the key's comparison was not found", program.display())),
        _ => Ok(()),
    }
}

fn check_stretch(program: &Path, reads: &FourReads) -> Result<(), String> {
    let stretch = reads.stretch();
    let (first, last) = (&stretch[0], &stretch[stretch.len() - 1]);
    let place = format!(
        "{}: {}, {:x} to {:x}",
        program.file_name().unwrap_or_default().to_string_lossy(),
        reads.function.name,
        first.address,
        last.address
    );
    let breaks: Vec<String> =
        reads.breaks().iter().map(|i| format!("{:x} {}", i.address, i.text)).collect();
    if !breaks.is_empty() {
        return Err(format!("{place}: jumps between the four bytes of the key: {breaks:?}"));
    }
    println!(
        "{place}: the key's four bytes are read, and no jump is among {} instructions",
        stretch.len()
    );
    Ok(())
}
