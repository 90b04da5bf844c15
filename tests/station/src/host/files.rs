//! Files to be named to the host program, and what it has to say of each.

use generator::flash;
use generator::imagetexts::IMAGE_TEXTS;
use generator::random::Random;
use model::imagefile;
use model::layout::checksum;
use std::fs::{self, Permissions};
use std::io;
use std::os::unix::fs::PermissionsExt;
use std::path::Path;

/// Names of single files that the comparisons ask for.
pub const GOOD: &str = "any";
pub const BAD: &str = "no digit";
pub const MISSING: &str = "missing";
pub const HUGE: &str = "huge";
const FOLDER: &str = "folder";
const UNREADABLE: &str = "unreadable";

/// Bytes that follow a longest good text in the huge file.
const HUGE_NOISE: usize = 20_000_000;

pub struct File {
    pub path: String,
    pub verdict: Verdict,
}

pub enum Verdict {
    Read { is_image: bool, checksum: u8 },
    Unread { reason: String },
}

impl Verdict {
    pub fn of(bytes: &[u8]) -> Verdict {
        Verdict::Read { is_image: imagefile::read(bytes).is_ok(), checksum: checksum(bytes) }
    }

    /// The system's words alone, without the number that Rust adds to them.
    pub fn unread(error: &io::Error) -> Verdict {
        let words = error.to_string();
        let reason = words.split(" (os error ").next().unwrap_or_default().to_string();
        Verdict::Unread { reason }
    }
}

/// Files by name, in the order in which they are named to the program.
pub struct Files {
    files: Vec<(String, File)>,
}

impl Files {
    pub fn all(&self) -> Vec<&File> {
        self.files.iter().map(|(_, file)| file).collect()
    }

    pub fn named(&self, name: &str) -> &File {
        let found = self.files.iter().find(|(other, _)| other == name);
        &found.expect("a name of the table of image texts or of those above").1
    }
}

/// Writes all files into an empty folder. Those that cannot be read stand between others that can.
pub fn write(folder: &Path, seed: u64) -> io::Result<Files> {
    if folder.exists() {
        fs::remove_dir_all(folder)?;
    }
    fs::create_dir_all(folder)?;
    let mut names = write_image_texts(folder, seed)?;
    names.extend(make_unreadable(folder)?);
    names.extend(write_noise(folder, seed)?);
    let files = names.into_iter().map(|name| (name.clone(), found(&folder.join(name))));
    Ok(Files { files: files.collect() })
}

/// What is to be said of a file as it is found. For root, every file can be read.
fn found(path: &Path) -> File {
    let verdict = fs::read(path).map_or_else(|error| Verdict::unread(&error), |b| Verdict::of(&b));
    File { path: path.display().to_string(), verdict }
}

/// One file of each kind of image text; their names have blanks.
fn write_image_texts(folder: &Path, seed: u64) -> io::Result<Vec<String>> {
    let mut names = Vec::new();
    for (number, row) in (0..).zip(IMAGE_TEXTS) {
        let name = row.name.trim_start_matches("image: ");
        fs::write(folder.join(name), row.text(&mut Random::new(seed, number)))?;
        names.push(name.to_string());
    }
    Ok(names)
}

fn make_unreadable(folder: &Path) -> io::Result<Vec<String>> {
    fs::create_dir(folder.join(FOLDER))?;
    let closed = folder.join(UNREADABLE);
    fs::write(&closed, "00\n")?;
    fs::set_permissions(&closed, Permissions::from_mode(0o000))?;
    Ok([MISSING, FOLDER, UNREADABLE].map(str::to_string).to_vec())
}

/// Lengths at and beside the powers of two, where a program that reads in chunks has to go on or to
/// get more room, and a huge file that is refused for its end alone.
fn write_noise(folder: &Path, seed: u64) -> io::Result<Vec<String>> {
    let mut names = Vec::new();
    for length in (9..=20).flat_map(|power| [(1 << power) - 1, 1 << power, (1 << power) + 1]) {
        let name = format!("{length} bytes");
        fs::write(folder.join(&name), Random::new(seed, length as u64).bytes(length))?;
        names.push(name);
    }
    let mut random = Random::new(seed, HUGE_NOISE as u64);
    let text = flash::longest_text(&mut random).text();
    fs::write(folder.join(HUGE), [text, random.bytes(HUGE_NOISE)].concat())?;
    names.push(HUGE.to_string());
    Ok(names)
}
