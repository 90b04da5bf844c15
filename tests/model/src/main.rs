//! The model as a program. Its argument is a tool's name, as ./bench has it, and its files are
//! those of the current folder:
//!
//!     model replay    image.hex, script.hex
//!     model diff      old.hex, new.hex
//!     model why       image.hex, script.hex

use std::io::{self, BufWriter, Write};
use std::{env, fs};

fn main() -> io::Result<()> {
    let mut output = BufWriter::with_capacity(1 << 16, io::stdout().lock());
    match env::args().nth(1).as_deref() {
        Some("replay") => {
            let (image, script) = (read("image.hex"), read("script.hex"));
            model::replay::run(image.as_deref(), script.as_deref(), &mut output)?;
        }
        Some("diff") => {
            let (old, new) = (read("old.hex"), read("new.hex"));
            output.write_all(&model::delta::diff(old.as_deref(), new.as_deref()))?;
        }
        Some("why") => {
            let (image, script) = (read("image.hex"), read("script.hex"));
            model::why::run(image.as_deref(), script.as_deref(), &mut output)?;
        }
        _ => return Err(io::Error::other("usage: model replay, model diff, or model why")),
    }
    output.flush()
}

/// A missing or unreadable file breaks its rules; the reason goes to standard error.
fn read(name: &str) -> Option<Vec<u8>> {
    fs::read(name).inspect_err(|reason| eprintln!("{name}: {reason}")).ok()
}
