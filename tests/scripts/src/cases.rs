//! The table of all kinds of cases, and what a case asks for.

use crate::files::Files;
use crate::{bad, good};
use generator::damage::{self, Damage};
use generator::flash::{self, Flash};
use generator::imagetexts::{Expect, ImageText, Make, IMAGE_TEXTS};
use generator::random::Random;
use harness::case::{self, Input, DISAGREE};

/// A file's text. `None` is a file that is missing or cannot be read.
type Text<'a> = Option<&'a [u8]>;

/// What a tool makes of the two files.
#[derive(Clone, Copy)]
pub struct Tool {
    /// Its whole standard output, by the model.
    pub output: fn(Text, Text) -> Vec<u8>,
    /// Counts what the files meet, as `harness::case::Case` has it.
    pub count: fn(&Files, &mut [usize]) -> usize,
}

/// The two files for a tool.
pub struct Case {
    files: Files,
    tool: Tool,
}

impl case::Case for Case {
    fn files(&self) -> Vec<(&'static str, &Input)> {
        self.files.named()
    }

    fn expected(&self) -> Vec<u8> {
        (self.tool.output)(self.files.image.text(), self.files.script.text())
    }

    fn reasons(&self) -> Vec<String> {
        self.files.reasons()
    }

    fn count(&self, times: &mut [usize]) -> usize {
        (self.tool.count)(&self.files, times)
    }
}

/// A row of the table.
#[derive(Clone, Copy)]
pub struct Row {
    name: &'static str,
    weight: usize,
    expect: Expect,
    inputs: Inputs,
}

/// How the files of a row are made.
#[derive(Clone, Copy)]
enum Inputs {
    /// From its random numbers and its number among those of the row.
    Both(fn(&mut Random, usize) -> Files),
    /// A good script, and its image spoilt.
    SpoiltImage(Damage),
    /// A good script, and an image of its own.
    BadImage(fn(&mut Random) -> Vec<u8>),
}

pub const fn row(
    weight: usize,
    name: &'static str,
    expect: Expect,
    make: fn(&mut Random, usize) -> Files,
) -> Row {
    Row { name, weight, expect, inputs: Inputs::Both(make) }
}

use Expect::{Bad, Either, Good};

/// Good files: each script is made for its image.
const GOOD: &[Row] = &[
    row(1, "session", Good, |_, _| session()),
    row(2, "empty script", Good, |r, _| on_any(r, |_, _| Vec::new())),
    row(2, "one line", Good, |r, _| on_any(r, good::one_line)),
    row(10, "sealed", Good, |r, _| on_any(r, good::sealed)),
    row(8, "keys", Good, |r, _| on_any(r, good::keys)),
    row(14, "general access", Good, |r, _| on_openable(r, good::general)),
    row(6, "open, info blocks", Good, |r, _| on_openable(r, good::open_info)),
    row(6, "seal after loading", Good, |r, _| on_openable(r, good::seal_after_loading)),
    row(6, "new keys", Good, |r, _| on_openable(r, good::rekey)),
    row(12, "key blocks", Good, |r, _| on(r, flash::openable_with_key_blocks, good::key_blocks)),
    row(18, "supply", Good, |r, _| on(r, flash::openable_with_key_blocks, good::supply)),
    row(6, "spans", Good, |r, _| on_any(r, good::spans)),
    row(14, "mixed", Good, |r, _| on_any(r, good::mixed)),
    row(2, "longest image", Good, |r, _| on(r, flash::longest_text, good::general)),
    row(2, "full image", Good, |r, _| on(r, flash::full, good::general)),
    row(1, "long script", Good, |r, _| on_any(r, good::long)),
    row(1, "many reads", Good, |r, _| on_openable(r, good::many_reads)),
    row(2, "round image length", Good, |r, _| on(r, flash::round_text, good::mixed)),
    row(2, "round script length", Good, |r, _| on_openable(r, good::ends_at_a_cut)),
    row(5, good::STRADDLING, Good, |r, i| on_openable(r, |r, f| good::straddling(r, f, i))),
];

/// Scripts that break a rule, and files that are not there.
const BAD: &[Row] = &[
    // Scripts spoilt by a character or a line
    row(2, "script: digit changed", Either, |r, _| spoilt_script(r, damage::digit_changed)),
    row(1, "script: no digit", Bad, |r, _| spoilt_script(r, damage::no_digit)),
    row(1, "script: NUL", Bad, |r, _| spoilt_script(r, damage::nul)),
    row(1, "script: high bit", Bad, |r, _| spoilt_script(r, damage::high_bit)),
    row(1, "script: digit removed", Bad, |r, _| spoilt_script(r, damage::digit_removed)),
    row(1, "script: digit added", Bad, |r, _| spoilt_script(r, damage::digit_added)),
    row(1, "script: lines joined", Either, |r, _| spoilt_script(r, damage::lines_joined)),
    row(1, "script: line broken", Either, |r, _| spoilt_script(r, damage::line_broken)),
    row(1, "script: lower case", Bad, |r, _| spoilt_script(r, damage::lower_case)),
    row(1, "script: carriage return", Bad, |r, _| spoilt_script(r, damage::carriage_returns)),
    row(1, "script: blank", Bad, |r, _| spoilt_script(r, damage::blank)),
    row(1, "script: no last line feed", Bad, |r, _| spoilt_script(r, damage::no_last_line_feed)),
    row(1, "script: empty line", Bad, |r, _| spoilt_script(r, damage::empty_line)),
    row(1, "script: byte order mark", Bad, |r, _| spoilt_script(r, damage::byte_order_mark)),
    row(1, "script: truncated", Either, |r, _| spoilt_script(r, damage::truncated)),
    row(1, "script: lines swapped", Good, |r, _| spoilt_script(r, damage::lines_swapped)),
    row(1, "script: line doubled", Good, |r, _| spoilt_script(r, damage::line_doubled)),
    row(1, "script: line removed", Good, |r, _| spoilt_script(r, damage::line_removed)),
    row(1, "script: bad last line", Bad, |r, _| spoilt_script(r, damage::bad_last_line)),
    // Scripts with one frame that is none
    row(2, "script: unknown type", Bad, |r, _| on_any(r, bad::unknown_type)),
    row(2, "script: read length", Bad, |r, _| on_any(r, bad::read_length)),
    row(2, "script: supply length", Bad, |r, _| on_any(r, bad::supply_length)),
    row(1, "script: lone write", Bad, |r, _| on_any(r, bad::lone_write)),
    row(2, "script: write too long", Bad, |r, _| on_any(r, bad::write_too_long)),
    row(1, "script: odd digits", Bad, |r, _| on_any(r, bad::odd_digits)),
    row(1, "script: late bad line", Bad, |r, _| on_any(r, bad::late_bad_line)),
    row(1, "script: bad beside a cut", Bad, |r, i| {
        on_openable(r, |r, f| bad::bad_beside_a_cut(r, f, i))
    }),
    row(1, "script: only digits", Bad, |r, _| on_any(r, |r, _| damage::only_digits(r))),
    row(1, "script: only noise", Bad, |r, _| on_any(r, |r, _| damage::only_noise(r))),
    row(1, "both bad", Bad, |r, _| both_bad(r)),
    // Files that are not there
    row(1, "image missing", Bad, |r, _| Files { image: Input::Missing, ..both_good(r) }),
    row(1, "script missing", Bad, |r, _| Files { script: Input::Missing, ..both_good(r) }),
    row(1, "both missing", Bad, |_, _| Files { image: Input::Missing, script: Input::Missing }),
    row(1, "image is a folder", Bad, |r, _| Files { image: Input::Folder, ..both_good(r) }),
    row(1, "script is a folder", Bad, |r, _| Files { script: Input::Folder, ..both_good(r) }),
    row(1, "image missing, script bad", Bad, |r, _| Files { image: Input::Missing, ..both_bad(r) }),
    row(1, "image bad, script missing", Bad, |r, _| Files {
        script: Input::Missing,
        ..both_bad(r)
    }),
];

/// All kinds of cases for a tool, in the order of their cases: those of the table, then its own.
pub fn kinds(tool: Tool, own: &[Row]) -> Vec<Kind> {
    let images = IMAGE_TEXTS.iter().filter_map(with_image);
    let rows = GOOD.iter().copied().chain(images).chain(BAD.iter().copied());
    rows.chain(own.iter().copied()).map(|row| Kind { row, tool }).collect()
}

/// The row with such an image, if that is not one of the good ones.
fn with_image(image: &ImageText) -> Option<Row> {
    let inputs = match image.make {
        Make::Valid(_) => return None,
        Make::Spoilt(damage) => Inputs::SpoiltImage(damage),
        Make::Broken(make) | Make::Long(make) => Inputs::BadImage(make),
    };
    Some(Row { name: image.name, weight: image.weight, expect: image.expect, inputs })
}

/// A row's files for a tool.
pub struct Kind {
    row: Row,
    tool: Tool,
}

impl case::Kind for Kind {
    type Case = Case;

    fn name(&self) -> &'static str {
        self.row.name
    }

    fn weight(&self) -> usize {
        self.row.weight
    }

    /// Lines are to be cut at every offset.
    fn least(&self) -> usize {
        if self.row.name == good::STRADDLING {
            good::straddling_cases()
        } else {
            1
        }
    }

    fn case(&self, random: &mut Random, ordinal: usize) -> Case {
        let files = match self.row.inputs {
            Inputs::Both(make) => make(random, ordinal),
            Inputs::SpoiltImage(damage) => spoilt_image(random, damage),
            Inputs::BadImage(make) => bad_image(random, make),
        };
        Case { files, tool: self.tool }
    }

    fn check(&self, _: &Case, expected: &[u8]) -> Result<(), &'static str> {
        let is_as_meant = self.row.expect.allows(expected != b"0A\n");
        is_as_meant.then_some(()).ok_or(DISAGREE)
    }
}

/// A script made for a generated flash.
pub fn on(
    random: &mut Random,
    make_flash: fn(&mut Random) -> Flash,
    make_script: impl Fn(&mut Random, &Flash) -> Vec<u8>,
) -> Files {
    let flash = make_flash(random);
    let script = make_script(random, &flash);
    Files { image: Input::Text(flash.text()), script: Input::Text(script) }
}

pub fn on_any(random: &mut Random, script: impl Fn(&mut Random, &Flash) -> Vec<u8>) -> Files {
    on(random, flash::any, script)
}

pub fn on_openable(random: &mut Random, script: impl Fn(&mut Random, &Flash) -> Vec<u8>) -> Files {
    on(random, flash::openable, script)
}

fn both_good(random: &mut Random) -> Files {
    on_any(random, good::mixed)
}

fn spoilt_image(random: &mut Random, damage: Damage) -> Files {
    let flash = flash::any(random);
    let script = good::mixed(random, &flash);
    Files { image: Input::Text(damage(random, &flash.text())), script: Input::Text(script) }
}

fn spoilt_script(random: &mut Random, damage: Damage) -> Files {
    let flash = flash::any(random);
    let script = good::mixed(random, &flash);
    Files { image: Input::Text(flash.text()), script: Input::Text(damage(random, &script)) }
}

fn bad_image(random: &mut Random, make: fn(&mut Random) -> Vec<u8>) -> Files {
    Files { image: Input::Text(make(random)), ..both_good(random) }
}

fn both_bad(random: &mut Random) -> Files {
    let flash = flash::any(random);
    let script = good::mixed(random, &flash);
    let image = damage::no_digit(random, &flash.text());
    Files { image: Input::Text(image), script: Input::Text(damage::no_digit(random, &script)) }
}

/// Image and script of document 01's session.
fn session() -> Files {
    const SCRIPT: &str = "013E30 01001404 01007236 016100 013E3000 004006 006001 014502 0160FE \
                          0160FD 01000000 000002";
    let keys = [&[0x14, 0x04, 0x72, 0x36][..], &[0xFF; 24]].concat();
    let image = [
        b"3000000000000001FE\n".to_vec(),
        flash::line(58, 0, &[0; 32]),
        flash::line(58, 1, &[0; 32]),
        flash::line(58, 2, &[0; 32]),
        flash::line(112, 0, &keys),
    ];
    let script = SCRIPT.split(' ').map(|line| format!("{line}\n")).collect::<String>();
    Files { image: Input::Text(image.concat()), script: Input::Text(script.into_bytes()) }
}
