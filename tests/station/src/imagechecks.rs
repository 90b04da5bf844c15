//! Image checks: texts of every kind, each verdict beside the model's.

use crate::demand_variety;
use crate::lent::Lent;
use crate::station;
use generator::flash;
use generator::imagetexts::{Expect, ImageText, IMAGE_TEXTS};
use generator::random::Random;
use model::error::Error;
use model::imagefile;
use std::collections::BTreeMap;

/// The long texts are in so many turns through the table only.
const LONG_TURNS: usize = 5;
/// Any other kind met fewer times than this fails the run.
const FLOOR: usize = 200;
/// So many texts at least must be accepted, and so many refused.
const VERDICT_FLOOR: usize = 2_000;
/// Short strings have at most so many characters, and there are so many of each length.
const SHORT_LENGTH: usize = 200;
const SHORT_TEXTS: usize = 10;

const CUT: &str = "cut at each length";
const SHORT: &str = "short string";

/// Compares about so many texts of the table and then the others, or says why that failed.
pub fn compare(seed: u64, texts: usize) -> Result<(), String> {
    let mut comparison = Comparison { seed, texts: 0, kinds: BTreeMap::new() };
    compare_table(&mut comparison, texts)?;
    compare_cut_texts(&mut comparison)?;
    compare_short_strings(&mut comparison)?;
    comparison.print();
    demand_variety(comparison.shortcomings())
}

fn compare_table(comparison: &mut Comparison, texts: usize) -> Result<(), String> {
    let usual = IMAGE_TEXTS.iter().filter(|row| !row.is_long());
    let texts_a_turn = usual.map(|row| row.weight).sum();
    for turn in 0..texts.div_ceil(texts_a_turn) {
        for row in IMAGE_TEXTS.iter().filter(|row| !row.is_long() || turn < LONG_TURNS) {
            for _ in 0..row.weight {
                let text = row.text(&mut comparison.random());
                comparison.compare(row.name, row.expect, &text)?;
            }
        }
    }
    Ok(())
}

/// Good texts cut at each length. Those cut at the end of a class can be good as well.
fn compare_cut_texts(comparison: &mut Comparison) -> Result<(), String> {
    for make in [flash::longest_text, flash::any, flash::any, flash::any, flash::any] {
        let text = make(&mut comparison.random()).text();
        for length in 0..=text.len() {
            comparison.compare(CUT, Expect::Either, &text[..length])?;
        }
    }
    Ok(())
}

/// Digits and line feeds, always too few for an image.
fn compare_short_strings(comparison: &mut Comparison) -> Result<(), String> {
    for length in 0..=SHORT_LENGTH {
        for _ in 0..SHORT_TEXTS {
            let mut random = comparison.random();
            let text: Vec<u8> = (0..length).map(|_| random.pick(b"0123456789ABCDEF\n\n")).collect();
            comparison.compare(SHORT, Expect::Bad, &text)?;
        }
    }
    Ok(())
}

/// How many texts of one kind the model accepted and refused.
#[derive(Clone, Copy, Default)]
struct Counts {
    accepted: usize,
    refused: usize,
}

struct Comparison {
    seed: u64,
    /// Texts so far.
    texts: usize,
    kinds: BTreeMap<&'static str, Counts>,
}

impl Comparison {
    /// The random numbers of the next text.
    fn random(&self) -> Random {
        Random::new(self.seed, self.texts as u64)
    }

    /// Compares and counts one text. One that differs is printed.
    fn compare(&mut self, kind: &'static str, expect: Expect, text: &[u8]) -> Result<(), String> {
        let expected = imagefile::read(text).err().map_or(0, Error::number);
        compare_verdicts(expect, text, expected).map_err(|what| {
            println!("{}", text[..text.len().min(10_000)].escape_ascii());
            let (number, seed, length) = (self.texts, self.seed, text.len());
            format!("text {number} of seed {seed} ({kind}), {length} characters: {what}")
        })?;
        self.texts += 1;
        let counts = self.kinds.entry(kind).or_default();
        if expected == 0 {
            counts.accepted += 1;
        } else {
            counts.refused += 1;
        }
        Ok(())
    }

    fn counts(&self, kind: &str) -> Counts {
        self.kinds.get(kind).copied().unwrap_or_default()
    }

    fn accepted(&self) -> usize {
        self.kinds.values().map(|counts| counts.accepted).sum()
    }

    fn refused(&self) -> usize {
        self.texts - self.accepted()
    }

    fn print(&self) {
        let (texts, kinds) = (self.texts, self.kinds.len());
        let (accepted, refused) = (self.accepted(), self.refused());
        println!("{texts} texts of {kinds} kinds compared: {accepted} accepted, {refused} refused");
        let both =
            self.kinds.iter().filter(|(_, counts)| counts.accepted > 0 && counts.refused > 0);
        let both = both.map(|(kind, Counts { accepted, refused })| {
            let name = kind.trim_start_matches("image: ");
            format!("{name}: {accepted} and {refused}")
        });
        println!("both in one kind: {}", both.collect::<Vec<_>>().join(", "));
    }

    /// What was met too seldom.
    fn shortcomings(&self) -> Vec<String> {
        let floor = |row: &ImageText| if row.is_long() { LONG_TURNS } else { FLOOR };
        let floors = IMAGE_TEXTS.iter().map(|row| (row.name, floor(row)));
        let others = [(CUT, FLOOR), (SHORT, FLOOR)];
        let kinds = floors.chain(others).map(|(kind, floor)| {
            let Counts { accepted, refused } = self.counts(kind);
            (kind, accepted + refused, floor)
        });
        let verdicts = [("accepted", self.accepted()), ("refused", self.refused())];
        let verdicts = verdicts.map(|(verdict, count)| (verdict, count, VERDICT_FLOOR));
        let met = kinds.chain(verdicts);
        let lacking = met.filter(|(_, count, floor)| count < floor);
        lacking
            .map(|(what, count, floor)| format!("{what}: {count} times, and not {floor}"))
            .collect()
    }
}

/// The library's verdict in every way of lending, and the model's, beside what is expected.
fn compare_verdicts(expect: Expect, text: &[u8], expected: u8) -> Result<(), String> {
    if !expect.allows(expected == 0) {
        return Err("the generator and the model disagree".to_string());
    }
    for lent in Lent::read_only_ways(text) {
        let answer = station::image_check(&lent);
        if answer != expected {
            return Err(format!("{answer}, and not {expected} ({})", lent.way));
        }
    }
    Ok(())
}
