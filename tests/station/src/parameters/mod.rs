//! The functions on parameters.

mod cases;
mod compare;
mod layouts;
mod places;
mod rows;
mod tally;

use crate::demand_variety;
use crate::station::Layout;
use cases::{case, kind_of, place, Case, KINDS};
use compare::Outcome;
use model::parameter::Parameter;
use tally::Tally;

/// Compares so many cases, or says why that failed. The first case that differs is printed.
pub fn compare(seed: u64, cases: usize) -> Result<(), String> {
    let mut tally = Tally::default();
    for number in 0..cases {
        let case = case(seed, number);
        let kind = &KINDS[kind_of(number)];
        let image_length = case.device.image.len();
        if case.device.layout.for_model().check_image(image_length).is_ok() != kind.is_valid {
            let name = kind.name;
            return Err(format!("case {number} ({name}): the generator and the model disagree"));
        }
        let name = kind.name;
        let outcome = compare_case(&case)
            .map_err(|what| format!("case {number} of seed {seed} ({name}) differs: {what}"))?;
        tally.count(kind_of(number), &case, &outcome);
    }
    tally.print();
    compare_places(seed)?;
    demand_variety(tally.shortcomings())
}

/// Rows at every place around the ends of blocks and classes.
fn compare_places(seed: u64) -> Result<(), String> {
    let cases = places::cases(seed);
    for case in &cases {
        compare_case(case).map_err(|what| format!("a place differs: {what}"))?;
    }
    println!("{} rows at the ends of blocks and classes compared", cases.len());
    Ok(())
}

/// A case that differs is printed.
fn compare_case(case: &Case) -> Result<Outcome, String> {
    compare::compare(case).inspect_err(|_| print(case))
}

fn print(case: &Case) {
    let Layout { count, ids, lengths } = case.device.layout;
    let entries = ids.iter().zip(lengths).map(|(id, length)| format!("{id}:{length}"));
    let entries: Vec<String> = entries.collect();
    let (meant, junk) = entries.split_at(count.min(entries.len()));
    println!("layout of {count} classes, each with its length: {}", meant.join(" "));
    println!("entries past them: {}", junk.join(" "));
    let Parameter { class, offset, kind, min, max } = case.parameter;
    println!("row: class {class}, offset {offset}, kind {kind:02X}, from {min} to {max}");
    let place = place(&case.device.layout, &case.parameter);
    let image = &case.device.image;
    let bytes = image.get(place.clone()).unwrap_or_default();
    let (length, start, last) = (image.len(), place.start, place.end - 1);
    println!("image of {length} bytes, at {start} to {last}: {bytes:02X?}");
    println!("value to be set: {}", case.value);
}
