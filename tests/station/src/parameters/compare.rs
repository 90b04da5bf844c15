//! One case: get, set and get again; and set with a cut of power after the first commit, get, and
//! set once more. Each answer and the whole image afterwards is compared with the model's.

use super::cases::Case;
use crate::lent::Lent;
use crate::station::{parameter_get, parameter_set, parameter_set_lower, ParameterValue};
use model::error::Error;
use model::parameter::{get, set, Commits, Reading};

/// What the model says of a case.
pub struct Outcome {
    pub reading: Reading,
    pub set: Result<(), Error>,
    /// The image after the set.
    image: Vec<u8>,
    /// What is read then.
    again: Reading,
    /// Whether the set changed the image.
    pub changed: bool,
    /// The image after a cut of power, and what is read then.
    cut_image: Vec<u8>,
    pub cut: Reading,
}

/// The outcome, or the first difference in words.
pub fn compare(case: &Case) -> Result<Outcome, String> {
    let outcome = outcome(case);
    for compare in [compare_set, compare_cut] {
        for mut lent in Lent::ways(&case.device.image) {
            compare(case, &outcome, &mut lent).map_err(|what| format!("{what} ({})", lent.way))?;
        }
    }
    Ok(outcome)
}

fn outcome(case: &Case) -> Outcome {
    let layout = case.device.layout.for_model();
    let mut image = case.device.image.clone();
    let reading = get(&layout, &image, &case.parameter);
    let set_until = |image: &mut [u8], made| set(&layout, image, &case.parameter, case.value, made);
    let set = set_until(&mut image, Commits::All);
    let again = get(&layout, &image, &case.parameter);
    if set.is_ok() {
        assert_eq!(again, Reading { error: None, value: case.value, in_range: true });
    }
    let changed = image != case.device.image;
    let mut cut_image = case.device.image.clone();
    assert_eq!(set_until(&mut cut_image, Commits::First), set);
    let cut = get(&layout, &cut_image, &case.parameter);
    Outcome { reading, set, image, again, changed, cut_image, cut }
}

fn compare_set(case: &Case, outcome: &Outcome, lent: &mut Lent) -> Result<(), String> {
    let (layout, parameter) = (case.device.layout, case.parameter);
    let answer = parameter_get(layout, lent, parameter);
    check_get("get", &answer, &outcome.reading, lent, &case.device.image)?;
    let answer = parameter_set(layout, lent, parameter, case.value);
    check_set("set", answer, outcome, lent, &outcome.image)?;
    let answer = parameter_get(layout, lent, parameter);
    check_get("get after set", &answer, &outcome.again, lent, &outcome.image)
}

/// What is set once more leaves the image that it would have left without the cut.
fn compare_cut(case: &Case, outcome: &Outcome, lent: &mut Lent) -> Result<(), String> {
    let (layout, parameter) = (case.device.layout, case.parameter);
    let answer = parameter_set_lower(layout, lent, parameter, case.value);
    check_set("set with a cut", answer, outcome, lent, &outcome.cut_image)?;
    let answer = parameter_get(layout, lent, parameter);
    check_get("get after a cut", &answer, &outcome.cut, lent, &outcome.cut_image)?;
    let answer = parameter_set(layout, lent, parameter, case.value);
    check_set("set after a cut", answer, outcome, lent, &outcome.image)
}

/// What a set answers, with a cut or without, and the image after it.
fn check_set(
    call: &str,
    answer: u8,
    outcome: &Outcome,
    lent: &Lent,
    image: &[u8],
) -> Result<(), String> {
    check_error(answer, outcome.set.err())
        .and_then(|()| check_image(lent, image))
        .map_err(|what| format!("{call}: {what}"))
}

fn check_get(
    call: &str,
    answer: &ParameterValue,
    expected: &Reading,
    lent: &Lent,
    image: &[u8],
) -> Result<(), String> {
    check_reading(answer, expected)
        .and_then(|()| check_image(lent, image))
        .map_err(|what| format!("{call}: {what}"))
}

fn number(error: Option<Error>) -> u8 {
    error.map_or(0, Error::number)
}

fn check_error(answer: u8, expected: Option<Error>) -> Result<(), String> {
    if answer == number(expected) {
        Ok(())
    } else {
        Err(format!("error {answer}, and not {}", number(expected)))
    }
}

fn check_reading(answer: &ParameterValue, expected: &Reading) -> Result<(), String> {
    check_error(answer.error, expected.error)?;
    if answer.value != expected.value {
        return Err(format!("value {}, and not {}", answer.value, expected.value));
    }
    if answer.in_range != u8::from(expected.in_range) {
        let expected = u8::from(expected.in_range);
        return Err(format!("in range {}, and not {expected}", answer.in_range));
    }
    Ok(())
}

/// Whether the image is as expected; if not, the first byte that differs.
fn check_image(lent: &Lent, expected: &[u8]) -> Result<(), String> {
    let differs =
        lent.bytes().iter().zip(expected).position(|(actual, expected)| actual != expected);
    differs.map_or(Ok(()), |place| {
        let (actual, expected) = (lent.bytes()[place], expected[place]);
        Err(format!("byte {place} of the image is {actual:02X}, and not {expected:02X}"))
    })
}
