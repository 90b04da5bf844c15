//! The kinds of cases beside those of `scripts::cases`: scripts that give reasons.

use crate::moves::{class_set_to_0_by, class_since_power_on, CAUSES};
use generator::flash::{self, Flash};
use generator::imagetexts::Expect::Good;
use generator::random::Random;
use scripts::cases::{on, on_openable, row, Row};
use scripts::draft::Draft;
use scripts::moves::play;

/// 4 and 5 need scripts of their own: class 0, which is that of power-on, is in the layout or not.
pub const ROWS: &[Row] = &[
    row(13, "causes, class 0", Good, |r, _| on(r, |r| with_class_0(r, true), causes)),
    row(13, "causes, no class 0", Good, |r, _| on(r, |r| with_class_0(r, false), causes)),
    row(1, "lines above 65,535", Good, |r, _| on_openable(r, many_lines)),
];

/// An openable flash that has class 0, or has not.
fn with_class_0(random: &mut Random, wanted: bool) -> Flash {
    loop {
        let flash = flash::openable(random);
        if flash.classes.iter().any(|class| class.id == 0) == wanted {
            return flash;
        }
    }
}

fn causes(random: &mut Random, flash: &Flash) -> Vec<u8> {
    let lines = random.between(100, 300);
    let mut draft = Draft::new(random, flash);
    class_since_power_on(&mut draft);
    for word in [0x0020, 0x0041] {
        class_set_to_0_by(&mut draft, word);
        play(&mut draft, &[CAUSES], lines / 2);
    }
    draft.text
}

/// Causes whose lines are more than two bytes can count.
fn many_lines(random: &mut Random, flash: &Flash) -> Vec<u8> {
    let mut draft = Draft::new(random, flash);
    while draft.lines <= 0xFFFF {
        draft.read(0x00, 1);
    }
    play(&mut draft, &[CAUSES], 100);
    draft.text
}
