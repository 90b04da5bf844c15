//! Rows at every place around the ends of blocks and of a class, of every kind, inside, across and
//! past them: not drawn but gone through.

use super::cases::Case;
use super::layouts;
use super::rows::{self, ends, KINDS};
use generator::random::Random;
use model::layout::BLOCK_LENGTH;
use model::parameter::Parameter;

/// Lengths of a class: the shortest and the longest ones, and those around one block and two.
const LENGTHS: [usize; 30] = [
    1, 2, 3, 4, 5, 6, 27, 28, 29, 30, 31, 32, 33, 34, 35, 36, 37, 60, 61, 62, 63, 64, 65, 66, 67,
    68, 509, 510, 511, 512,
];

/// Offsets that are no further from the end of a block or of the class.
const NEAR: usize = 5;

/// A case for each, with any image and any value of the kind.
pub fn cases(seed: u64) -> Vec<Case> {
    let mut random = Random::new(seed, 0);
    let mut cases = Vec::new();
    for length in LENGTHS {
        let is_near = |&offset: &usize| {
            let past = offset % BLOCK_LENGTH;
            past.min(BLOCK_LENGTH - past) <= NEAR || offset.abs_diff(length) <= NEAR
        };
        for offset in (0..length + NEAR).filter(is_near) {
            for kind in KINDS {
                let (min, max) = ends(kind);
                let parameter = Parameter { class: 48, offset: offset as u16, kind, min, max };
                let value = rows::between(&mut random, min, max);
                let device = layouts::with_first_class_of(&mut random, length);
                cases.push(Case { device, parameter, value });
            }
        }
    }
    cases
}
