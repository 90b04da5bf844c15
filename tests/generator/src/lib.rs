//! What the comparisons with the model generate their cases from: random numbers that follow from a
//! seed, valid data flash, and texts that are image files or nearly so.

pub mod damage;
pub mod flash;
pub mod images;
pub mod imagetexts;
pub mod random;
