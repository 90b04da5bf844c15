//! What the comparisons of tools over image.hex and script.hex share: generated scripts, good and
//! bad, and the table of all kinds of such two files. A comparison brings what its tool makes of
//! them, and kinds of its own.

mod bad;
pub mod cases;
pub mod draft;
pub mod files;
pub mod good;
pub mod moves;
