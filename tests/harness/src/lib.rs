//! What the comparisons of programs with the model share: a program is run on one generated case
//! after the other, each in a folder of its own files, and what it prints, says and leaves is
//! compared with what the case asks for. A comparison brings its kinds of cases and what is to be
//! counted of them.

pub mod case;
pub mod comparison;
mod program;
mod tally;
