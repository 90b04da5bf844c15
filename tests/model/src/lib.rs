//! An independent model of document 01, "Build description and exact rules": layout, image file,
//! gauge, parameters and replay program; and of change requests C-11, the list of what differs
//! between two images, C-12, how many bytes a commit changed, C-13, which line caused a refusal,
//! C-14, who may change keys, C-16, what a low supply refuses, and C-17, parameters in two blocks.
//! It is written from these papers alone and puts simplicity first: each call judges everything
//! anew. Comments quote the sentence that a rule follows.

pub mod changed;
pub mod delta;
pub mod error;
pub mod gauge;
pub mod imagefile;
pub mod keys;
pub mod layout;
pub mod parameter;
pub mod record;
pub mod replay;
pub mod script;
pub mod supply;
pub mod text;
pub mod why;
