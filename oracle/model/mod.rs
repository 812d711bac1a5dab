//! A second reading of document 01, and of document 02 as far as its requests stand, over single frames, plain and
//! slow. Written from the documents' words, not from our definitions or code, so that a slip in one of the two
//! shows as a difference.

pub mod bitfield;
pub mod blocks;
pub mod lower;
pub mod numbers;
mod staff;
mod why;
