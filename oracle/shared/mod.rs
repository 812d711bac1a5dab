//! What the comparisons share: how calls are made by each side, and what they are on.

pub mod arguments;
pub mod comparison;
pub mod demand;
pub mod library;
pub mod process;
pub mod progress;
pub mod random;
pub mod reach;
pub mod room;
pub mod worker;
