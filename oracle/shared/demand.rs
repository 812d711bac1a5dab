//! What a comparison must have come by.

use std::fmt::Display;
use std::process::exit;

/// Ends the run where a count is 0: a comparison that never gets there would say nothing.
pub fn demand(comparison: &str, count: u64, what: impl Display) {
    if count == 0 {
        println!("{comparison}: never compared: {what}");
        exit(1);
    }
}
