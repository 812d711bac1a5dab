//! How far a search of a huge frame went, for the tallies.

use std::cmp::Ordering;

use crate::model::numbers::{Variant, group_rows};

/// Where the found block lies: in the group that the search began with, in one above it, or in one below it, where
/// the search has wrapped.
#[derive(Clone, Copy)]
pub enum Reach {
    Origin,
    Above,
    Below,
}

impl Reach {
    /// Of a search from this start row, above order 6, that found this place in a huge frame.
    pub fn of(variant: Variant, start_row: u64, order: u64, place: u64) -> Reach {
        let origin = start_row % variant.huge_rows() / group_rows(order);
        match (place >> order).cmp(&origin) {
            Ordering::Equal => Reach::Origin,
            Ordering::Greater => Reach::Above,
            Ordering::Less => Reach::Below,
        }
    }
}
