//! The rules for the calls on one row, and on the rows of one huge frame.

use super::blocks::{all, hold, lowest, refused, set_all, zeros};
use super::numbers::{Variant, group_rows};

/// "One-row search: to 6", else 4; "in a row the lowest free aligned place"; a failed search is 7. The answer
/// is code; place and row.
pub fn row_search(row: u64, order: u64) -> (u64, [u64; 2]) {
    if order > 6 {
        return (4, [0; 2]);
    }
    let mut rows = [row];
    match lowest(&rows, 0..64, order) {
        Some(place) => {
            set_all(&mut rows, place, order, true);
            (0, [place, rows[0]])
        }
        None => (7, [0; 2]),
    }
}

/// "All bitfield calls but the one-row search want exactly eight rows, else 3."
fn refused_rows(variant: Variant, rows: &[u64]) -> u64 {
    if rows.len() as u64 == variant.huge_rows() { 0 } else { 3 }
}

/// "An order to 9, else 4; place + 2^order ≤ 512, else 5; an aligned place, else 6."
fn refused_place(variant: Variant, rows: &[u64], place: u64, order: u64) -> u64 {
    match refused_rows(variant, rows) {
        0 => refused(place, order, variant.huge_order, variant.huge_frames()),
        code => code,
    }
}

/// "`set` on one bitfield takes start and end, 0 ≤ start ≤ end ≤ 512, else 5; equal ends change nothing."
pub fn set(variant: Variant, rows: &mut [u64], start: u64, end: u64, value: bool) -> u64 {
    let code = refused_rows(variant, rows);
    if code != 0 {
        return code;
    }
    if start > end || end > variant.huge_frames() {
        return 5;
    }
    (start..end).for_each(|frame| hold(rows, frame, value));
    0
}

/// All bits of the block are as expected and are turned, or 7.
pub fn toggle(variant: Variant, rows: &mut [u64], place: u64, order: u64, expected: bool) -> u64 {
    let code = refused_place(variant, rows, place, order);
    if code != 0 {
        return code;
    }
    if !all(rows, place, order, expected) {
        return 7;
    }
    set_all(rows, place, order, !expected);
    0
}

/// Code, and 1 where the block's bits are all clear.
pub fn is_zero(variant: Variant, rows: &[u64], place: u64, order: u64) -> (u64, u64) {
    match refused_place(variant, rows, place, order) {
        0 => (0, all(rows, place, order, false) as u64),
        code => (code, 0),
    }
}

/// Code and place. Document 01: "Orders 0 to 6: eight rows from (start row mod 8), wrapping; in a row the lowest
/// free aligned place. Orders 7 and 8: groups of 2 or 4 rows (8 for a bitfield search at order 9) .. the first
/// group all zero." Document 02, W-206: "The search in a huge frame at these orders shall start from the group
/// holding (start row mod 8) and wrap." To order 6 a group is one row, so it is one rule for all orders.
pub fn first_zeros(variant: Variant, rows: &[u64], start_row: u64, order: u64) -> (u64, u64) {
    let code = refused_place(variant, rows, 0, order);
    if code != 0 {
        return (code, 0);
    }
    let frames = 64 * group_rows(order);
    let groups = variant.huge_frames() / frames;
    let holding = start_row % variant.huge_rows() / group_rows(order);
    let found = (0..groups).find_map(|step| {
        let first = (holding + step) % groups * frames;
        lowest(rows, first..first + frames, order)
    });
    found.map_or((7, 0), |place| (0, place))
}

pub fn set_first_zeros(variant: Variant, rows: &mut [u64], start_row: u64, order: u64) -> (u64, u64) {
    let (code, place) = first_zeros(variant, rows, start_row, order);
    if code == 0 {
        set_all(rows, place, order, true);
    }
    (code, place)
}

pub fn fill(variant: Variant, rows: &mut [u64], value: bool) -> u64 {
    set(variant, rows, 0, variant.huge_frames(), value)
}

/// Code, and the number of free frames.
pub fn count_zeros(variant: Variant, rows: &[u64]) -> (u64, u64) {
    match refused_rows(variant, rows) {
        0 => (0, zeros(rows)),
        code => (code, 0),
    }
}
