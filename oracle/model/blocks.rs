//! Single frames and aligned blocks of them in rows: the eight of one huge frame, or all of a state.

use std::ops::Range;

/// "Frame f: row f div 64, bit f mod 64"; "bit set = held".
pub fn held(rows: &[u64], frame: u64) -> bool {
    (rows[frame as usize / 64] >> (frame % 64)) & 1 == 1
}

pub fn hold(rows: &mut [u64], frame: u64, value: bool) {
    let bit = 1 << (frame % 64);
    let row = &mut rows[frame as usize / 64];
    *row = if value { *row | bit } else { *row & !bit };
}

/// Whether all 2^order frames of a block are held, or with `value` false free.
pub fn all(rows: &[u64], block: u64, order: u64, value: bool) -> bool {
    (block..block + (1 << order)).all(|frame| held(rows, frame) == value)
}

pub fn set_all(rows: &mut [u64], block: u64, order: u64, value: bool) {
    (block..block + (1 << order)).for_each(|frame| hold(rows, frame, value));
}

/// The lowest free block among these frames.
pub fn lowest(rows: &[u64], frames: Range<u64>, order: u64) -> Option<u64> {
    frames.step_by(1 << order).find(|block| all(rows, *block, order, false))
}

/// "The zeros of eight rows are counted and summed."
pub fn zeros(rows: &[u64]) -> u64 {
    rows.iter().map(|row| row.count_zeros() as u64).sum()
}

/// The refusals of a block among the frames below `end`, checked in the order of their numbers: its order is
/// above the highest, it ends past the end, it is not aligned. 0 where there is none.
pub fn refused(block: u64, order: u64, highest: u64, end: u64) -> u64 {
    if order > highest {
        4
    } else if block as u128 + (1 << order) > end as u128 {
        5
    } else if !block.is_multiple_of(1 << order) {
        6
    } else {
        0
    }
}
