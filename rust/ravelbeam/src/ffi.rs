//! The functions of the archive, each behind a safe one: with their declarations, in calls.rs, all that is
//! unsafe in this crate.
//!
//! They accept any numbers and any contents of the slices, and write nothing but the slices that they are
//! lent for writing and the lent numbers (the repository's crates/ravelbeam has their contracts). What they
//! ask of a caller holds in every block below: a slice goes as its own pointer and length, a slice that is
//! written is borrowed by `&mut`, and the lent numbers are the function's own.

use core::ops::Range;

use crate::bitfield::Rows;
use crate::calls::*;
use crate::{FrameId, Got, HugeId, Lower, ORDERS, Recovered, RowId, Stats};

pub fn first_zeros_aligned(v: u64, order: usize) -> (u32, usize, u64) {
    let (mut place, mut row) = (0, 0);
    let code = unsafe { rb_first_zeros_aligned(v, order, &mut place, &mut row) };
    (code, place, row)
}

pub fn set(rows: &mut Rows, range: Range<FrameId>, value: bool) -> u32 {
    unsafe { rb_bitfield_set(rows.as_mut_ptr(), rows.len(), range.start.0, range.end.0, value.into()) }
}

pub fn toggle(rows: &mut Rows, place: FrameId, order: usize, expected: bool) -> u32 {
    unsafe { rb_bitfield_toggle(rows.as_mut_ptr(), rows.len(), place.0, order, expected.into()) }
}

pub fn is_zero(rows: &Rows, place: FrameId, order: usize) -> (u32, bool) {
    let mut yes = 0;
    let code = unsafe { rb_bitfield_is_zero(rows.as_ptr(), rows.len(), place.0, order, &mut yes) };
    (code, yes != 0)
}

pub fn first_zeros(rows: &Rows, start_row: RowId, order: usize) -> (u32, FrameId) {
    let mut place = FrameId(0);
    let code =
        unsafe { rb_bitfield_first_zeros(rows.as_ptr(), rows.len(), start_row.0, order, &mut place.0) };
    (code, place)
}

pub fn set_first_zeros(rows: &mut Rows, start_row: RowId, order: usize) -> (u32, FrameId) {
    let mut place = FrameId(0);
    let code = unsafe {
        rb_bitfield_set_first_zeros(rows.as_mut_ptr(), rows.len(), start_row.0, order, &mut place.0)
    };
    (code, place)
}

pub fn fill(rows: &mut Rows, value: bool) -> u32 {
    unsafe { rb_bitfield_fill(rows.as_mut_ptr(), rows.len(), value.into()) }
}

pub fn count_zeros(rows: &Rows) -> (u32, usize) {
    let mut zeros = 0;
    let code = unsafe { rb_bitfield_count_zeros(rows.as_ptr(), rows.len(), &mut zeros) };
    (code, zeros)
}

/// A call of the lower level, with N, T and both slices before its own arguments.
macro_rules! call {
    ($function:ident, $lower:ident, $pointer:ident $(, $argument:expr)*) => {
        unsafe {
            $function(
                $lower.frames,
                $lower.tree_huge,
                $lower.rows.$pointer(),
                $lower.rows.len(),
                $lower.entries.$pointer(),
                $lower.entries.len(),
                $($argument),*
            )
        }
    };
}

pub fn free_all(lower: &mut Lower<'_>) -> u32 {
    call!(rb_free_all, lower, as_mut_ptr)
}

pub fn reserve_all(lower: &mut Lower<'_>) -> u32 {
    call!(rb_reserve_all, lower, as_mut_ptr)
}

pub fn get(lower: &mut Lower<'_>, row: RowId, order: usize) -> (u32, Got) {
    let mut got = Got::default();
    let code = call!(rb_get, lower, as_mut_ptr, row.0, order, &mut got.frame.0, &mut got.probes);
    (code, got)
}

pub fn get_at(lower: &mut Lower<'_>, frame: FrameId, order: usize) -> (u32, Got) {
    let mut got = Got::default();
    let code = call!(rb_get_at, lower, as_mut_ptr, frame.0, order, &mut got.frame.0, &mut got.probes);
    (code, got)
}

pub fn put(lower: &mut Lower<'_>, frame: FrameId, order: usize) -> u32 {
    call!(rb_put, lower, as_mut_ptr, frame.0, order)
}

pub fn is_free(lower: &Lower<'_>, frame: FrameId, order: usize) -> (u32, bool) {
    let mut yes = 0;
    let code = call!(rb_is_free, lower, as_ptr, frame.0, order, &mut yes);
    (code, yes != 0)
}

pub fn stats(lower: &Lower<'_>) -> (u32, Stats) {
    let mut stats = Stats::default();
    let Stats { free_frames, free_huge, free_trees } = &mut stats;
    let code = call!(rb_stats, lower, as_ptr, free_frames, free_huge, free_trees);
    (code, stats)
}

pub fn stats_at(lower: &Lower<'_>, frame: FrameId, order: usize) -> (u32, Stats) {
    let mut stats = Stats::default();
    let Stats { free_frames, free_huge, free_trees } = &mut stats;
    let code = call!(rb_stats_at, lower, as_ptr, frame.0, order, free_frames, free_huge, free_trees);
    (code, stats)
}

pub fn audit(lower: &Lower<'_>) -> (u32, HugeId, u32) {
    let (mut huge, mut reason) = (HugeId(0), 0);
    let code = call!(rb_audit, lower, as_ptr, &mut huge.0, &mut reason);
    (code, huge, reason)
}

pub fn recover(lower: &mut Lower<'_>) -> (u32, Recovered) {
    let mut recovered = Recovered::default();
    let Recovered { entries, bitfields } = &mut recovered;
    let code = call!(rb_recover, lower, as_mut_ptr, entries, bitfields);
    (code, recovered)
}

pub fn why_get(lower: &Lower<'_>, row: RowId, order: usize) -> (u32, u32) {
    // The frame is always 0.
    let (mut reason, mut frame) = (0, 0);
    let code = call!(rb_why_get, lower, as_ptr, row.0, order, &mut reason, &mut frame);
    (code, reason)
}

pub fn why_get_at(lower: &Lower<'_>, frame: FrameId, order: usize) -> (u32, u32, FrameId) {
    let (mut reason, mut at) = (0, FrameId(0));
    let code = call!(rb_why_get_at, lower, as_ptr, frame.0, order, &mut reason, &mut at.0);
    (code, reason, at)
}

pub fn why_put(lower: &Lower<'_>, frame: FrameId, order: usize) -> (u32, u32, FrameId) {
    let (mut reason, mut at) = (0, FrameId(0));
    let code = call!(rb_why_put, lower, as_ptr, frame.0, order, &mut reason, &mut at.0);
    (code, reason, at)
}

pub fn room(lower: &Lower<'_>, frame: FrameId) -> (u32, [usize; ORDERS]) {
    let mut counts = [0; ORDERS];
    let code = call!(rb_room, lower, as_ptr, frame.0, &mut counts);
    (code, counts)
}

pub fn tree_run(lower: &Lower<'_>, frame: FrameId) -> (u32, usize, usize) {
    let (mut offset, mut length) = (0, 0);
    let code = call!(rb_tree_run, lower, as_ptr, frame.0, &mut offset, &mut length);
    (code, offset, length)
}
