//! What the build adds to the Rust: its bitfield and its lower level as C functions, so that builds for
//! several trees and page sizes can be loaded side by side. A code is document 01's number; two more
//! are ours.

extern crate std;

use core::slice;
use std::boxed::Box;
use std::panic::{AssertUnwindSafe, catch_unwind, set_hook};
use std::sync::Once;
use std::vec::Vec;

use crate::bitfield::{Bitfield, RowId, one_row_search};
use crate::lower::Lower;
use crate::util::Align;
use crate::{
    BITFIELD_ROW, Error, FrameId, HUGE_FRAMES, HUGE_ORDER, Init, Result, Stats, TREE_FRAMES, TREE_HUGE,
};

/// `Error::Memory`, as document 01 counts it.
const MEMORY: u32 = 7;
/// An error that document 01 has no number for.
const OTHER_ERROR: u32 = 98;
/// A panic. What was written before it stays.
const PANIC: u32 = 99;

/// The code of `call`. The build for speed has no guard, as its calls are all within the domain.
fn guarded(call: impl FnOnce() -> u32) -> u32 {
    if cfg!(feature = "unguarded") {
        return call();
    }
    static QUIET: Once = Once::new();
    QUIET.call_once(|| set_hook(Box::new(|_| {})));
    catch_unwind(AssertUnwindSafe(call)).unwrap_or(PANIC)
}

/// The code of `result`; what it found, or 0, goes to `number`, as our own C functions have it.
fn answer(result: Result<usize>, number: &mut usize) -> u32 {
    *number = result.unwrap_or(0);
    match result {
        Ok(_) => 0,
        Err(Error::Memory) => MEMORY,
        Err(_) => OTHER_ERROR,
    }
}

/// Huge frames in a tree of this build.
#[unsafe(no_mangle)]
pub extern "C" fn oracle_tree_huge() -> usize {
    TREE_HUGE
}

/// The huge order of this build: 9, or 11 with pages of 16K.
#[unsafe(no_mangle)]
pub extern "C" fn oracle_huge_order() -> usize {
    HUGE_ORDER
}

// ---- The bitfield. `rows` are the rows of one huge frame: eight, or 32 with pages of 16K.

#[unsafe(no_mangle)]
pub unsafe extern "C" fn oracle_first_zeros_aligned(
    v: u64,
    order: usize,
    place: &mut usize,
    row: &mut u64,
) -> u32 {
    guarded(|| {
        let found = one_row_search(v, order);
        (*row, *place) = found.unwrap_or((0, 0));
        if found.is_some() { 0 } else { MEMORY }
    })
}

#[unsafe(no_mangle)]
pub unsafe extern "C" fn oracle_set(rows: &Bitfield, start: usize, end: usize, value: u32) -> u32 {
    guarded(|| {
        rows.set(FrameId(start)..FrameId(end), value != 0);
        0
    })
}

#[unsafe(no_mangle)]
pub unsafe extern "C" fn oracle_toggle(rows: &Bitfield, place: usize, order: usize, expected: u32) -> u32 {
    guarded(|| {
        let toggled = rows.toggle(FrameId(place), order, expected != 0);
        answer(toggled.map(|()| 0), &mut 0)
    })
}

#[unsafe(no_mangle)]
pub unsafe extern "C" fn oracle_is_zero(rows: &Bitfield, place: usize, order: usize, yes: &mut u32) -> u32 {
    guarded(|| {
        *yes = rows.is_zero(FrameId(place), order) as u32;
        0
    })
}

#[unsafe(no_mangle)]
pub unsafe extern "C" fn oracle_set_first_zeros(
    rows: &Bitfield,
    start_row: usize,
    order: usize,
    place: &mut usize,
) -> u32 {
    guarded(|| {
        let found = rows.set_first_zeros(RowId(start_row), order);
        answer(found.map(|frame| frame.0), place)
    })
}

#[unsafe(no_mangle)]
pub unsafe extern "C" fn oracle_fill(rows: &Bitfield, value: u32) -> u32 {
    guarded(|| {
        rows.fill(value != 0);
        0
    })
}

#[unsafe(no_mangle)]
pub unsafe extern "C" fn oracle_count_zeros(rows: &Bitfield, zeros: &mut usize) -> u32 {
    guarded(|| {
        *zeros = rows.count_zeros();
        0
    })
}

// ---- The lower level, over rows and entries that are lent flat: the rows of ceil(frames / huge frame)
// huge frames, and TREE_HUGE entries for each of ceil(frames / tree) trees, with no gap.

/// Numbers of 16 bits from one tree's entries to the next, as the Rust pads them.
const PADDED: usize = size_of::<Align<[u16; TREE_HUGE]>>() / size_of::<u16>();

/// Memory in the Rust's own layout: the rows, then the entries.
struct Memory {
    frames: usize,
    lines: Vec<Align<[u8; 64]>>,
}

impl Memory {
    fn new(frames: usize) -> Memory {
        let mut lines = Vec::new();
        lines.resize_with(Lower::metadata_size(frames) / 64, || Align([0; 64]));
        Memory { frames, lines }
    }

    /// The lower level over this memory. It must not outlive it.
    unsafe fn lower<'a>(&mut self, init: Init) -> Result<Lower<'a>> {
        let bytes =
            unsafe { slice::from_raw_parts_mut(self.lines.as_mut_ptr().cast(), 64 * self.lines.len()) };
        Lower::new(self.frames, init, bytes)
    }

    /// Copies the flat rows and entries in, or back.
    unsafe fn copy(&mut self, rows: *mut u64, entries: *mut u16, back: bool) {
        let rows_len = self.frames.div_ceil(HUGE_FRAMES) * (HUGE_FRAMES / BITFIELD_ROW);
        let own_rows: *mut u64 = self.lines.as_mut_ptr().cast();
        unsafe {
            let own_entries: *mut u16 = own_rows.add(rows_len).cast();
            copy(rows, own_rows, rows_len, back);
            for tree in 0..self.frames.div_ceil(TREE_FRAMES) {
                copy(entries.add(tree * TREE_HUGE), own_entries.add(tree * PADDED), TREE_HUGE, back);
            }
        }
    }
}

unsafe fn copy<T>(flat: *mut T, own: *mut T, count: usize, back: bool) {
    let (from, to) = if back { (own, flat) } else { (flat, own) };
    unsafe { from.copy_to(to, count) }
}

/// Runs `call` on a copy in the Rust's own layout and copies all of it back, after a panic too.
unsafe fn lower(
    frames: usize,
    init: Init,
    rows: *mut u64,
    entries: *mut u16,
    call: impl FnOnce(&Lower) -> u32,
) -> u32 {
    let mut memory = Memory::new(frames);
    unsafe {
        memory.copy(rows, entries, false);
        let code = guarded(|| memory.lower(init).map_or(OTHER_ERROR, |lower| call(&lower)));
        memory.copy(rows, entries, true);
        code
    }
}

/// A start: 0 all free, 1 all held, 2 recover.
#[unsafe(no_mangle)]
pub unsafe extern "C" fn oracle_new(frames: usize, rows: *mut u64, entries: *mut u16, init: u32) -> u32 {
    let init = match init {
        0 => Init::FreeAll,
        1 => Init::AllocAll,
        _ => Init::Recover,
    };
    unsafe { lower(frames, init, rows, entries, |_| 0) }
}

/// A get; with `frame`, of that frame.
#[unsafe(no_mangle)]
pub unsafe extern "C" fn oracle_get(
    frames: usize,
    rows: *mut u64,
    entries: *mut u16,
    start_row: usize,
    order: usize,
    frame: Option<&usize>,
    found: &mut usize,
) -> u32 {
    let frame = frame.map(|frame| FrameId(*frame));
    unsafe {
        lower(frames, Init::None, rows, entries, |lower| {
            let got = lower.get(RowId(start_row), order, frame);
            answer(got.map(|frame| frame.0), found)
        })
    }
}

#[unsafe(no_mangle)]
pub unsafe extern "C" fn oracle_put(
    frames: usize,
    rows: *mut u64,
    entries: *mut u16,
    frame: usize,
    order: usize,
) -> u32 {
    unsafe {
        lower(frames, Init::None, rows, entries, |lower| {
            answer(lower.put(FrameId(frame), order).map(|()| 0), &mut 0)
        })
    }
}

#[unsafe(no_mangle)]
pub unsafe extern "C" fn oracle_is_free(
    frames: usize,
    rows: *mut u64,
    entries: *mut u16,
    frame: usize,
    order: usize,
    yes: &mut u32,
) -> u32 {
    unsafe {
        lower(frames, Init::None, rows, entries, |lower| {
            *yes = lower.is_free(FrameId(frame), order) as u32;
            0
        })
    }
}

/// Free frames, huge frames and trees, in that order.
#[unsafe(no_mangle)]
pub unsafe extern "C" fn oracle_stats(
    frames: usize,
    rows: *mut u64,
    entries: *mut u16,
    out: &mut [usize; 3],
) -> u32 {
    unsafe {
        lower(frames, Init::None, rows, entries, |lower| {
            *out = numbers(lower.stats());
            0
        })
    }
}

#[unsafe(no_mangle)]
pub unsafe extern "C" fn oracle_stats_at(
    frames: usize,
    rows: *mut u64,
    entries: *mut u16,
    frame: usize,
    order: usize,
    out: &mut [usize; 3],
) -> u32 {
    unsafe {
        lower(frames, Init::None, rows, entries, |lower| {
            *out = numbers(lower.stats_at(FrameId(frame), order));
            0
        })
    }
}

fn numbers(stats: Stats) -> [usize; 3] {
    [stats.free_frames, stats.free_huge, stats.free_trees]
}

#[unsafe(no_mangle)]
pub unsafe extern "C" fn oracle_recover(frames: usize, rows: *mut u64, entries: *mut u16) -> u32 {
    unsafe {
        lower(frames, Init::None, rows, entries, |lower| {
            lower.recover();
            0
        })
    }
}

// ---- A lower level whose memory stays in the Rust's layout, so that a call is no more than the call.

pub struct Kept {
    memory: Memory,
    lower: Lower<'static>,
}

/// One of so many frames, which lasts as long as the program.
#[unsafe(no_mangle)]
pub extern "C" fn oracle_keep(frames: usize) -> *mut Kept {
    let mut memory = Memory::new(frames);
    let lower = unsafe { memory.lower(Init::None) }.expect("the memory is as large as it has to be");
    Box::into_raw(Box::new(Kept { memory, lower }))
}

/// Starts it anew: 0 all free, 1 all held.
#[unsafe(no_mangle)]
pub unsafe extern "C" fn oracle_kept_start(kept: &mut Kept, init: u32) -> u32 {
    let init = if init == 0 { Init::FreeAll } else { Init::AllocAll };
    guarded(|| unsafe { kept.memory.lower(init) }.map_or(OTHER_ERROR, |_| 0))
}

/// Copies flat rows and entries in, or with `back` out.
#[unsafe(no_mangle)]
pub unsafe extern "C" fn oracle_kept_copy(kept: &mut Kept, rows: *mut u64, entries: *mut u16, back: u32) {
    unsafe { kept.memory.copy(rows, entries, back != 0) }
}

#[unsafe(no_mangle)]
pub unsafe extern "C" fn oracle_kept_get(
    kept: &Kept,
    start_row: usize,
    order: usize,
    found: &mut usize,
) -> u32 {
    guarded(|| {
        let got = kept.lower.get(RowId(start_row), order, None);
        answer(got.map(|frame| frame.0), found)
    })
}

/// A get of that frame.
#[unsafe(no_mangle)]
pub unsafe extern "C" fn oracle_kept_get_at(
    kept: &Kept,
    frame: usize,
    order: usize,
    found: &mut usize,
) -> u32 {
    guarded(|| {
        let got = kept.lower.get(RowId(0), order, Some(FrameId(frame)));
        answer(got.map(|frame| frame.0), found)
    })
}

#[unsafe(no_mangle)]
pub unsafe extern "C" fn oracle_kept_put(kept: &Kept, frame: usize, order: usize) -> u32 {
    guarded(|| answer(kept.lower.put(FrameId(frame), order).map(|()| 0), &mut 0))
}

#[unsafe(no_mangle)]
pub unsafe extern "C" fn oracle_kept_is_free(kept: &Kept, frame: usize, order: usize, yes: &mut u32) -> u32 {
    guarded(|| {
        *yes = kept.lower.is_free(FrameId(frame), order) as u32;
        0
    })
}

#[unsafe(no_mangle)]
pub unsafe extern "C" fn oracle_kept_stats(kept: &Kept, out: &mut [usize; 3]) -> u32 {
    guarded(|| {
        *out = numbers(kept.lower.stats());
        0
    })
}

#[unsafe(no_mangle)]
pub unsafe extern "C" fn oracle_kept_stats_at(
    kept: &Kept,
    frame: usize,
    order: usize,
    out: &mut [usize; 3],
) -> u32 {
    guarded(|| {
        *out = numbers(kept.lower.stats_at(FrameId(frame), order));
        0
    })
}

#[unsafe(no_mangle)]
pub unsafe extern "C" fn oracle_kept_recover(kept: &Kept) -> u32 {
    guarded(|| {
        kept.lower.recover();
        0
    })
}
