//! The lower level of a page-frame allocator, with a proof: it hands out frames of 4 KiB, alone or in aligned
//! blocks up to a whole tree of huge frames, and takes them back.
//!
//! The calls are written in Rattle, in which every function is proved to meet its contract, and linked from
//! the archive `libravelbeam.a`; this crate gives them Rust's types, under the names that they have in
//! llfree-rs, whose reservation level is to stand on them. The repository's docs/PROMISES.md has what is
//! proved of each. It is for a single core: a caller with several puts a [`Lower`] behind a lock.
//!
//! The painter draws in whole huge frames, and the log writes its notes in single frames:
//!
//! ```
//! use ravelbeam::{Error, FrameId, Init, Lower, RowId, entries_needed, rows_needed};
//!
//! let mut rows = [0; rows_needed(2048)];
//! let mut entries = [0; entries_needed(2048, 4)];
//! let mut lower = Lower::new(2048, 4, Init::FreeAll, &mut rows, &mut entries)?;
//! let drawn = lower.get(RowId(0), 9, None)?.frame; // a huge frame for the painter
//! let noted = lower.get(RowId(16), 0, None)?.frame; // a frame for the log, from row 16 on
//! let refusal = lower.get(RowId(0), 0, Some(FrameId(3))).unwrap_err(); // frame 3 is the painter's
//! assert_eq!((drawn, noted, refusal.error), (FrameId(0), FrameId(1024), Error::Memory));
//! lower.put(drawn, 9)?;
//! lower.put(noted, 0)?;
//! assert_eq!(lower.stats().free_trees, 1); // all is back
//! # Ok::<(), Error>(())
//! ```
//!
//! Where a get or a put is refused with 7, [`why_get`](Lower::why_get) and [`why_put`](Lower::why_put) say
//! why.
//!
//! A [`State`] owns its rows and entries, and can be a static. Memory with holes is started with [`blocks`].
//! The repository's docs/KERNEL.md has more for kernels.
//!
//! # Linking
//!
//! The archive `libravelbeam.a` is looked for in the repository, by the target:
//!
//! | Target | Folder | Made by |
//! |---|---|---|
//! | a kernel's, `target_os = "none"` | `target/kernel/MACHINE` | `tools/kernel` |
//! | x86-64 | `target/staticlib` | `tools/archive` |
//! | another machine | `target/native/MACHINE` | `tools/native MACHINE` |
//!
//! `RAVELBEAM_LIB_DIR` names another folder; if it is relative, from the folder that cargo runs in. `cargo
//! check` and `cargo doc` need no archive.
//!
//! The archive has no state of its own, allocates nothing, and needs `memcpy` and `memset`: a C library has
//! them, and on targets without one Rust brings its own. That of `tools/archive` uses the registers of SSE2
//! and may use the red zone, so a kernel can't link it: those of `tools/kernel` use neither.
//!
//! Targets must have 64 bits, since numbers of the calls are `usize` and 64 bits wide.

#![no_std]
#![deny(unsafe_op_in_unsafe_fn, missing_docs)]
#![deny(unsafe_code)]

pub mod bitfield;
mod blocks;
#[allow(unsafe_code)]
mod calls;
mod error;
#[allow(unsafe_code)]
mod ffi;
mod ids;
mod lower;
mod state;
mod why;

pub use blocks::blocks;
pub use error::{Error, Refusal};
pub use ids::{FrameId, HugeId, RowId};
pub use lower::{Fault, Got, Init, Lower, Reason, Recovered, Stats};
pub use state::State;
pub use why::Why;

const _: () = assert!(usize::BITS == 64, "the calls are for 64 bits");

/// The most frames that a [`Lower`] can have.
pub const MAX_FRAMES: usize = 1_048_576;
/// The order of a huge frame.
pub const HUGE_ORDER: usize = 9;
/// The frames of a huge frame.
pub const HUGE_FRAMES: usize = 1 << HUGE_ORDER;
/// The frames of a row.
pub const BITFIELD_ROW: usize = 64;
/// The orders that a block can have where trees are largest, 0 to 18.
pub const ORDERS: usize = 19;
/// The entry of a huge frame that is held whole.
pub const MARK: u16 = 65535;

/// The rows that so many frames need; 0 where [`Lower::new`] refuses their number with 1.
///
/// ```
/// assert_eq!(ravelbeam::rows_needed(1000), 16);
/// ```
pub const fn rows_needed(frames: usize) -> usize {
    if frames > MAX_FRAMES {
        return 0;
    }
    HUGE_FRAMES / BITFIELD_ROW * frames.div_ceil(HUGE_FRAMES)
}

/// The entries that so many frames need in trees of `tree_huge` huge frames; 0 where [`Lower::new`] refuses
/// these numbers with 1 or 2.
///
/// ```
/// assert_eq!(ravelbeam::entries_needed(1000, 4), 4);
/// ```
pub const fn entries_needed(frames: usize, tree_huge: usize) -> usize {
    if frames > MAX_FRAMES || tree_huge > 512 || !tree_huge.is_power_of_two() {
        return 0;
    }
    tree_huge * frames.div_ceil(HUGE_FRAMES * tree_huge)
}
