//! A range of frames as aligned blocks.

use core::iter;
use core::ops::Range;

use crate::FrameId;

/// The aligned blocks that a range of frames is made of, from its start on and each as large as can be: its
/// first frame, and its order, which is at most `top`.
///
/// So memory with holes is started: all of it held, and then what is there is given back.
///
/// ```
/// use ravelbeam::{Error, FrameId, Init, State, blocks};
///
/// let mut state = State::<32, 4>::new();
/// let mut lower = state.start(2048, 4, Init::AllocAll)?;
/// for there in [FrameId(1)..FrameId(512), FrameId(1000)..FrameId(2048)] {
///     for (frame, order) in blocks(there, lower.tree_order()) {
///         lower.put(frame, order)?;
///     }
/// }
/// assert_eq!(lower.stats().free_frames, 511 + 1048);
/// # Ok::<(), Error>(())
/// ```
pub fn blocks(range: Range<FrameId>, top: usize) -> impl Iterator<Item = (FrameId, usize)> {
    let (mut at, end) = (range.start.0, range.end.0);
    iter::from_fn(move || {
        let fits = end.checked_sub(at)?.checked_ilog2()?;
        let order = top.min(fits.min(at.trailing_zeros()) as usize);
        let frame = FrameId(at);
        at += 1 << order;
        Some((frame, order))
    })
}
