//! A state with memory of its own, for a static.

use core::fmt;

use crate::{Error, Init, Lower};

/// The rows and entries of a [`Lower`], which a static can own: it is made at compile time, in memory that is
/// all zero, is [started](State::start) later, and [lends](State::lower) the `Lower`. Until then it has no
/// frames.
///
/// It has room for at least so many frames as [`rows_needed`](crate::rows_needed) and
/// [`entries_needed`](crate::entries_needed) were asked for.
///
/// ```
/// use ravelbeam::{Error, FrameId, Init, RowId, State, entries_needed, rows_needed};
/// use std::sync::Mutex; // a kernel's own lock, that turns interrupts off
///
/// const N: usize = 1 << 15;
/// static STATE: Mutex<State<{ rows_needed(N) }, { entries_needed(N, 32) }>> = Mutex::new(State::new());
///
/// fn boot(frames: usize) -> Result<(), Error> {
///     STATE.lock().unwrap().start(frames, 32, Init::FreeAll).map(|_| ())
/// }
///
/// fn get(order: usize) -> Result<FrameId, Error> {
///     Ok(STATE.lock().unwrap().lower()?.get(RowId(0), order, None)?.frame)
/// }
///
/// assert_eq!(get(0), Err(Error::Frames)); // not started
/// boot(30_000)?;
/// assert_eq!(get(9), Ok(FrameId(0)));
/// # Ok::<(), Error>(())
/// ```
#[derive(Clone)]
pub struct State<const ROWS: usize, const ENTRIES: usize> {
    frames: usize,
    tree_huge: usize,
    rows: [u64; ROWS],
    entries: [u16; ENTRIES],
}

impl<const ROWS: usize, const ENTRIES: usize> State<ROWS, ENTRIES> {
    /// A state that is not started.
    ///
    /// ```
    /// static BOOT: ravelbeam::State<8, 1> = ravelbeam::State::new();
    /// ```
    pub const fn new() -> Self {
        State { frames: 0, tree_huge: 0, rows: [0; ROWS], entries: [0; ENTRIES] }
    }

    /// Starts it, with so many frames in trees of so many huge frames, and lends it. It may be started again.
    ///
    /// # Errors
    ///
    /// As [`Lower::new`], and then it is as it was before: 3 where this number of frames has no room.
    ///
    /// ```
    /// use ravelbeam::{Error, Init, State};
    ///
    /// let mut state = State::<16, 2>::new();
    /// assert_eq!(state.start(1000, 2, Init::FreeAll)?.stats().free_frames, 1000);
    /// assert_eq!(state.start(1025, 2, Init::FreeAll).unwrap_err(), Error::Lent);
    /// assert_eq!(state.lower()?.frames(), 1000);
    /// # Ok::<(), Error>(())
    /// ```
    pub fn start(&mut self, frames: usize, tree_huge: usize, init: Init) -> Result<Lower<'_>, Error> {
        let lower = Lower::new(frames, tree_huge, init, &mut self.rows, &mut self.entries)?;
        (self.frames, self.tree_huge) = (frames, tree_huge);
        Ok(lower)
    }

    /// Lends it, as it was left.
    ///
    /// # Errors
    ///
    /// 1 where it was never started.
    ///
    /// ```
    /// use ravelbeam::{Error, FrameId, Init, RowId, State};
    ///
    /// let mut state = State::<8, 1>::new();
    /// assert_eq!(state.lower().unwrap_err(), Error::Frames);
    /// state.start(512, 1, Init::FreeAll)?;
    /// assert_eq!(state.lower()?.get(RowId(0), 0, None)?.frame, FrameId(0));
    /// assert_eq!(state.lower()?.get(RowId(0), 0, None)?.frame, FrameId(1));
    /// # Ok::<(), Error>(())
    /// ```
    pub fn lower(&mut self) -> Result<Lower<'_>, Error> {
        let &mut State { frames, tree_huge, ref mut rows, ref mut entries } = self;
        // A start has seen to all else.
        if frames == 0 { Err(Error::Frames) } else { Ok(Lower { frames, tree_huge, rows, entries }) }
    }
}

impl<const ROWS: usize, const ENTRIES: usize> Default for State<ROWS, ENTRIES> {
    fn default() -> Self {
        State::new()
    }
}

/// Its numbers, rather than every row.
impl<const ROWS: usize, const ENTRIES: usize> fmt::Debug for State<ROWS, ENTRIES> {
    fn fmt(&self, f: &mut fmt::Formatter<'_>) -> fmt::Result {
        f.debug_struct("State")
            .field("frames", &self.frames)
            .field("tree_huge", &self.tree_huge)
            .finish_non_exhaustive()
    }
}
