//! The lower level over lent slices.

use core::fmt;

use crate::error::{Error, Refusal, check};
use crate::{FrameId, HUGE_ORDER, HugeId, MARK, ORDERS, RowId, Why, ffi};

/// How a [`Lower`] finds its frames.
#[derive(Clone, Copy, Debug, PartialEq, Eq)]
pub enum Init {
    /// All frames are free.
    FreeAll,
    /// All frames are held.
    AllocAll,
    /// As the lent memory says, once [`recover`](Lower::recover) has put it right. What that changed is told
    /// by the call itself, after `None`.
    Recover,
    /// As the lent memory says. Nothing is read or written.
    None,
}

/// A block that a [`get`](Lower::get) took.
#[derive(Clone, Copy, Debug, Default, PartialEq, Eq)]
pub struct Got {
    /// The block's first frame.
    pub frame: FrameId,
    /// The entries visited, or from order 9 up the groups of them, with the last; 1 with a chosen frame.
    pub probes: usize,
}

/// How much is free.
#[derive(Clone, Copy, Debug, Default, PartialEq, Eq)]
pub struct Stats {
    /// Free frames.
    pub free_frames: usize,
    /// Huge frames that are free whole.
    pub free_huge: usize,
    /// Trees that are free whole.
    pub free_trees: usize,
}

/// What a [`recover`](Lower::recover) changed.
#[derive(Clone, Copy, Debug, Default, PartialEq, Eq)]
pub struct Recovered {
    /// Entries that are now others.
    pub entries: usize,
    /// Huge frames with a row that is now another.
    pub bitfields: usize,
}

/// The first faulty huge frame of a state, and why it is.
#[derive(Clone, Copy, Debug, PartialEq, Eq)]
pub struct Fault {
    /// The huge frame.
    pub huge: HugeId,
    /// Why it is faulty.
    pub reason: Reason,
}

/// Why a huge frame is faulty. Of two reasons the lower number is given.
#[derive(Clone, Copy, Debug, PartialEq, Eq)]
#[repr(u32)]
pub enum Reason {
    /// 1: the mark over a huge frame that is not whole.
    PartialMark = 1,
    /// 2: the mark, and a bit is set.
    BitUnderMark = 2,
    /// 3: a clear bit past the last frame.
    ClearPastEnd = 3,
    /// 4: a count that differs from the clear bits.
    WrongCount = 4,
    /// 5: an entry with no huge frame behind it that is not 0.
    AbsentEntry = 5,
}

impl Reason {
    /// Document 01's number, 1 to 5, which the audit in C answers.
    ///
    /// ```
    /// assert_eq!(ravelbeam::Reason::WrongCount.number(), 4);
    /// ```
    pub const fn number(self) -> u32 {
        self as u32
    }
}

impl fmt::Display for Reason {
    fn fmt(&self, f: &mut fmt::Formatter<'_>) -> fmt::Result {
        let reason = match self {
            Reason::PartialMark => "it has the mark, and is not whole",
            Reason::BitUnderMark => "it has the mark, and a bit is set",
            Reason::ClearPastEnd => "a bit past the last frame is clear",
            Reason::WrongCount => "its count is not the number of its clear bits",
            Reason::AbsentEntry => "it is absent, and its entry is not 0",
        };
        write!(f, "{reason} ({})", self.number())
    }
}

impl fmt::Display for Fault {
    fn fmt(&self, f: &mut fmt::Formatter<'_>) -> fmt::Result {
        write!(f, "huge frame {}: {}", self.huge.0, self.reason)
    }
}

/// The lower level of the allocator: frames in trees of huge frames, over a row of bits for each 64 frames
/// and an entry for each huge frame, which are lent for as long as it lives.
///
/// Its numbers stay as they were given to [`new`](Lower::new), so no other call is refused with 1 to 3.
/// Nobody else can write what is lent:
///
/// ```compile_fail,E0506
/// # use ravelbeam::{Error, Init, Lower};
/// # let (mut rows, mut entries) = ([0; 8], [0; 1]);
/// let lower = Lower::new(512, 1, Init::FreeAll, &mut rows, &mut entries)?;
/// rows[0] = 1;
/// lower.stats();
/// # Ok::<(), Error>(())
/// ```
pub struct Lower<'a> {
    pub(crate) frames: usize,
    pub(crate) tree_huge: usize,
    pub(crate) rows: &'a mut [u64],
    pub(crate) entries: &'a mut [u16],
}

impl<'a> Lower<'a> {
    /// The lower level of `frames` frames in trees of `tree_huge` huge frames, over at least
    /// [`rows_needed`](crate::rows_needed) rows and [`entries_needed`](crate::entries_needed) entries. What
    /// is lent beyond these is never touched.
    ///
    /// # Errors
    ///
    /// 1, 2 and 3; and 8 by [`Init::Recover`].
    ///
    /// ```
    /// use ravelbeam::{Error, Init, Lower};
    ///
    /// let (mut rows, mut entries) = ([0; 16], [0; 2]);
    /// let lower = Lower::new(1000, 2, Init::FreeAll, &mut rows, &mut entries)?;
    /// assert_eq!(lower.stats().free_frames, 1000);
    /// assert_eq!(Lower::new(1000, 3, Init::FreeAll, &mut rows, &mut entries).unwrap_err(), Error::Tree);
    /// # Ok::<(), Error>(())
    /// ```
    pub fn new(
        frames: usize,
        tree_huge: usize,
        init: Init,
        rows: &'a mut [u64],
        entries: &'a mut [u16],
    ) -> Result<Self, Error> {
        let mut lower = Lower { frames, tree_huge, rows, entries };
        match init {
            Init::FreeAll => check(ffi::free_all(&mut lower), ()),
            Init::AllocAll => check(ffi::reserve_all(&mut lower), ()),
            Init::Recover => lower.recover().map(|_| ()),
            // Frame 0 is below any number of frames, so that this is refused with 1 to 3 alone.
            Init::None => lower.tree_run(FrameId(0)).map(|_| ()),
        }?;
        Ok(lower)
    }

    /// Takes a block of 2^`order` frames: the one at `frame`, or without a frame the first free one of the
    /// tree of `start_row`. A block of order 9 or more is held whole, by the mark. With a frame the start row
    /// is not looked at.
    ///
    /// The search goes through the tree's huge frames, from that of `start_row` on, wrapping. Orders 0 to 6:
    /// in each the rows from `start_row` modulo 8 on, wrapping, and in a row the lowest block. Orders 7 and
    /// 8: in each the blocks from the one that holds that row on, wrapping. From order 9 up: the tree's
    /// blocks from that of `start_row` on, wrapping.
    ///
    /// # Errors
    ///
    /// 4 where the order is above that of a tree; 5 where the start row's number times 64 is not below the
    /// number of frames, or the block at `frame` ends past it; 6 where `frame` is not aligned; 7 where there
    /// is no such block, or the one at `frame` is not all free; 8 where the search meets damage.
    ///
    /// ```
    /// use ravelbeam::{Error, FrameId, Got, Init, Refusal, RowId, State};
    ///
    /// let mut state = State::<32, 4>::new();
    /// let mut lower = state.start(2048, 4, Init::FreeAll)?;
    /// assert_eq!(lower.get(RowId(3), 0, None), Ok(Got { frame: FrameId(192), probes: 1 }));
    /// assert_eq!(lower.get(RowId(5), 7, None), Ok(Got { frame: FrameId(256), probes: 1 })); // rows 4 and 5
    /// assert_eq!(lower.get(RowId(3), 9, None), Ok(Got { frame: FrameId(512), probes: 2 }));
    /// assert_eq!(lower.get(RowId(0), 4, Some(FrameId(1024)))?.frame, FrameId(1024));
    /// let refused = lower.get(RowId(0), 11, None);
    /// assert_eq!(refused, Err(Refusal { error: Error::Memory, probes: 1 }));
    /// # Ok::<(), Error>(())
    /// ```
    pub fn get(&mut self, start_row: RowId, order: usize, frame: Option<FrameId>) -> Result<Got, Refusal> {
        let (code, got) = match frame {
            Some(frame) => ffi::get_at(self, frame, order),
            None => ffi::get(self, start_row, order),
        };
        check(code, got).map_err(|error| Refusal { error, probes: got.probes })
    }

    /// Gives the block of 2^`order` frames at `frame` back: one that a get took, or a part of it.
    ///
    /// # Errors
    ///
    /// 4 where the order is above that of a tree; 5 where the block ends past the number of frames; 6 where
    /// it is not aligned; 7 where not all of it is held, or from order 9 up not held whole; 8 where a bit is
    /// set under a mark.
    ///
    /// ```
    /// use ravelbeam::{Error, FrameId, Init, RowId, State};
    ///
    /// let mut state = State::<8, 1>::new();
    /// let mut lower = state.start(512, 1, Init::FreeAll)?;
    /// let huge = lower.get(RowId(0), 9, None)?.frame;
    /// lower.put(huge, 8)?; // the first half of it
    /// assert_eq!(lower.put(huge, 8), Err(Error::Memory)); // which is free now
    /// assert_eq!(lower.put(huge, 9), Err(Error::Memory)); // and the whole is not held whole
    /// lower.put(huge + FrameId(256), 8)?;
    /// assert_eq!(lower.stats().free_huge, 1);
    /// # Ok::<(), Error>(())
    /// ```
    pub fn put(&mut self, frame: FrameId, order: usize) -> Result<(), Error> {
        check(ffi::put(self, frame, order), ())
    }

    /// Whether all of the block of 2^`order` frames at `frame` are free.
    ///
    /// # Errors
    ///
    /// 4 where the order is above that of a tree; 5 where the block ends past the number of frames; 6 where
    /// it is not aligned.
    ///
    /// ```
    /// use ravelbeam::{Error, FrameId, Init, RowId, State};
    ///
    /// let mut state = State::<8, 1>::new();
    /// let mut lower = state.start(512, 1, Init::FreeAll)?;
    /// lower.get(RowId(0), 0, Some(FrameId(5)))?;
    /// assert_eq!(lower.is_free(FrameId(0), 2), Ok(true));
    /// assert_eq!(lower.is_free(FrameId(4), 2), Ok(false));
    /// # Ok::<(), Error>(())
    /// ```
    pub fn is_free(&self, frame: FrameId, order: usize) -> Result<bool, Error> {
        let (code, yes) = ffi::is_free(self, frame, order);
        check(code, yes)
    }

    /// How much is free in all.
    ///
    /// ```
    /// use ravelbeam::{Error, Init, RowId, State, Stats};
    ///
    /// let mut state = State::<16, 2>::new();
    /// let mut lower = state.start(1024, 1, Init::FreeAll)?;
    /// lower.get(RowId(0), 0, None)?;
    /// assert_eq!(lower.stats(), Stats { free_frames: 1023, free_huge: 1, free_trees: 1 });
    /// # Ok::<(), Error>(())
    /// ```
    pub fn stats(&self) -> Stats {
        let (code, stats) = ffi::stats(self);
        debug_assert_eq!(code, 0);
        stats
    }

    /// How much is free at a frame: of itself (order 0), its huge frame (9) or its tree
    /// ([`tree_order`](Lower::tree_order)). At any other order all three are 0.
    ///
    /// # Errors
    ///
    /// 5 where the frame is not below the number of frames.
    ///
    /// ```
    /// use ravelbeam::{Error, FrameId, Init, State};
    ///
    /// let mut state = State::<32, 4>::new();
    /// let lower = state.start(2048, 4, Init::FreeAll)?;
    /// assert_eq!(lower.stats_at(FrameId(700), 0)?.free_frames, 1);
    /// assert_eq!(lower.stats_at(FrameId(700), 9)?.free_frames, 512);
    /// assert_eq!(lower.stats_at(FrameId(700), lower.tree_order())?.free_trees, 1);
    /// # Ok::<(), Error>(())
    /// ```
    pub fn stats_at(&self, frame: FrameId, order: usize) -> Result<Stats, Error> {
        let (code, stats) = ffi::stats_at(self, frame, order);
        check(code, stats)
    }

    /// Puts wrong counts right by the bits, and clears the bits under a mark.
    ///
    /// # Errors
    ///
    /// 8 where a huge frame has reason 1, 3 or 5 of an [`audit`](Lower::audit).
    ///
    /// ```
    /// use ravelbeam::{Error, Init, Lower, Recovered};
    ///
    /// let (mut rows, mut entries) = ([1, 0, 0, 0, 0, 0, 0, 0], [512]);
    /// let mut lower = Lower::new(512, 1, Init::None, &mut rows, &mut entries)?;
    /// assert_eq!(lower.recover(), Ok(Recovered { entries: 1, bitfields: 0 }));
    /// assert_eq!(entries, [511]);
    /// # Ok::<(), Error>(())
    /// ```
    pub fn recover(&mut self) -> Result<Recovered, Error> {
        let (code, recovered) = ffi::recover(self);
        check(code, recovered)
    }

    /// The first faulty huge frame, or none where the state is consistent.
    ///
    /// ```
    /// use ravelbeam::{Error, Fault, HugeId, Init, Lower, Reason};
    ///
    /// let (mut rows, mut entries) = ([0; 16], [512, 500]);
    /// let lower = Lower::new(1024, 2, Init::None, &mut rows, &mut entries)?;
    /// assert_eq!(lower.audit(), Some(Fault { huge: HugeId(1), reason: Reason::WrongCount }));
    /// # Ok::<(), Error>(())
    /// ```
    pub fn audit(&self) -> Option<Fault> {
        let (code, huge, reason) = ffi::audit(self);
        debug_assert_eq!(code, 0);
        // No audit gives another reason than 0 to 5, so the last arm is that of 5.
        let reason = match reason {
            0 => return None,
            1 => Reason::PartialMark,
            2 => Reason::BitUnderMark,
            3 => Reason::ClearPastEnd,
            4 => Reason::WrongCount,
            _ => Reason::AbsentEntry,
        };
        Some(Fault { huge, reason })
    }

    /// Why a [`get`](Lower::get) of the same numbers would be refused with 7, or none where it would be done.
    /// Nothing is written. It looks through the whole tree, and is for people rather than for each get.
    ///
    /// # Errors
    ///
    /// 4 to 6 as the get itself; then 8 where its tree is not consistent, absent entries too. Other trees
    /// don't matter.
    ///
    /// ```
    /// use ravelbeam::{Error, FrameId, HugeId, Init, RowId, State, Why};
    ///
    /// let mut state = State::<32, 4>::new();
    /// let mut lower = state.start(2048, 4, Init::FreeAll)?;
    /// let log = [5, 700, 1024, 2047].map(FrameId); // one frame in each huge frame
    /// for frame in log {
    ///     lower.get(RowId(0), 0, Some(frame))?;
    /// }
    /// let refusal = lower.get(RowId(0), 9, None).unwrap_err(); // of a huge frame for the painter
    /// assert_eq!(refusal.error, Error::Memory);
    ///
    /// let why = lower.why_get(RowId(0), 9, None)?.unwrap();
    /// assert_eq!(why, Why::NoBlock { free: 2044, needed: 512 });
    /// assert_eq!(why.to_string(), "the tree has 2044 free frames, but no aligned block of 512 (3)");
    /// for (huge, frame) in log.into_iter().enumerate() {
    ///     let painted = HugeId(huge).as_frame();
    ///     assert_eq!(lower.stats_at(painted, 9)?.free_frames, 511);
    ///     assert_eq!(lower.why_get(RowId(0), 9, Some(painted))?, Some(Why::Held(frame)));
    /// }
    /// lower.put(log[1], 0)?;
    /// assert_eq!(lower.why_get(RowId(0), 9, None)?, None); // it would be done
    /// # Ok::<(), Error>(())
    /// ```
    pub fn why_get(
        &self,
        start_row: RowId,
        order: usize,
        frame: Option<FrameId>,
    ) -> Result<Option<Why>, Error> {
        if let Some(frame) = frame {
            // No other reason than 0 and 4 is given here.
            let (code, reason, at) = ffi::why_get_at(self, frame, order);
            return check(code, (reason != 0).then_some(Why::Held(at)));
        }
        let (code, reason) = ffi::why_get(self, start_row, order);
        check(code, ())?;
        let (tree, needed) = (start_row.as_frame(), 1 << order);
        let free = self.stats_at(tree, self.tree_order())?.free_frames;
        let counts = self.tree_run(tree)?.iter().filter(|entry| **entry != MARK);
        let most = counts.max().map_or(0, |count| usize::from(*count));
        // And here none but 0 to 3, so the last arm is that of 3.
        Ok(match reason {
            0 => None,
            1 => Some(Why::TooFew { free, needed }),
            2 => Some(Why::Spread { free, most, needed }),
            _ => Some(Why::NoBlock { free, needed }),
        })
    }

    /// Why a [`put`](Lower::put) of the same numbers would be refused with 7, or none where it would be done.
    /// Nothing is written. It looks through the whole tree, and is for people rather than for each put.
    ///
    /// # Errors
    ///
    /// 4 to 6 as the put itself; then 8 where its tree is not consistent, absent entries too. Other trees
    /// don't matter.
    ///
    /// ```
    /// use ravelbeam::{Error, FrameId, Init, RowId, State, Why};
    ///
    /// let mut state = State::<8, 1>::new();
    /// let mut lower = state.start(512, 1, Init::FreeAll)?;
    /// lower.get(RowId(0), 8, None)?;
    /// assert_eq!(lower.why_put(FrameId(0), 8)?, None); // it would be done
    /// assert_eq!(lower.why_put(FrameId(0), 9)?, Some(Why::Free(FrameId(256))));
    /// lower.get(RowId(0), 8, None)?;
    /// assert_eq!(lower.why_put(FrameId(0), 9)?, Some(Why::HeldSingly(FrameId(0))));
    /// # Ok::<(), Error>(())
    /// ```
    pub fn why_put(&self, frame: FrameId, order: usize) -> Result<Option<Why>, Error> {
        let (code, reason, at) = ffi::why_put(self, frame, order);
        check(code, ())?;
        // No other reason than 0, 5 and 6 is given, so the last arm is that of 6.
        Ok(match reason {
            0 => None,
            5 => Some(Why::Free(at)),
            _ => Some(Why::HeldSingly(at)),
        })
    }

    /// How many blocks of each order the entries of a frame's tree promise: below order 9 each free count's
    /// whole blocks, wherever the free frames lie, and from 9 up the aligned groups that are free whole.
    ///
    /// # Errors
    ///
    /// 5 where the frame is not below the number of frames.
    ///
    /// ```
    /// use ravelbeam::{Error, FrameId, Init, State};
    ///
    /// let mut state = State::<16, 2>::new();
    /// let room = state.start(1024, 2, Init::FreeAll)?.room(FrameId(0))?;
    /// assert_eq!(room[..12], [1024, 512, 256, 128, 64, 32, 16, 8, 4, 2, 1, 0]);
    /// # Ok::<(), Error>(())
    /// ```
    pub fn room(&self, frame: FrameId) -> Result<[usize; ORDERS], Error> {
        let (code, counts) = ffi::room(self, frame);
        check(code, counts)
    }

    /// The entries of a frame's tree.
    ///
    /// # Errors
    ///
    /// 5 where the frame is not below the number of frames.
    ///
    /// ```
    /// use ravelbeam::{Error, FrameId, Init, State};
    ///
    /// let mut state = State::<24, 4>::new();
    /// let lower = state.start(1500, 2, Init::FreeAll)?;
    /// assert_eq!(lower.tree_run(FrameId(1024)), Ok(&[476, 0][..]));
    /// # Ok::<(), Error>(())
    /// ```
    pub fn tree_run(&self, frame: FrameId) -> Result<&[u16], Error> {
        let (code, offset, length) = ffi::tree_run(self, frame);
        check(code, ())?;
        Ok(&self.entries[offset..][..length])
    }

    /// The number of frames.
    ///
    /// ```
    /// # use ravelbeam::{Error, Init, State};
    /// let mut state = State::<24, 4>::new();
    /// assert_eq!(state.start(1500, 2, Init::FreeAll)?.frames(), 1500);
    /// # Ok::<(), Error>(())
    /// ```
    pub const fn frames(&self) -> usize {
        self.frames
    }

    /// The huge frames of a tree.
    ///
    /// ```
    /// # use ravelbeam::{Error, Init, State};
    /// let mut state = State::<24, 4>::new();
    /// assert_eq!(state.start(1500, 2, Init::FreeAll)?.tree_huge(), 2);
    /// # Ok::<(), Error>(())
    /// ```
    pub const fn tree_huge(&self) -> usize {
        self.tree_huge
    }

    /// The order of a whole tree: the highest that a block can have.
    ///
    /// ```
    /// # use ravelbeam::{Error, Init, State};
    /// let mut state = State::<24, 4>::new();
    /// assert_eq!(state.start(1500, 2, Init::FreeAll)?.tree_order(), 10);
    /// # Ok::<(), Error>(())
    /// ```
    pub const fn tree_order(&self) -> usize {
        HUGE_ORDER + self.tree_huge.trailing_zeros() as usize
    }

    /// The rows, all that are lent. Frame f is bit f mod 64 of row f div 64, and a set bit is a held frame.
    ///
    /// ```
    /// # use ravelbeam::{Error, Init, State};
    /// let mut state = State::<24, 4>::new();
    /// assert_eq!(state.start(1500, 2, Init::FreeAll)?.rows()[23], !0 << (1500 - 23 * 64));
    /// # Ok::<(), Error>(())
    /// ```
    pub const fn rows(&self) -> &[u64] {
        self.rows
    }

    /// The entries, all that are lent: each huge frame's free count, or [`MARK`](crate::MARK).
    ///
    /// ```
    /// # use ravelbeam::{Error, Init, State};
    /// let mut state = State::<24, 4>::new();
    /// assert_eq!(state.start(1500, 2, Init::FreeAll)?.entries(), [512, 512, 476, 0]);
    /// # Ok::<(), Error>(())
    /// ```
    pub const fn entries(&self) -> &[u16] {
        self.entries
    }
}

/// Its numbers and how much is free, rather than every row.
impl fmt::Debug for Lower<'_> {
    fn fmt(&self, f: &mut fmt::Formatter<'_>) -> fmt::Result {
        f.debug_struct("Lower")
            .field("frames", &self.frames)
            .field("tree_huge", &self.tree_huge)
            .field("stats", &self.stats())
            .finish_non_exhaustive()
    }
}
