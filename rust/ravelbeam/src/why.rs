//! Document 02's reasons for a 7.

use core::fmt;

use crate::FrameId;

/// Why a get or a put would be refused with [`Error::Memory`](crate::Error::Memory), as
/// [`why_get`](crate::Lower::why_get) and [`why_put`](crate::Lower::why_put) tell. That it would be done is
/// no reason, so they answer an `Option` of this, as an audit does of a fault.
///
/// ```
/// use ravelbeam::Why;
///
/// let why = Why::TooFew { free: 37, needed: 64 };
/// assert_eq!(why.to_string(), "the tree has 37 free frames, 64 are needed (1)");
/// ```
#[derive(Clone, Copy, Debug, PartialEq, Eq)]
pub enum Why {
    /// 1: of a get, the tree has too few free frames.
    TooFew {
        /// The tree's free frames.
        free: usize,
        /// The frames of the block.
        needed: usize,
    },
    /// 2: of a get below order 9, the tree has enough free frames, but no huge frame of it has.
    Spread {
        /// The tree's free frames.
        free: usize,
        /// The most free frames that a huge frame of it has.
        most: usize,
        /// The frames of the block.
        needed: usize,
    },
    /// 3: of a get, there are enough free frames, but no aligned block of them.
    NoBlock {
        /// The tree's free frames.
        free: usize,
        /// The frames of the block.
        needed: usize,
    },
    /// 4: of a get with a frame, this frame of the block is held, the lowest that is.
    Held(FrameId),
    /// 5: of a put, this frame of the block is free, the lowest that is.
    Free(FrameId),
    /// 6: of a put from order 9 up, all frames are held, but those of the huge frame that begins here singly
    /// and not whole; it is the lowest such one of the block.
    HeldSingly(FrameId),
}

impl Why {
    /// Document 02's number, 1 to 6, which the calls in C answer.
    ///
    /// ```
    /// use ravelbeam::{FrameId, Why};
    ///
    /// assert_eq!(Why::Held(FrameId(700)).number(), 4);
    /// ```
    pub const fn number(self) -> u32 {
        match self {
            Why::TooFew { .. } => 1,
            Why::Spread { .. } => 2,
            Why::NoBlock { .. } => 3,
            Why::Held(_) => 4,
            Why::Free(_) => 5,
            Why::HeldSingly(_) => 6,
        }
    }
}

impl fmt::Display for Why {
    fn fmt(&self, f: &mut fmt::Formatter<'_>) -> fmt::Result {
        match self {
            Why::TooFew { free, needed } => {
                let frames = if *free == 1 { "frame" } else { "frames" };
                let are = if *needed == 1 { "is" } else { "are" };
                write!(f, "the tree has {free} free {frames}, {needed} {are} needed")
            }
            Why::Spread { free, most, needed } => {
                write!(f, "the tree has {free} free frames, {needed} are needed, ")?;
                write!(f, "and no huge frame of it has more than {most}")
            }
            Why::NoBlock { free, needed } => {
                write!(f, "the tree has {free} free frames, but no aligned block of {needed}")
            }
            Why::Held(frame) => write!(f, "frame {} is held", frame.0),
            Why::Free(frame) => write!(f, "frame {} is free", frame.0),
            Why::HeldSingly(frame) => {
                write!(f, "the huge frame at frame {} is held singly, not whole", frame.0)
            }
        }?;
        write!(f, " ({})", self.number())
    }
}
