//! Document 01's refusal numbers.

use core::fmt;

/// Why a call is refused. The checks are made in the order of these numbers, and a refused call has written
/// nothing.
#[derive(Clone, Copy, Debug, PartialEq, Eq)]
#[repr(u32)]
pub enum Error {
    /// 1: there are no frames, or more than [`MAX_FRAMES`](crate::MAX_FRAMES).
    Frames = 1,
    /// 2: the huge frames of a tree are not one of 1, 2, 4, .. 512.
    Tree = 2,
    /// 3: the lent rows or entries are fewer than [`rows_needed`](crate::rows_needed) or
    /// [`entries_needed`](crate::entries_needed).
    Lent = 3,
    /// 4: the order is above that of a whole tree, in a bitfield above 9, in one row above 6.
    Order = 4,
    /// 5: the block ends past the number of frames, in a bitfield past 512; the frame is not below it; or, in
    /// a get without a frame, the start row's number times 64 is not.
    Range = 5,
    /// 6: the block's first frame is no multiple of the block's length.
    Alignment = 6,
    /// 7: of a get, no such block is free, or not all of the chosen one. Of a put, not all of it is held, or
    /// from order 9 up not held whole: 512 frames that were taken singly are not a huge frame that was.
    Memory = 7,
    /// 8: the rows and entries contradict each other or the number of frames.
    Damage = 8,
}

impl Error {
    /// Document 01's number, 1 to 8, which the calls in C answer.
    ///
    /// ```
    /// assert_eq!(ravelbeam::Error::Memory.number(), 7);
    /// ```
    pub const fn number(self) -> u32 {
        self as u32
    }
}

/// The answer of a call, where its code says that it is done. No call gives another code than 0 to 8, so the
/// last arm is that of 8.
pub(crate) fn check<T>(code: u32, answer: T) -> Result<T, Error> {
    Err(match code {
        0 => return Ok(answer),
        1 => Error::Frames,
        2 => Error::Tree,
        3 => Error::Lent,
        4 => Error::Order,
        5 => Error::Range,
        6 => Error::Alignment,
        7 => Error::Memory,
        _ => Error::Damage,
    })
}

impl fmt::Display for Error {
    fn fmt(&self, f: &mut fmt::Formatter<'_>) -> fmt::Result {
        let reason = match self {
            Error::Frames => "no frames, or too many",
            Error::Tree => "not a tree's number of huge frames",
            Error::Lent => "too few rows or entries lent",
            Error::Order => "order too high",
            Error::Range => {
                "the block ends past the frames, or the frame or row * 64 is not below their number"
            }
            Error::Alignment => "frame not aligned",
            Error::Memory => {
                "get: no such block is free; put: not all of it is held, or from order 9 up not held whole"
            }
            Error::Damage => "damaged state",
        };
        write!(f, "{reason} ({})", self.number())
    }
}

impl core::error::Error for Error {}

/// A refused [`get`](crate::Lower::get): why, and what it looked at before.
#[derive(Clone, Copy, Debug, PartialEq, Eq)]
pub struct Refusal {
    /// Why it is refused.
    pub error: Error,
    /// The entries or groups visited, where it is refused with 7 or 8; 0 otherwise.
    pub probes: usize,
}

impl From<Refusal> for Error {
    fn from(refusal: Refusal) -> Error {
        refusal.error
    }
}

impl fmt::Display for Refusal {
    fn fmt(&self, f: &mut fmt::Formatter<'_>) -> fmt::Result {
        write!(f, "{}, probes: {}", self.error, self.probes)
    }
}

impl core::error::Error for Refusal {}
