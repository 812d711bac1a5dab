//! Numbers that know what they count, under their names in llfree-rs, so that none takes the place of
//! another.

use core::fmt;
use core::ops::Add;

use crate::{BITFIELD_ROW, HUGE_FRAMES};

/// A number of its own type: its documentation, its name, and the letter that it is printed with.
macro_rules! id {
    ($(#[$documentation:meta])* $name:ident, $letter:literal) => {
        $(#[$documentation])*
        #[derive(Clone, Copy, Default, Hash, PartialEq, Eq, PartialOrd, Ord)]
        pub struct $name(pub usize);

        impl Add for $name {
            type Output = Self;
            fn add(self, other: Self) -> Self {
                Self(self.0 + other.0)
            }
        }

        impl fmt::Display for $name {
            fn fmt(&self, f: &mut fmt::Formatter<'_>) -> fmt::Result {
                write!(f, concat!($letter, "x{:x}"), self.0)
            }
        }

        impl fmt::Debug for $name {
            fn fmt(&self, f: &mut fmt::Formatter<'_>) -> fmt::Result {
                fmt::Display::fmt(self, f)
            }
        }
    };
}

id! {
    /// A frame's number; in a [`bitfield`](crate::bitfield), its place there.
    ///
    /// ```
    /// use ravelbeam::{FrameId, HugeId, RowId};
    ///
    /// let frame = FrameId(0x284);
    /// assert_eq!((frame.as_row(), frame.as_huge()), (RowId(10), HugeId(1)));
    /// assert!(frame.is_aligned(2) && !frame.is_aligned(3));
    /// assert_eq!(frame.to_string(), "Fx284");
    /// ```
    FrameId, "F"
}

id! {
    /// A row's number, of 64 frames.
    ///
    /// ```
    /// use ravelbeam::{FrameId, HugeId, RowId};
    ///
    /// let row = RowId(10);
    /// assert_eq!((row.as_frame(), row.as_huge()), (FrameId(640), HugeId(1)));
    /// assert_eq!(row.to_string(), "Rxa");
    /// ```
    RowId, "R"
}

id! {
    /// A huge frame's number.
    ///
    /// ```
    /// use ravelbeam::{FrameId, HugeId, RowId};
    ///
    /// let huge = HugeId(3);
    /// assert_eq!((huge.as_frame(), huge.as_row()), (FrameId(1536), RowId(24)));
    /// assert_eq!(huge.to_string(), "Hx3");
    /// ```
    HugeId, "H"
}

impl FrameId {
    /// The row that the frame is in.
    pub const fn as_row(self) -> RowId {
        RowId(self.0 / BITFIELD_ROW)
    }

    /// The huge frame that the frame is in.
    pub const fn as_huge(self) -> HugeId {
        HugeId(self.0 / HUGE_FRAMES)
    }

    /// Whether a block of 2^`order` frames can begin here.
    pub const fn is_aligned(self, order: usize) -> bool {
        self.0 == 0 || self.0.trailing_zeros() as usize >= order
    }
}

impl RowId {
    /// The row's first frame.
    pub const fn as_frame(self) -> FrameId {
        FrameId(self.0 * BITFIELD_ROW)
    }

    /// The huge frame that the row is in.
    pub const fn as_huge(self) -> HugeId {
        self.as_frame().as_huge()
    }
}

impl HugeId {
    /// The huge frame's first frame.
    pub const fn as_frame(self) -> FrameId {
        FrameId(self.0 * HUGE_FRAMES)
    }

    /// The huge frame's first row.
    pub const fn as_row(self) -> RowId {
        self.as_frame().as_row()
    }
}
