//! The bitfield of one huge frame: 512 frames in eight rows of 64 bits, a set bit is a held frame.
//!
//! [`Lower`](crate::Lower) stands on these; they are of use by themselves where frames are kept without
//! entries. A *place* is a frame's number within the huge frame. A call that is refused leaves the rows as
//! they were.

use core::ops::Range;

use crate::error::{Error, check};
use crate::{FrameId, RowId, ffi};

/// The eight rows of a huge frame. Frame f is bit f mod 64 of row f div 64.
pub type Rows = [u64; 8];

/// A block that was found in one row.
#[derive(Clone, Copy, Debug, PartialEq, Eq)]
pub struct Found {
    /// The block's first bit.
    pub place: usize,
    /// The row with the block's bits set.
    pub row: u64,
}

/// Finds the lowest aligned block of 2^`order` clear bits in one row.
///
/// # Errors
///
/// 4 where the order is above 6, and 7 where there is no such block.
///
/// ```
/// use ravelbeam::bitfield::{Found, first_zeros_aligned};
///
/// assert_eq!(first_zeros_aligned(0b0001, 1), Ok(Found { place: 2, row: 0b1101 }));
/// ```
pub fn first_zeros_aligned(row: u64, order: usize) -> Result<Found, Error> {
    let (code, place, row) = ffi::first_zeros_aligned(row, order);
    check(code, Found { place, row })
}

/// Overwrites the bits of a range. An empty range changes nothing.
///
/// # Errors
///
/// 5 where the range ends before it starts, or past 512.
///
/// ```
/// use ravelbeam::{Error, FrameId, bitfield};
///
/// let mut rows = [0; 8];
/// bitfield::set(&mut rows, FrameId(60)..FrameId(66), true)?;
/// assert_eq!(rows, [0xf << 60, 3, 0, 0, 0, 0, 0, 0]);
/// # Ok::<(), Error>(())
/// ```
pub fn set(rows: &mut Rows, range: Range<FrameId>, value: bool) -> Result<(), Error> {
    check(ffi::set(rows, range, value), ())
}

/// Turns the bits of the block of 2^`order` frames at `place`, where all of them are as `expected`.
///
/// # Errors
///
/// 4 where the order is above 9, 5 where the block ends past 512, 6 where it is not aligned, and 7 where some
/// bit is not as expected.
///
/// ```
/// use ravelbeam::{Error, FrameId, bitfield};
///
/// let mut rows = [0; 8];
/// bitfield::toggle(&mut rows, FrameId(4), 2, false)?;
/// assert_eq!(rows[0], 0xf0);
/// assert_eq!(bitfield::toggle(&mut rows, FrameId(0), 3, false), Err(Error::Memory));
/// # Ok::<(), Error>(())
/// ```
pub fn toggle(rows: &mut Rows, place: FrameId, order: usize, expected: bool) -> Result<(), Error> {
    check(ffi::toggle(rows, place, order, expected), ())
}

/// Whether all frames of the block of 2^`order` frames at `place` are free.
///
/// # Errors
///
/// 4 where the order is above 9, 5 where the block ends past 512, and 6 where it is not aligned.
///
/// ```
/// use ravelbeam::{FrameId, bitfield};
///
/// let rows = [0, 1, 0, 0, 0, 0, 0, 0];
/// assert_eq!(bitfield::is_zero(&rows, FrameId(0), 6), Ok(true));
/// assert_eq!(bitfield::is_zero(&rows, FrameId(0), 7), Ok(false));
/// ```
pub fn is_zero(rows: &Rows, place: FrameId, order: usize) -> Result<bool, Error> {
    let (code, yes) = ffi::is_zero(rows, place, order);
    check(code, yes)
}

/// Finds the first free block of 2^`order` frames, and gives its place.
///
/// Orders 0 to 6: the rows from `start_row` (modulo 8) on, wrapping, and in a row the lowest place. Orders 7
/// and 8: groups of 2 or 4 rows, from the one that holds that row on, wrapping. At order 9 all rows are one
/// group.
///
/// # Errors
///
/// 4 where the order is above 9, and 7 where there is no such block.
///
/// ```
/// use ravelbeam::{FrameId, RowId, bitfield};
///
/// assert_eq!(bitfield::first_zeros(&[0; 8], RowId(3), 0), Ok(FrameId(192)));
/// assert_eq!(bitfield::first_zeros(&[0; 8], RowId(3), 7), Ok(FrameId(128))); // rows 2 and 3
/// ```
pub fn first_zeros(rows: &Rows, start_row: RowId, order: usize) -> Result<FrameId, Error> {
    let (code, place) = ffi::first_zeros(rows, start_row, order);
    check(code, place)
}

/// Takes the block that [`first_zeros`] finds: sets its bits, and gives its place.
///
/// # Errors
///
/// As [`first_zeros`].
///
/// ```
/// use ravelbeam::{FrameId, RowId, bitfield};
///
/// let mut rows = [1, 0, 0, 0, 0, 0, 0, 0];
/// assert_eq!(bitfield::set_first_zeros(&mut rows, RowId(0), 1), Ok(FrameId(2)));
/// assert_eq!(rows[0], 0b1101);
/// ```
pub fn set_first_zeros(rows: &mut Rows, start_row: RowId, order: usize) -> Result<FrameId, Error> {
    let (code, place) = ffi::set_first_zeros(rows, start_row, order);
    check(code, place)
}

/// Overwrites every bit.
///
/// ```
/// let mut rows = [0; 8];
/// ravelbeam::bitfield::fill(&mut rows, true);
/// assert_eq!(rows, [u64::MAX; 8]);
/// ```
pub fn fill(rows: &mut Rows, value: bool) {
    let code = ffi::fill(rows, value);
    debug_assert_eq!(code, 0);
}

/// The number of free frames.
///
/// ```
/// assert_eq!(ravelbeam::bitfield::count_zeros(&[1; 8]), 504);
/// ```
pub fn count_zeros(rows: &Rows) -> usize {
    let (code, zeros) = ffi::count_zeros(rows);
    debug_assert_eq!(code, 0);
    zeros
}
