//! What each call on the bitfield of one huge frame answers, and the search of one row.

mod plain;

use std::ops::Range;

use plain::Random;
use ravelbeam::bitfield::{
    Found, Rows, count_zeros, fill, first_zeros, first_zeros_aligned, is_zero, set, set_first_zeros, toggle,
};
use ravelbeam::{Error, FrameId, RowId};

#[test]
fn the_searches_of_document_01s_table() {
    let found = |place, row| Ok(Found { place, row });
    for (row, order, answer) in [
        (0, 0, found(0, 1)),
        (u64::MAX, 0, Err(Error::Memory)),
        (1, 1, found(2, 13)),
        (0x10, 2, found(0, 0x1f)),
        (1, 2, found(4, 0xf1)),
        (0x0101_0101_0101_0101, 3, Err(Error::Memory)),
        (1, 5, found(32, 0xffff_ffff_0000_0001)),
        (1 << 63, 5, found(0, 0x8000_0000_ffff_ffff)),
        (1, 6, Err(Error::Memory)),
        (0, 7, Err(Error::Order)),
    ] {
        assert_eq!(first_zeros_aligned(row, order), answer, "row {row:#x}, order {order}");
    }
}

#[test]
fn set_and_fill() {
    let mut rows = [0; 8];
    fill(&mut rows, true);
    assert_eq!(rows, [u64::MAX; 8]);
    fill(&mut rows, false);
    assert_eq!((rows, count_zeros(&rows)), ([0; 8], 512));
    assert_eq!(set(&mut rows, FrameId(60)..FrameId(130), true), Ok(()));
    assert_eq!((rows, count_zeros(&rows)), ([0xf << 60, u64::MAX, 3, 0, 0, 0, 0, 0], 442));
    assert_eq!(set(&mut rows, FrameId(61)..FrameId(512), false), Ok(()));
    assert_eq!(set(&mut rows, FrameId(512)..FrameId(512), true), Ok(()));
    assert_eq!(rows, [1 << 60, 0, 0, 0, 0, 0, 0, 0]);
}

#[test]
fn searches_begin_at_the_start_row() {
    let mut rows = [0, u64::MAX, 0, 0, 0, 0, 0, 1];
    // Row 15 counts as row 7, whose lowest pair is taken, and behind it comes row 0.
    assert_eq!(set_first_zeros(&mut rows, RowId(15), 1), Ok(FrameId(7 * 64 + 2)));
    assert_eq!(first_zeros(&rows, RowId(15), 6), Ok(FrameId(0)));
    assert_eq!(first_zeros(&rows, RowId(1), 6), Ok(FrameId(128)));
    // Order 7 begins with rows 4 and 5; from rows 6 and 7 on it wraps, and passes rows 0 and 1 too.
    assert_eq!(first_zeros(&rows, RowId(5), 7), Ok(FrameId(256)));
    assert_eq!(first_zeros(&rows, RowId(6), 7), Ok(FrameId(128)));
    assert_eq!(first_zeros(&rows, RowId(5), 8), Err(Error::Memory));
    assert_eq!(first_zeros(&[0; 8], RowId(5), 9), Ok(FrameId(0)));
    assert_eq!(rows, [0, u64::MAX, 0, 0, 0, 0, 0, 13]);
}

/// A row of which one bit in 64, 32, .. 2, or all but so many, are set.
fn row(random: &mut Random) -> u64 {
    let sparse = (0..random.below(6)).fold(random.word(), |row, _| row & random.word());
    if random.below(2) == 0 { sparse } else { !sparse }
}

#[test]
fn what_is_taken_can_be_turned_back() {
    let mut random = Random(1);
    for _ in 0..5000 {
        let mut rows: Rows = [(); 8].map(|()| row(&mut random));
        let (before, free) = (rows, count_zeros(&rows));
        assert_eq!(free, rows.iter().map(|row| row.count_zeros() as usize).sum());
        let (start_row, order) = (RowId(random.word() as usize), random.below(10));
        let found = first_zeros(&rows, start_row, order);
        assert_eq!(set_first_zeros(&mut rows, start_row, order), found);
        let Ok(place) = found else {
            assert_eq!((rows, found), (before, Err(Error::Memory)));
            assert!(
                (0..512 >> order).all(|block| is_zero(&rows, FrameId(block << order), order) == Ok(false))
            );
            continue;
        };
        assert_eq!(is_zero(&before, place, order), Ok(true));
        assert_eq!(is_zero(&rows, place, order), Ok(false));
        assert_eq!(count_zeros(&rows), free - (1 << order));
        assert_eq!(toggle(&mut rows, place, order, false), Err(Error::Memory));
        assert_eq!(toggle(&mut rows, place, order, true), Ok(()));
        assert_eq!(rows, before);
    }
}

#[test]
fn refusals_leave_the_rows() {
    let mut rows = [0x5555_5555_5555_5555; 8];
    let before = rows;
    for (place, order, error) in [
        (0, 10, Error::Order),
        (usize::MAX, usize::MAX, Error::Order),
        (512, 0, Error::Range),
        (usize::MAX, 0, Error::Range),
        (8, 9, Error::Range),
        (1, 1, Error::Alignment),
    ] {
        assert_eq!(toggle(&mut rows, FrameId(place), order, false), Err(error));
        assert_eq!(is_zero(&rows, FrameId(place), order), Err(error));
    }
    assert_eq!(toggle(&mut rows, FrameId(0), 7, false), Err(Error::Memory));
    assert_eq!(set(&mut rows, FrameId(0)..FrameId(513), true), Err(Error::Range));
    assert_eq!(set(&mut rows, Range { start: FrameId(1), end: FrameId(0) }, true), Err(Error::Range));
    for (order, error) in [(10, Error::Order), (1, Error::Memory)] {
        assert_eq!(first_zeros(&rows, RowId(0), order), Err(error));
        assert_eq!(set_first_zeros(&mut rows, RowId(0), order), Err(error));
    }
    assert_eq!(rows, before);
}
