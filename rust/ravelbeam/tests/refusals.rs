//! Each refusal of the lower level by its number, in the numbers' order, and that it leaves all that was
//! lent.

use ravelbeam::{Error, FrameId, Got, Init, Lower, MARK, MAX_FRAMES, Refusal, RowId};

const ALL: [Error; 8] = [
    Error::Frames,
    Error::Tree,
    Error::Lent,
    Error::Order,
    Error::Range,
    Error::Alignment,
    Error::Memory,
    Error::Damage,
];

#[test]
fn numbers_and_words() {
    for (number, error) in (1..).zip(ALL) {
        assert_eq!(error.number(), number);
        assert!(error.to_string().ends_with(&format!(" ({number})")));
        let refusal = Refusal { error, probes: 4 };
        assert_eq!(Error::from(refusal), error);
        assert_eq!(refusal.to_string(), format!("{error}, probes: 4"));
    }
    assert_eq!(
        Error::Memory.to_string(),
        "get: no such block is free; put: not all of it is held, or from order 9 up not held whole (7)"
    );
}

#[test]
fn new_is_refused_with_1_to_3() {
    for init in [Init::FreeAll, Init::AllocAll, Init::Recover, Init::None] {
        for (frames, tree_huge, lent_rows, lent_entries, error) in [
            (0, 0, 0, 0, Error::Frames),
            (MAX_FRAMES + 1, 4, 16, 4, Error::Frames),
            (usize::MAX, 3, 16, 4, Error::Frames),
            (1000, 0, 0, 0, Error::Tree),
            (1000, 3, 16, 4, Error::Tree),
            (1000, 1024, 16, 4, Error::Tree),
            (1000, usize::MAX, 16, 4, Error::Tree),
            (1000, 4, 15, 4, Error::Lent),
            (1000, 4, 16, 3, Error::Lent),
            (MAX_FRAMES, 4, 16, 4, Error::Lent),
        ] {
            let (mut rows, mut entries) = ([9; 16], [9; 4]);
            let lent = (&mut rows[..lent_rows], &mut entries[..lent_entries]);
            let refused = Lower::new(frames, tree_huge, init, lent.0, lent.1);
            assert_eq!(refused.map(|lower| lower.frames()), Err(error), "{frames} frames, T = {tree_huge}");
            assert_eq!((rows, entries), ([9; 16], [9; 4]));
        }
    }
}

/// Makes a call that is to be refused, and hands back the answer, having seen that nothing was written.
fn refused<T>(lower: &mut Lower<'_>, call: impl FnOnce(&mut Lower<'_>) -> T) -> T {
    let before = (lower.rows().to_vec(), lower.entries().to_vec());
    let answer = call(lower);
    assert!(before == (lower.rows().to_vec(), lower.entries().to_vec()), "a refused call wrote");
    answer
}

fn probes(error: Error, probes: usize) -> Result<Got, Refusal> {
    Err(Refusal { error, probes })
}

#[test]
fn blocks_are_refused_with_4_to_6() {
    let (mut rows, mut entries) = ([0; 24], [0; 4]);
    // 1,500 frames in two trees of two huge frames, the last of them absent.
    let lower = &mut Lower::new(1500, 2, Init::FreeAll, &mut rows, &mut entries).unwrap();
    for (frame, order, error) in [
        (0, 11, Error::Order),
        (usize::MAX, usize::MAX, Error::Order),
        (1500, 0, Error::Range),
        (1499, 1, Error::Range),
        (1024, 9, Error::Range),
        (usize::MAX, 10, Error::Range),
        (1, 1, Error::Alignment),
        (256, 10, Error::Alignment),
    ] {
        assert_eq!(
            refused(lower, |lower| lower.get(RowId(0), order, Some(FrameId(frame)))),
            probes(error, 0)
        );
        assert_eq!(refused(lower, |lower| lower.put(FrameId(frame), order)), Err(error));
        assert_eq!(refused(lower, |lower| lower.is_free(FrameId(frame), order)), Err(error));
        assert_eq!(refused(lower, |lower| lower.why_get(RowId(0), order, Some(FrameId(frame)))), Err(error));
        assert_eq!(refused(lower, |lower| lower.why_put(FrameId(frame), order)), Err(error));
    }
    for (row, order, error) in [
        (0, 11, Error::Order),
        (usize::MAX, 11, Error::Order),
        (24, 0, Error::Range),
        (1 << 58, 10, Error::Range),
        (usize::MAX, 0, Error::Range),
    ] {
        assert_eq!(refused(lower, |lower| lower.get(RowId(row), order, None)), probes(error, 0));
        assert_eq!(refused(lower, |lower| lower.why_get(RowId(row), order, None)), Err(error));
    }
    for frame in [1500, usize::MAX] {
        assert_eq!(refused(lower, |lower| lower.stats_at(FrameId(frame), 0)), Err(Error::Range));
        assert_eq!(refused(lower, |lower| lower.room(FrameId(frame))), Err(Error::Range));
        assert_eq!(
            refused(lower, |lower| lower.tree_run(FrameId(frame)).map(<[u16]>::len)),
            Err(Error::Range)
        );
    }
    assert_eq!(lower.get(RowId(23), 0, None), Ok(Got { frame: FrameId(23 * 64), probes: 1 }));
}

#[test]
fn blocks_are_refused_with_7() {
    let (mut rows, mut entries) = ([0; 16], [0; 2]);
    let lower = &mut Lower::new(1024, 2, Init::FreeAll, &mut rows, &mut entries).unwrap();
    for (frame, order) in [(0, 0), (0, 8), (0, 9), (0, 10)] {
        assert_eq!(refused(lower, |lower| lower.put(FrameId(frame), order)), Err(Error::Memory));
    }
    lower.get(RowId(0), 0, Some(FrameId(256))).unwrap();
    lower.get(RowId(0), 8, Some(FrameId(512))).unwrap();
    assert_eq!(refused(lower, |lower| lower.get(RowId(0), 0, Some(FrameId(256)))), probes(Error::Memory, 1));
    assert_eq!(refused(lower, |lower| lower.get(RowId(0), 9, Some(FrameId(0)))), probes(Error::Memory, 1));
    assert_eq!(refused(lower, |lower| lower.get(RowId(0), 9, None)), probes(Error::Memory, 2));
    assert_eq!(refused(lower, |lower| lower.get(RowId(0), 10, None)), probes(Error::Memory, 1));
    // Half of the block is held; 512 frames held singly are not held whole.
    assert_eq!(refused(lower, |lower| lower.put(FrameId(256), 1)), Err(Error::Memory));
    lower.get(RowId(0), 8, Some(FrameId(768))).unwrap();
    assert_eq!(refused(lower, |lower| lower.put(FrameId(512), 9)), Err(Error::Memory));
}

/// A refused call on a tree of four huge frames, of which three are absent.
fn on_damage<T>(
    frames: usize,
    mut rows: [u64; 8],
    mut entries: [u16; 4],
    call: impl FnOnce(&mut Lower<'_>) -> T,
) -> T {
    let mut lower = Lower::new(frames, 4, Init::None, &mut rows, &mut entries).unwrap();
    refused(&mut lower, call)
}

#[test]
fn damage_is_refused_with_8() {
    let full = [u64::MAX; 8];
    // An absent entry that counts free frames.
    let answer = on_damage(512, full, [0, 1, 0, 0], |lower| lower.get(RowId(0), 0, None));
    assert_eq!(answer, probes(Error::Damage, 2));
    // A count above 512, and no such block.
    let answer = on_damage(512, full, [513, 0, 0, 0], |lower| lower.get(RowId(0), 0, None));
    assert_eq!(answer, probes(Error::Damage, 1));
    let answer = on_damage(512, full, [513, 0, 0, 0], |lower| lower.get(RowId(0), 0, Some(FrameId(0))));
    assert_eq!(answer, probes(Error::Damage, 1));
    // A block that ends past the last frame.
    let mut frame_500 = full;
    frame_500[7] ^= 1 << 52;
    let answer = on_damage(500, frame_500, [1, 0, 0, 0], |lower| lower.get(RowId(0), 0, None));
    assert_eq!(answer, probes(Error::Damage, 1));
    let answer = on_damage(512, [0; 8], [512, 512, 0, 0], |lower| lower.get(RowId(0), 10, None));
    assert_eq!(answer, probes(Error::Damage, 1));
    // A bit that is set under a mark.
    let answer = on_damage(512, full, [MARK, 0, 0, 0], |lower| lower.put(FrameId(0), 0));
    assert_eq!(answer, Err(Error::Damage));
    // A recover that would have to guess: an absent entry that is not 0.
    let answer = on_damage(512, full, [0, 1, 0, 0], |lower| lower.recover());
    assert_eq!(answer, Err(Error::Damage));
}
