//! What each call of the lower level answers: on document 01's own lines, and on small states whose answers
//! can be read off.

use ravelbeam::{
    Error, Fault, FrameId, Got, HUGE_FRAMES, HUGE_ORDER, HugeId, Init, Lower, MARK, MAX_FRAMES, ORDERS,
    Reason, Recovered, Refusal, RowId, Stats, entries_needed, rows_needed,
};

const TREES: [usize; 10] = [1, 2, 4, 8, 16, 32, 64, 128, 256, 512];

fn got(frame: usize, probes: usize) -> Result<Got, Refusal> {
    Ok(Got { frame: FrameId(frame), probes })
}

fn refused(error: Error, probes: usize) -> Result<Got, Refusal> {
    Err(Refusal { error, probes })
}

fn stats(free_frames: usize, free_huge: usize, free_trees: usize) -> Stats {
    Stats { free_frames, free_huge, free_trees }
}

#[test]
fn the_lines_of_document_01() {
    let (mut rows, mut entries) = ([0; 16], [0; 2]);
    let mut lower = Lower::new(1000, 2, Init::FreeAll, &mut rows, &mut entries).unwrap();
    assert_eq!(lower.stats(), stats(1000, 1, 0));
    assert_eq!(lower.get(RowId(0), 0, None), got(0, 1));
    assert_eq!(lower.get(RowId(3), 0, None), got(192, 1));
    assert_eq!(lower.get(RowId(8), 9, None), refused(Error::Memory, 2));
    assert_eq!(lower.put(FrameId(0), 0), Ok(()));
    assert_eq!(lower.put(FrameId(192), 0), Ok(()));
    assert_eq!(lower.get(RowId(8), 9, None), got(0, 2));
    assert_eq!(lower.put(FrameId(64), 6), Ok(()));
    assert_eq!(lower.stats_at(FrameId(64), 9), Ok(stats(64, 0, 0)));
    assert_eq!(lower.get(RowId(9), 6, None), got(576, 1));
    assert_eq!(lower.put(FrameId(64), 6), Err(Error::Memory));
    assert_eq!(lower.put(FrameId(1000), 0), Err(Error::Range));
    assert_eq!(lower.audit(), None);
    assert_eq!(lower.stats(), stats(488, 0, 0));
}

#[test]
fn the_puts_of_document_01s_table() {
    for (row, entry, order, answer, after) in [
        (u64::MAX, 0, 9, Err(Error::Memory), 0),
        (0, MARK, 0, Ok(()), 1),
        (1, MARK, 0, Err(Error::Damage), MARK),
    ] {
        let (mut rows, mut entries) = ([row; 8], [entry]);
        let mut lower = Lower::new(512, 1, Init::None, &mut rows, &mut entries).unwrap();
        assert_eq!(lower.put(FrameId(0), order), answer);
        assert_eq!(entries, [after]);
    }
}

/// 700 frames in one tree of four huge frames: one is whole, one partial, two are absent. Four rows and two
/// entries are lent beyond the needed ones.
fn partial(init: Init) -> ([u64; 20], [u16; 6]) {
    let (mut rows, mut entries) = ([3; 20], [5; 6]);
    Lower::new(700, 4, init, &mut rows, &mut entries).unwrap();
    (rows, entries)
}

#[test]
fn starts() {
    let (full, past) = (u64::MAX, u64::MAX << (700 % 64));
    let (rows, entries) = partial(Init::FreeAll);
    assert_eq!(rows, [0, 0, 0, 0, 0, 0, 0, 0, 0, 0, past, full, full, full, full, full, 3, 3, 3, 3]);
    assert_eq!(entries, [512, 188, 0, 0, 5, 5]);
    let (rows, entries) = partial(Init::AllocAll);
    assert_eq!(rows[..8], [0; 8]);
    assert_eq!(rows[8..], [full, full, full, full, full, full, full, full, 3, 3, 3, 3]);
    assert_eq!(entries, [MARK, 0, 0, 0, 5, 5]);
    assert_eq!(partial(Init::None), ([3; 20], [5; 6]));
}

#[test]
fn numbers_and_slices() {
    let (mut rows, mut entries) = partial(Init::FreeAll);
    let lent = (rows, entries);
    let lower = Lower::new(700, 4, Init::None, &mut rows, &mut entries).unwrap();
    assert_eq!((lower.frames(), lower.tree_huge(), lower.tree_order()), (700, 4, 11));
    assert_eq!((lower.rows(), lower.entries()), (&lent.0[..], &lent.1[..]));
    let numbers = "frames: 700, tree_huge: 4";
    let stats = "Stats { free_frames: 700, free_huge: 1, free_trees: 0 }";
    assert_eq!(format!("{lower:?}"), format!("Lower {{ {numbers}, stats: {stats}, .. }}"));
}

#[test]
fn needed_is_just_enough() {
    for tree_huge in TREES {
        let tree = HUGE_FRAMES * tree_huge;
        for frames in [1, 511, 512, 513, tree - 1, tree, tree + 1, 3 * tree, MAX_FRAMES] {
            let new = |rows, entries| {
                let (mut rows, mut entries) = (vec![0; rows], vec![0; entries]);
                Lower::new(frames, tree_huge, Init::None, &mut rows, &mut entries).map(|lower| lower.frames())
            };
            let (rows, entries) = (rows_needed(frames), entries_needed(frames, tree_huge));
            assert_eq!(new(rows, entries), Ok(frames));
            assert_eq!(new(rows - 1, entries), Err(Error::Lent));
            assert_eq!(new(rows, entries - 1), Err(Error::Lent));
        }
    }
    assert_eq!((const { rows_needed(1000) }, const { entries_needed(1000, 2) }), (16, 2));
    for frames in [0, MAX_FRAMES + 1, usize::MAX] {
        assert_eq!((rows_needed(frames), entries_needed(frames, 4)), (0, 0));
    }
    for tree_huge in [0, 3, 1024, usize::MAX] {
        assert_eq!(entries_needed(1000, tree_huge), 0);
    }
}

#[test]
fn whole_trees_of_every_size() {
    for tree_huge in TREES {
        let tree = HUGE_FRAMES * tree_huge;
        let (mut rows, mut entries) = (vec![0; rows_needed(2 * tree)], vec![0; 2 * tree_huge]);
        let mut lower = Lower::new(2 * tree, tree_huge, Init::FreeAll, &mut rows, &mut entries).unwrap();
        let top = lower.tree_order();
        assert_eq!(1 << top, tree);
        assert_eq!(lower.stats(), stats(2 * tree, 2 * tree_huge, 2));
        // At T = 1 the rule of order 9 comes first, which knows no trees.
        let whole = stats(tree, tree_huge, (tree_huge > 1) as usize);
        assert_eq!(lower.stats_at(FrameId(tree), top), Ok(whole));

        assert_eq!(lower.get(RowId(tree / 64), top, None), got(tree, 1));
        assert_eq!(lower.get(RowId(tree / 64), 0, None), refused(Error::Memory, tree_huge));
        assert_eq!((lower.is_free(FrameId(tree), 0), lower.is_free(FrameId(0), top)), (Ok(false), Ok(true)));
        assert_eq!(lower.tree_run(FrameId(tree)), Ok(&vec![MARK; tree_huge][..]));
        assert_eq!(lower.stats(), stats(tree, tree_huge, 1));
        assert_eq!(lower.put(FrameId(tree), top), Ok(()));
        assert_eq!(lower.stats_at(FrameId(tree), top), Ok(whole));
    }
}

#[test]
fn gets_and_their_probes() {
    let (mut rows, mut entries) = ([0; 32], [0; 4]);
    let mut lower = Lower::new(2048, 4, Init::FreeAll, &mut rows, &mut entries).unwrap();
    // Held: huge frame 1, and frame 192 in huge frame 0.
    assert_eq!(lower.get(RowId(8), 9, None), got(512, 1));
    assert_eq!(lower.get(RowId(3), 0, None), got(192, 1));
    // From row 13 on: huge frame 1 has nothing, and in the next one it goes on from row 13 mod 8.
    assert_eq!(lower.get(RowId(13), 0, None), got(1024 + 5 * 64, 2));
    // Order 7 begins with the block of row 31 mod 8. So does order 8, finds half of that held, and wraps.
    assert_eq!(lower.get(RowId(31), 7, None), got(1536 + 384, 1));
    assert_eq!(lower.get(RowId(31), 8, None), got(1536, 1));
    // With a frame the start row is not looked at.
    assert_eq!(lower.get(RowId(usize::MAX), 2, Some(FrameId(196))), got(196, 1));
    assert_eq!(lower.get(RowId(0), 2, Some(FrameId(192))), refused(Error::Memory, 1));
    assert_eq!(lower.get(RowId(0), 9, Some(FrameId(512))), refused(Error::Memory, 1));
    assert_eq!(lower.get(RowId(0), 9, None), refused(Error::Memory, 4));
    assert_eq!(lower.get(RowId(0), 10, None), refused(Error::Memory, 2));
    assert_eq!(lower.entries(), [507, MARK, 511, 128]);
    assert_eq!(lower.audit(), None);
}

#[test]
fn a_huge_frame_given_back_in_parts() {
    let (mut rows, mut entries) = ([0; 8], [0]);
    let mut lower = Lower::new(512, 1, Init::FreeAll, &mut rows, &mut entries).unwrap();
    assert_eq!(lower.get(RowId(0), 9, None), got(0, 1));
    for frame in 0..512 {
        assert_eq!(lower.is_free(FrameId(frame), 0), Ok(false));
        assert_eq!(lower.put(FrameId(frame), 0), Ok(()));
        assert_eq!(lower.is_free(FrameId(frame), 0), Ok(true));
        assert_eq!(lower.entries(), [frame as u16 + 1]);
    }
    assert_eq!(lower.rows(), [0; 8]);
}

#[test]
fn stats_at_a_frame_and_room() {
    let (mut rows, mut entries) = partial(Init::FreeAll);
    let mut lower = Lower::new(700, 4, Init::None, &mut rows, &mut entries).unwrap();
    assert_eq!(lower.get(RowId(0), 3, Some(FrameId(8))), got(8, 1));
    assert_eq!(lower.stats_at(FrameId(8), 0), Ok(stats(0, 0, 0)));
    assert_eq!(lower.stats_at(FrameId(16), 0), Ok(stats(1, 0, 0)));
    assert_eq!(lower.stats_at(FrameId(8), HUGE_ORDER), Ok(stats(504, 0, 0)));
    assert_eq!(lower.stats_at(FrameId(8), 11), Ok(stats(692, 0, 0)));
    assert_eq!(lower.stats_at(FrameId(8), 5), Ok(stats(0, 0, 0)));
    // 504 and 188 free frames.
    let mut room = [0; ORDERS];
    room[..9].copy_from_slice(&[692, 346, 173, 86, 42, 20, 9, 4, 1]);
    assert_eq!(lower.room(FrameId(699)), Ok(room));
    assert_eq!(lower.put(FrameId(8), 3), Ok(()));
    (room[..9]).copy_from_slice(&[700, 350, 175, 87, 43, 21, 10, 5, 2]);
    room[9] = 1;
    assert_eq!(lower.room(FrameId(0)), Ok(room));
    assert_eq!(lower.tree_run(FrameId(0)), Ok(&[512, 188, 0, 0][..]));
}

#[test]
fn audit_and_recover() {
    type Damage = fn(&mut [u64], &mut [u16]);
    let cases: [(Damage, usize, Reason, Result<Recovered, Error>); 5] = [
        (|_, entries| entries[1] = MARK, 1, Reason::PartialMark, Err(Error::Damage)),
        (
            |rows, entries| (rows[7], entries[0]) = (1, MARK),
            0,
            Reason::BitUnderMark,
            Ok(Recovered { entries: 0, bitfields: 1 }),
        ),
        (|rows, _| rows[15] = 0, 1, Reason::ClearPastEnd, Err(Error::Damage)),
        (|_, entries| entries[0] = 511, 0, Reason::WrongCount, Ok(Recovered { entries: 1, bitfields: 0 })),
        (|_, entries| entries[3] = 1, 3, Reason::AbsentEntry, Err(Error::Damage)),
    ];
    for (number, (damage, huge, reason, answer)) in (1..).zip(cases) {
        assert_eq!(reason.number(), number);
        let (mut rows, mut entries) = partial(Init::FreeAll);
        damage(&mut rows, &mut entries);
        let (mut others, damaged) = ((rows, entries), (rows, entries));

        let mut lower = Lower::new(700, 4, Init::None, &mut rows, &mut entries).unwrap();
        assert_eq!(lower.audit(), Some(Fault { huge: HugeId(huge), reason }));
        assert!(reason.to_string().ends_with(&format!(" ({number})")));
        assert_eq!(lower.audit().unwrap().to_string(), format!("huge frame {huge}: {reason}"));
        assert_eq!(lower.recover(), answer);
        assert_eq!(lower.audit().is_none(), answer.is_ok());
        assert_eq!((rows, entries) != damaged, answer.is_ok());

        let started = Lower::new(700, 4, Init::Recover, &mut others.0, &mut others.1);
        assert_eq!(started.map(|_| ()), answer.map(|_| ()));
        assert_eq!(others, (rows, entries));
    }
}
