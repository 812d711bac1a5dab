//! Why a get or a put would be refused with 7: each reason on small states, its words, when the question
//! itself is refused with 8, and on random states what the request then does.

mod plain;

use plain::{Held, Random};
use ravelbeam::{
    Error, FrameId, HUGE_ORDER, HugeId, Init, Lower, MARK, RowId, State, Why, entries_needed, rows_needed,
};

/// Why a get without a frame is refused, from a row on.
fn of_get(lower: &Lower<'_>, row: usize, order: usize) -> Option<Why> {
    lower.why_get(RowId(row), order, None).unwrap()
}

/// .. a get with a frame; the start row is not looked at.
fn of_get_at(lower: &Lower<'_>, frame: usize, order: usize) -> Option<Why> {
    lower.why_get(RowId(usize::MAX), order, Some(FrameId(frame))).unwrap()
}

/// .. a put.
fn of_put(lower: &Lower<'_>, frame: usize, order: usize) -> Option<Why> {
    lower.why_put(FrameId(frame), order).unwrap()
}

#[test]
fn the_reasons_of_a_get() {
    // Two trees of two huge frames, all held; the other tree's free frames never count.
    let mut state = State::<32, 4>::new();
    let lower = &mut state.start(2048, 2, Init::AllocAll).unwrap();
    lower.put(FrameId(1024), 10).unwrap();
    assert_eq!(of_get(lower, 0, 0), Some(Why::TooFew { free: 0, needed: 1 }));
    assert_eq!(of_get(lower, 15, 10), Some(Why::TooFew { free: 0, needed: 1024 }));
    assert_eq!(of_get(lower, 16, 10), None);

    // 37 frames of huge frame 0, and 37 of huge frame 1.
    (0..37).for_each(|frame| lower.put(FrameId(frame), 0).unwrap());
    assert_eq!(of_get(lower, 3, 6), Some(Why::TooFew { free: 37, needed: 64 }));
    (512..549).for_each(|frame| lower.put(FrameId(frame), 0).unwrap());
    assert_eq!(of_get(lower, 3, 6), Some(Why::Spread { free: 74, most: 37, needed: 64 }));
    assert_eq!(of_get(lower, 12, 7), Some(Why::TooFew { free: 74, needed: 128 }));
    assert_eq!(of_get(lower, 12, 5), None);

    // 27 more of huge frame 1, in another row: it has 64, and no row has.
    (640..667).for_each(|frame| lower.put(FrameId(frame), 0).unwrap());
    assert_eq!(of_get(lower, 3, 6), Some(Why::NoBlock { free: 101, needed: 64 }));
    (549..576).for_each(|frame| lower.put(FrameId(frame), 0).unwrap());
    assert_eq!(of_get(lower, 3, 6), None);
}

#[test]
fn the_reasons_of_a_get_from_order_9_up() {
    // 1,500 frames in one tree of four huge frames: two whole, one partial, one absent.
    let mut state = State::<24, 4>::new();
    let lower = &mut state.start(1500, 4, Init::FreeAll).unwrap();
    assert_eq!(of_get(lower, 23, 11), Some(Why::TooFew { free: 1500, needed: 2048 }));
    assert_eq!(of_get(lower, 23, 10), None);
    lower.get(RowId(0), 0, Some(FrameId(1))).unwrap();
    // 1,499 frames are free, and they are spread; but that is a reason below order 9 alone.
    assert_eq!(of_get(lower, 23, 10), Some(Why::NoBlock { free: 1499, needed: 1024 }));
    assert_eq!(of_get(lower, 23, 9), None);
    lower.get(RowId(0), 9, None).unwrap();
    assert_eq!(of_get(lower, 0, 9), Some(Why::NoBlock { free: 987, needed: 512 }));
    lower.get(RowId(16), 8, None).unwrap();
    assert_eq!(of_get(lower, 0, 9), Some(Why::NoBlock { free: 731, needed: 512 }));

    // At T = 1 a tree is a huge frame.
    let mut state = State::<16, 2>::new();
    let lower = &mut state.start(1024, 1, Init::FreeAll).unwrap();
    lower.get(RowId(8), 0, None).unwrap();
    assert_eq!(of_get(lower, 8, 9), Some(Why::TooFew { free: 511, needed: 512 }));
    assert_eq!(of_get(lower, 8, 8), None);
    assert_eq!(of_get(lower, 7, 9), None);
}

#[test]
fn the_reasons_of_a_block() {
    let mut state = State::<32, 4>::new();
    let lower = &mut state.start(2048, 4, Init::FreeAll).unwrap();
    assert_eq!((of_get_at(lower, 0, 11), of_put(lower, 0, 11)), (None, Some(Why::Free(FrameId(0)))));
    lower.get(RowId(0), 0, Some(FrameId(700))).unwrap();
    lower.get(RowId(0), 0, Some(FrameId(701))).unwrap();
    assert_eq!(of_get_at(lower, 700, 0), Some(Why::Held(FrameId(700))));
    assert_eq!(of_get_at(lower, 701, 0), Some(Why::Held(FrameId(701))));
    assert_eq!(of_get_at(lower, 512, 9), Some(Why::Held(FrameId(700))));
    assert_eq!(of_get_at(lower, 0, 11), Some(Why::Held(FrameId(700))));
    assert_eq!((of_get_at(lower, 0, 9), of_get_at(lower, 702, 1)), (None, None));
    assert_eq!((of_put(lower, 700, 0), of_put(lower, 700, 1)), (None, None));
    assert_eq!(of_put(lower, 700, 2), Some(Why::Free(FrameId(702))));

    // Under a mark all are held: huge frames 0 and 1 whole, and 2 by its frames.
    lower.put(FrameId(700), 1).unwrap();
    lower.get(RowId(0), 10, None).unwrap();
    lower.get(RowId(16), 8, None).unwrap();
    assert_eq!(of_get_at(lower, 100, 2), Some(Why::Held(FrameId(100))));
    assert_eq!((of_put(lower, 0, 10), of_put(lower, 100, 2)), (None, None));
    assert_eq!(of_put(lower, 0, 11), Some(Why::Free(FrameId(1280))));
    lower.get(RowId(16), 8, None).unwrap();
    assert_eq!(of_put(lower, 0, 11), Some(Why::Free(FrameId(1536))));
    assert_eq!(of_put(lower, 1024, 9), Some(Why::HeldSingly(FrameId(1024))));
    assert_eq!(of_put(lower, 1024, 8), None);
    lower.get(RowId(24), 9, None).unwrap();
    assert_eq!(of_put(lower, 0, 11), Some(Why::HeldSingly(FrameId(1024))));
    assert_eq!(of_get(lower, 0, 0), Some(Why::TooFew { free: 0, needed: 1 }));
}

#[test]
fn reasons_in_words() {
    let frame = FrameId(700);
    for (number, why, words) in [
        (1, Why::TooFew { free: 37, needed: 64 }, "the tree has 37 free frames, 64 are needed"),
        (1, Why::TooFew { free: 1, needed: 2 }, "the tree has 1 free frame, 2 are needed"),
        (1, Why::TooFew { free: 0, needed: 1 }, "the tree has 0 free frames, 1 is needed"),
        (
            2,
            Why::Spread { free: 74, most: 37, needed: 64 },
            "the tree has 74 free frames, 64 are needed, and no huge frame of it has more than 37",
        ),
        (
            3,
            Why::NoBlock { free: 2044, needed: 512 },
            "the tree has 2044 free frames, but no aligned block of 512",
        ),
        (4, Why::Held(frame), "frame 700 is held"),
        (5, Why::Free(frame), "frame 700 is free"),
        (6, Why::HeldSingly(FrameId(512)), "the huge frame at frame 512 is held singly, not whole"),
    ] {
        assert_eq!(why.number(), number);
        assert_eq!(why.to_string(), format!("{words} ({number})"));
    }
}

/// Asks all three of a tree of two huge frames, its first frame being given. The answers must be the same.
fn asked(lower: &Lower<'_>, frame: usize) -> Result<(), Error> {
    let get = lower.why_get(FrameId(frame).as_row(), 0, None).map(|_| ());
    let get_at = lower.why_get(RowId(0), 0, Some(FrameId(frame))).map(|_| ());
    let put = lower.why_put(FrameId(frame), 0).map(|_| ());
    assert!(get == get_at && get == put, "{get:?}, {get_at:?}, {put:?}");
    get
}

#[test]
fn a_question_is_refused_with_8_by_its_own_tree_alone() {
    // 2,088 frames in trees of two huge frames; the last tree has one of 40 frames, and an absent one.
    type Damage = fn(&mut [u64], &mut [u16]);
    let cases: [(usize, Damage); 8] = [
        (2, |_, entries| entries[5] = 1),
        (2, |_, entries| entries[4] = MARK),
        (2, |_, entries| entries[5] = MARK),
        (2, |rows, _| rows[39] &= !(1 << 63)),
        (2, |rows, entries| (rows[39], entries[4]) = (0, 40 + 64)),
        (1, |rows, entries| (rows[31], entries[3]) = (1, MARK)),
        (1, |_, entries| entries[2] = 511),
        (0, |rows, _| rows[15] = 1 << 63),
    ];
    for (case, (tree, damage)) in cases.into_iter().enumerate() {
        let (mut rows, mut entries) = ([0; 40], [0; 6]);
        let lower = Lower::new(2088, 2, Init::FreeAll, &mut rows, &mut entries).unwrap();
        assert_eq!([0, 1024, 2048].map(|frame| asked(&lower, frame)), [Ok(()); 3]);
        damage(&mut rows, &mut entries);
        let lent = (rows, entries);
        let lower = Lower::new(2088, 2, Init::None, &mut rows, &mut entries).unwrap();
        assert!(lower.audit().is_some());
        for other in 0..3 {
            let answer = if other == tree { Err(Error::Damage) } else { Ok(()) };
            assert_eq!(asked(&lower, 1024 * other), answer, "case {case}, tree {other}");
        }
        // The checks of 4 to 6 come before.
        let frame = FrameId(1024 * tree + 1);
        assert_eq!(lower.why_get(RowId(0), 11, Some(frame)), Err(Error::Order));
        assert_eq!(lower.why_get(RowId(33), 0, None), Err(Error::Range));
        assert_eq!(lower.why_put(frame, 1), Err(Error::Alignment));
        assert!((rows, entries) == lent, "a question wrote");
    }
}

/// Rows and entries of a consistent state, each huge frame of it by chance of one of seven kinds, or of some
/// of them.
fn memory(frames: usize, tree_huge: usize, random: &mut Random) -> (Vec<u64>, Vec<u16>) {
    let (mut rows, mut entries) = (vec![0; rows_needed(frames)], vec![0; entries_needed(frames, tree_huge)]);
    Lower::new(frames, tree_huge, Init::FreeAll, &mut rows, &mut entries).unwrap();
    let kinds: [&[usize]; 7] = [&[0, 1, 2, 3, 4, 5, 6], &[0, 1], &[0, 2], &[1, 2], &[2], &[4], &[5]];
    let kinds = kinds[random.below(kinds.len())];
    for huge in 0..frames.div_ceil(512) {
        let bits = &mut rows[8 * huge..][..8];
        let (block, chance) = (1 << random.below(9), 1 + random.below(8));
        match kinds[random.below(kinds.len())] {
            0 if 512 * (huge + 1) <= frames => {
                entries[huge] = MARK;
                continue;
            }
            0 | 1 => bits.fill(u64::MAX),
            // A few frames are free.
            2 => {
                let was = <[u64; 8]>::try_from(&*bits).unwrap();
                bits.fill(u64::MAX);
                for place in (0..1 + random.below(80)).map(|_| random.below(512)) {
                    bits[place / 64] &= !(1 << (place % 64)) | was[place / 64];
                }
            }
            // All but a few are.
            3 => (0..1 + random.below(4))
                .map(|_| random.below(512))
                .for_each(|p| bits[p / 64] |= 1 << (p % 64)),
            // Some blocks of one order are held.
            4 => (0..512).step_by(block).filter(|_| random.below(8) < chance).for_each(|start| {
                (start..start + block).for_each(|place| bits[place / 64] |= 1 << (place % 64));
            }),
            // A frame of each block is.
            5 => (0..512).step_by(block).for_each(|start| {
                let place = start + random.below(block);
                bits[place / 64] |= 1 << (place % 64);
            }),
            _ => {}
        }
        entries[huge] = bits.iter().map(|row| row.count_zeros() as u16).sum();
    }
    (rows, entries)
}

/// A state, beside a plain model of what is held of it, and how often each number was answered.
struct Asked<'a> {
    lower: Lower<'a>,
    held: Held,
    reasons: [usize; 7],
}

impl Asked<'_> {
    /// Makes a request on a copy of the state, where an answer is that it would be done or refused with 7.
    fn hold<T>(&mut self, why: Option<Why>, request: impl FnOnce(&mut Lower<'_>) -> Result<T, Error>) {
        let (frames, tree_huge) = (self.lower.frames(), self.lower.tree_huge());
        let (mut rows, mut entries) = (self.lower.rows().to_vec(), self.lower.entries().to_vec());
        let mut copy = Lower::new(frames, tree_huge, Init::None, &mut rows, &mut entries).unwrap();
        let answer = request(&mut copy).map(|_| ());
        assert_eq!(answer, if why.is_none() { Ok(()) } else { Err(Error::Memory) }, "{why:?}");
        self.reasons[why.map_or(0, |why| why.number() as usize)] += 1;
    }

    fn get(&mut self, row: RowId, order: usize) {
        let why = self.lower.why_get(row, order, None).unwrap();
        self.hold(why, |copy| Ok(copy.get(row, order, None)?));

        let (tree, needed) = (1 << self.lower.tree_order(), 1 << order);
        let start = row.as_frame().0 / tree * tree;
        let free = self.held.free(start, tree);
        let counts = (start..start + tree).step_by(512).map(|huge| self.held.free(huge, 512));
        let most = counts.max().unwrap();
        let expected = if free < needed {
            Some(Why::TooFew { free, needed })
        } else if order < 9 && most < needed {
            Some(Why::Spread { free, most, needed })
        } else {
            (!self.held.has_room(start, tree, order)).then_some(Why::NoBlock { free, needed })
        };
        assert_eq!(why, expected);
    }

    fn block(&mut self, frame: FrameId, order: usize) {
        let why = self.lower.why_get(RowId(usize::MAX), order, Some(frame)).unwrap();
        self.hold(why, |copy| Ok(copy.get(RowId(0), order, Some(frame))?));
        assert_eq!(why, self.held.lowest(frame, order, true).map(Why::Held));

        let why = self.lower.why_put(frame, order).unwrap();
        self.hold(why, |copy| copy.put(frame, order));
        let singly = |huge: &usize| order >= HUGE_ORDER && self.lower.entries()[*huge] != MARK;
        let singly = (frame.as_huge().0..(frame.0 + (1 << order)) / 512).find(singly);
        let singly = singly.map(|huge| Why::HeldSingly(HugeId(huge).as_frame()));
        assert_eq!(why, self.held.lowest(frame, order, false).map(Why::Free).or(singly));
    }
}

#[test]
fn each_answer_is_what_the_request_does() {
    let mut random = Random(1);
    let mut reasons = [0; 7];
    for round in 0..600 {
        let tree_huge = 1 << random.below(if round % 10 == 0 { 10 } else { 4 });
        let frames = 1 + random.below(3 * 512 * tree_huge.min(8));
        let (mut rows, mut entries) = memory(frames, tree_huge, &mut random);
        let lent = (rows.clone(), entries.clone());
        let lower = Lower::new(frames, tree_huge, Init::None, &mut rows, &mut entries).unwrap();
        assert_eq!(lower.audit(), None);
        let mut asked = Asked { held: Held::of(&lower), lower, reasons };
        for order in 0..=asked.lower.tree_order() {
            asked.get(FrameId(random.below(frames)).as_row(), order);
            if frames >> order > 0 {
                asked.block(FrameId(random.below(frames >> order) << order), order);
            }
        }
        reasons = asked.reasons;
        assert!(lent == (rows, entries), "a question wrote");
    }
    assert!(reasons.iter().all(|count| *count > 100), "too few of a reason: {reasons:?}");
}

#[test]
fn by_one_tree_as_by_a_state_of_its_own() {
    let mut random = Random(2);
    let (mut sound, mut damaged) = (0, 0);
    for _ in 0..400 {
        let tree_huge = 1 << random.below(4);
        let tree = 512 * tree_huge;
        let frames = 1 + random.below(4 * tree);
        let (mut rows, mut entries) = memory(frames, tree_huge, &mut random);
        for _ in 0..random.below(3) {
            let (row, entry) = (random.below(rows.len()), random.below(entries.len()));
            match random.below(4) {
                0 => rows[row] ^= 1 << random.below(64),
                1 => entries[entry] ^= 1 << random.below(16),
                2 => entries[entry] = MARK,
                _ => {}
            }
        }
        let (mut own_rows, mut own_entries) = (rows.clone(), entries.clone());
        let lower = Lower::new(frames, tree_huge, Init::None, &mut rows, &mut entries).unwrap();
        let own = own_rows.chunks_mut(8 * tree_huge).zip(own_entries.chunks_mut(tree_huge)).enumerate();
        for (number, (rows, entries)) in own {
            let base = number * tree;
            let own = Lower::new((frames - base).min(tree), tree_huge, Init::None, rows, entries).unwrap();
            let frame = FrameId(random.below(own.frames()));
            let there = frame + FrameId(base);
            let order = random.below(own.tree_order() + 1);

            let (get, own_get) =
                (lower.why_get(there.as_row(), order, None), own.why_get(frame.as_row(), order, None));
            assert_eq!(get, own_get);
            assert_eq!(get == Err(Error::Damage), own.audit().is_some());
            let put = lower.why_put(there, 0).map(|why| why.map(|why| why.number()));
            assert_eq!(put, own.why_put(frame, 0).map(|why| why.map(|why| why.number())));
            assert_eq!(put == Err(Error::Damage), own.audit().is_some());
            *if get.is_ok() { &mut sound } else { &mut damaged } += 1;
        }
    }
    assert!(sound > 200 && damaged > 100, "{sound} trees were sound, and {damaged} damaged");
}
