//! The level above, in small: as llfree.rs and trees.rs of llfree-rs do, it reserves a tree at a time for
//! each class of requests and asks `Lower` for blocks of that tree, and goes on to another one when it is
//! refused with 7. The painter's class draws in huge frames, the log's takes single frames and small blocks.

mod plain;

use plain::{Held, Random};
use ravelbeam::{Error, FrameId, HUGE_FRAMES, HUGE_ORDER, Init, Lower, RowId, entries_needed, rows_needed};

const LOG: usize = 0;
const PAINTER: usize = 1;
const CLASSES: usize = 2;

/// A tree as the level above knows it: the free frames that no class has reserved.
#[derive(Clone, Debug, PartialEq)]
struct Tree {
    free: usize,
    reserved: bool,
}

/// The tree that a class has reserved: the row of its last block there, and the free frames that are its own.
#[derive(Clone, Copy, Debug, PartialEq)]
struct Reservation {
    row: RowId,
    free: usize,
}

struct Trees<'a> {
    lower: Lower<'a>,
    trees: Vec<Tree>,
    locals: [Option<Reservation>; CLASSES],
}

impl<'a> Trees<'a> {
    fn new(lower: Lower<'a>) -> Self {
        let starts = (0..lower.frames()).step_by(1 << lower.tree_order());
        let free = |start| lower.stats_at(FrameId(start), lower.tree_order()).unwrap().free_frames;
        let trees = starts.map(|start| Tree { free: free(start), reserved: false }).collect();
        Trees { lower, trees, locals: [None; CLASSES] }
    }

    fn tree_of(&self, row: RowId) -> usize {
        row.as_frame().0 >> self.lower.tree_order()
    }

    fn row_of(&self, tree: usize) -> RowId {
        FrameId(tree << self.lower.tree_order()).as_row()
    }

    /// The tree that a class has reserved.
    fn reserved(&self, class: usize) -> Option<usize> {
        self.locals[class].map(|local| self.tree_of(local.row))
    }

    fn get(&mut self, class: usize, order: usize) -> Result<FrameId, Error> {
        let start = self.reserved(class).unwrap_or(class * self.trees.len() / CLASSES);
        match self.get_local(class, order) {
            Err(Error::Memory) => {}
            answer => return answer,
        }
        match self.search_and_reserve(class, order, start) {
            Err(Error::Memory) => {}
            answer => return answer,
        }
        self.get_local(CLASSES - 1 - class, order)
    }

    /// A block of the tree that a class has reserved, to whose free frames those count that others gave back.
    fn get_local(&mut self, class: usize, order: usize) -> Result<FrameId, Error> {
        let Some(Reservation { row, free }) = self.locals[class] else { return Err(Error::Memory) };
        let tree = self.tree_of(row);
        let free = free + std::mem::take(&mut self.trees[tree].free);
        self.locals[class] = Some(Reservation { row, free });
        if free < 1 << order {
            return Err(Error::Memory);
        }
        let frame = self.lower.get(row, order, None)?.frame;
        self.locals[class] = Some(Reservation { row: frame.as_row(), free: free - (1 << order) });
        Ok(frame)
    }

    /// A block of the nearest tree that is nobody's and has one; it is reserved instead of the old tree.
    fn search_and_reserve(&mut self, class: usize, order: usize, start: usize) -> Result<FrameId, Error> {
        for i in 0..self.trees.len() {
            // Alternating between before and after the start.
            let offset = if i % 2 == 0 { i / 2 } else { self.trees.len() - i.div_ceil(2) };
            let tree = (start + offset) % self.trees.len();
            let Tree { free, reserved } = self.trees[tree];
            if reserved || free < 1 << order {
                continue;
            }
            match self.lower.get(self.row_of(tree), order, None) {
                Ok(got) => {
                    self.unreserve(class);
                    self.trees[tree] = Tree { free: 0, reserved: true };
                    let row = got.frame.as_row();
                    self.locals[class] = Some(Reservation { row, free: free - (1 << order) });
                    return Ok(got.frame);
                }
                Err(refusal) if refusal.error == Error::Memory => {}
                Err(refusal) => return Err(refusal.error),
            }
        }
        Err(Error::Memory)
    }

    fn put(&mut self, class: usize, frame: FrameId, order: usize) -> Result<(), Error> {
        self.lower.put(frame, order)?;
        let tree = self.tree_of(frame.as_row());
        let own = self.reserved(class) == Some(tree);
        match &mut self.locals[class] {
            Some(local) if own => local.free += 1 << order,
            _ => self.trees[tree].free += 1 << order,
        }
        Ok(())
    }

    fn unreserve(&mut self, class: usize) {
        if let Some(Reservation { row, free }) = self.locals[class].take() {
            let tree = self.tree_of(row);
            self.trees[tree].free += free;
            self.trees[tree].reserved = false;
        }
    }

    /// What this level counts is what the lower level has.
    fn validate(&self) {
        let mut counts: Vec<usize> = self.trees.iter().map(|tree| tree.free).collect();
        for Reservation { row, free } in self.locals.iter().flatten() {
            assert!(self.trees[self.tree_of(*row)].reserved);
            counts[self.tree_of(*row)] += free;
        }
        for (tree, count) in counts.iter().enumerate() {
            let stats =
                self.lower.stats_at(FrameId(tree << self.lower.tree_order()), self.lower.tree_order());
            assert_eq!(stats.unwrap().free_frames, *count);
        }
        assert_eq!(self.lower.stats().free_frames, counts.iter().sum());
    }
}

#[test]
fn the_painter_and_the_log_keep_apart() {
    let (mut rows, mut entries) = ([0; rows_needed(16384)], [0; entries_needed(16384, 4)]);
    let mut level = Trees::new(Lower::new(16384, 4, Init::FreeAll, &mut rows, &mut entries).unwrap());
    for note in 0..100 {
        assert_eq!(level.get(LOG, 0), Ok(FrameId(note)), "the log goes on in its row, and then in the next");
        if note % 25 == 0 {
            assert_eq!(level.get(PAINTER, HUGE_ORDER), Ok(FrameId(4 * 2048 + 512 * (note / 25))));
        }
    }
    assert_eq!((level.reserved(LOG), level.reserved(PAINTER)), (Some(0), Some(4)));
    // The painter's tree is full: it goes on to the nearest that is nobody's, and to the log's at the end.
    let drawn: Vec<FrameId> = std::iter::from_fn(|| level.get(PAINTER, HUGE_ORDER).ok()).collect();
    let trees: Vec<usize> = drawn.iter().map(|frame| frame.0 / 2048).collect();
    assert_eq!(trees.chunks(4).map(|four| four[0]).collect::<Vec<_>>(), [3, 2, 1, 7, 6, 5, 0]);
    assert_eq!(drawn[24..], [512, 1024, 1536].map(FrameId));
    assert_eq!(level.get(PAINTER, HUGE_ORDER), Err(Error::Memory));
    assert_eq!(level.get(LOG, 0), Ok(FrameId(100)));
    level.validate();
}

/// Requests of both classes, and blocks given back, by chance; all of it is given back in the end. The
/// requests that were met, those that were refused, and how often a class went on to another tree.
fn day(frames: usize, tree_huge: usize, random: &mut Random) -> [usize; 3] {
    let (mut rows, mut entries) = (vec![0; rows_needed(frames)], vec![0; entries_needed(frames, tree_huge)]);
    let lower = Lower::new(frames, tree_huge, Init::FreeAll, &mut rows, &mut entries).unwrap();
    let huge_orders = lower.tree_order() - HUGE_ORDER + 1;
    let mut held = Held::of(&lower);
    let mut level = Trees::new(lower);
    let before = (level.lower.rows().to_vec(), level.lower.entries().to_vec(), level.trees.clone());

    let mut blocks = Vec::new();
    let [mut met, mut refused, mut moved] = [0; 3];
    for _ in 0..2000 {
        if random.below(5) < 2 && !blocks.is_empty() {
            let (class, frame, order) = blocks.swap_remove(random.below(blocks.len()));
            assert_eq!(level.put(class, frame, order), Ok(()));
            held.give(frame, order);
            continue;
        }
        let (class, order) = match random.below(10) {
            0 => (PAINTER, HUGE_ORDER),
            1 => (PAINTER, HUGE_ORDER + random.below(huge_orders)),
            2..5 => (LOG, random.below(9)),
            _ => (LOG, 0),
        };
        let tree = level.reserved(class);
        match level.get(class, order) {
            Ok(frame) => {
                held.take(frame, order);
                blocks.push((class, frame, order));
                met += 1;
            }
            Err(error) => {
                assert_eq!(error, Error::Memory);
                assert!(!held.has_room(0, frames, order), "order {order} is refused, and there is room");
                refused += 1;
            }
        }
        moved += (tree.is_some() && level.reserved(class) != tree) as usize;
        level.validate();
    }

    for (class, frame, order) in blocks {
        assert_eq!(level.put(class, frame, order), Ok(()));
        held.give(frame, order);
    }
    (0..CLASSES).for_each(|class| level.unreserve(class));
    level.validate();
    assert_eq!((held.count, level.lower.audit()), (0, None));
    let Trees { lower, trees, .. } = level;
    assert!(before == (lower.rows().to_vec(), lower.entries().to_vec(), trees), "a trace is left");
    [met, refused, moved]
}

#[test]
fn a_day_of_the_painter_and_the_log() {
    let mut random = Random(1);
    for (frames, tree_huge) in [(6000, 1), (1000, 2), (20_000, 4), (30_000, 8), (5000, 512)] {
        let [met, refused, moved] = day(frames, tree_huge, &mut random);
        assert!(met > 500 && refused > 50, "{met} requests met, {refused} refused");
        assert_eq!(moved > 0, frames > HUGE_FRAMES * tree_huge);
    }
}
