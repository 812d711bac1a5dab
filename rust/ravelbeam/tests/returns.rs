//! What is borrowed and returned leaves no trace: random runs, beside a plain model of what is held.

mod plain;

use plain::{Held, Random};
use ravelbeam::{Error, FrameId, Init, Lower, RowId, entries_needed, rows_needed};

/// A state, what is held of it by the model, and how many gets were done and refused.
struct Run<'a> {
    lower: Lower<'a>,
    held: Held,
    random: Random,
    done: usize,
    refused: usize,
}

impl Run<'_> {
    fn below(&mut self, end: usize) -> usize {
        self.random.below(end)
    }

    /// A get, of a low order more often than of a high one, in some tree or at some frame. The block, where
    /// there is one; it is refused exactly where the model has none.
    fn get(&mut self) -> Option<(FrameId, usize)> {
        let (frames, top) = (self.lower.frames(), self.lower.tree_order());
        let order = 1 + self.below(top + 1);
        let order = self.below(order);
        let place = self.below(frames);
        let (tree, block) = (place >> top << top, place >> order << order);
        let (answer, start, length) = if self.below(3) == 0 && block + (1 << order) <= frames {
            (self.lower.get(RowId(usize::MAX), order, Some(FrameId(block))), block, 1 << order)
        } else {
            (self.lower.get(RowId(place / 64), order, None), tree, 1 << top)
        };
        match answer {
            Ok(got) => {
                assert!((start..start + length).contains(&got.frame.0));
                self.held.take(got.frame, order);
                self.done += 1;
                Some((got.frame, order))
            }
            Err(refusal) => {
                assert_eq!(refusal.error, Error::Memory);
                assert!(!self.held.has_room(start, length, order));
                self.refused += 1;
                None
            }
        }
    }

    /// Gives a block back, whole or by its halves, which may go by their halves again.
    fn put(&mut self, frame: FrameId, order: usize) {
        if order > 0 && self.below(4) == 0 {
            self.put(frame, order - 1);
            return self.put(frame + FrameId(1 << (order - 1)), order - 1);
        }
        assert_eq!(self.lower.is_free(frame, order), Ok(false));
        assert_eq!(self.lower.put(frame, order), Ok(()));
        assert_eq!(self.lower.is_free(frame, order), Ok(true));
        self.held.give(frame, order);
    }

    /// The rows and entries, once they are seen to be sound and to count what the model does.
    fn memory(&self) -> (Vec<u64>, Vec<u16>) {
        assert_eq!(self.lower.audit(), None);
        assert_eq!(self.lower.stats().free_frames, self.lower.frames() - self.held.count);
        (self.lower.rows().to_vec(), self.lower.entries().to_vec())
    }
}

/// One run, on a state of which something is held before it and stays so. How many gets were done and
/// refused.
fn run(frames: usize, tree_huge: usize, init: Init, seed: u64) -> [usize; 2] {
    let (mut rows, mut entries) = (vec![0; rows_needed(frames)], vec![0; entries_needed(frames, tree_huge)]);
    let lower = Lower::new(frames, tree_huge, init, &mut rows, &mut entries).unwrap();
    let mut run = Run { held: Held::of(&lower), lower, random: Random(seed), done: 0, refused: 0 };
    for _ in 0..run.below(100) {
        run.get();
        let frame = FrameId(run.below(frames));
        if !run.held.has_room(frame.0, 1, 0) {
            run.put(frame, 0);
        }
    }

    let before = run.memory();
    let mut borrowed = Vec::new();
    for _ in 0..800 {
        if run.below(2) == 0 {
            borrowed.extend(run.get());
        } else if !borrowed.is_empty() {
            let any = run.below(borrowed.len());
            let (frame, order) = borrowed.swap_remove(any);
            run.put(frame, order);
        }
        run.memory();
    }
    for (frame, order) in borrowed {
        run.put(frame, order);
    }
    assert!(run.memory() == before, "a trace is left");
    [run.done, run.refused]
}

#[test]
fn what_is_borrowed_and_returned_leaves_no_trace() {
    let mut random = Random(1);
    let mut gets = [0, 0];
    for tree_huge in (0..10).map(|log| 1 << log) {
        for init in [Init::FreeAll, Init::FreeAll, Init::AllocAll, Init::AllocAll] {
            let frames = 1 + random.below(3 * 512 * tree_huge.min(8));
            let counts = run(frames, tree_huge, init, random.word());
            gets = [gets[0] + counts[0], gets[1] + counts[1]];
        }
    }
    assert!(gets.iter().all(|count| *count > 5000), "too few gets were done, or refused: {gets:?}");
}
