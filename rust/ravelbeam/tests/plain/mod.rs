//! A plain model of what is held: a flag for each frame. And numbers to choose by.

// Each test uses some of it.
#![allow(dead_code, unused_imports)]

mod random;

pub use random::Random;
use ravelbeam::{FrameId, Lower};

pub struct Held {
    flags: Vec<bool>,
    pub count: usize,
}

impl Held {
    /// The frames that a state has as held, asked one by one.
    pub fn of(lower: &Lower<'_>) -> Held {
        let flags: Vec<bool> =
            (0..lower.frames()).map(|frame| !lower.is_free(FrameId(frame), 0).unwrap()).collect();
        let count = flags.iter().filter(|held| **held).count();
        Held { flags, count }
    }

    /// Holds a block that was handed out.
    pub fn take(&mut self, frame: FrameId, order: usize) {
        assert!(frame.is_aligned(order), "{frame} is not aligned at order {order}");
        let block = &mut self.flags[frame.0..][..1 << order];
        assert!(!block.contains(&true), "{frame}, order {order}: some of it is handed out twice");
        block.fill(true);
        self.count += 1 << order;
    }

    /// Frees a block that was given back.
    pub fn give(&mut self, frame: FrameId, order: usize) {
        let block = &mut self.flags[frame.0..][..1 << order];
        assert!(!block.contains(&false), "{frame}, order {order}: some of it was not held");
        block.fill(false);
        self.count -= 1 << order;
    }

    /// How many are free of `frames` frames from `start` on.
    pub fn free(&self, start: usize, frames: usize) -> usize {
        self.flags.iter().skip(start).take(frames).filter(|held| !**held).count()
    }

    /// The lowest frame of a block that is held, or that is free.
    pub fn lowest(&self, frame: FrameId, order: usize, held: bool) -> Option<FrameId> {
        let block = &self.flags[frame.0..][..1 << order];
        block.iter().position(|flag| *flag == held).map(|place| frame + FrameId(place))
    }

    /// Whether an aligned block is free among `frames` frames from `start` on. The start is aligned.
    pub fn has_room(&self, start: usize, frames: usize, order: usize) -> bool {
        let end = self.flags.len().min(start + frames);
        self.flags[start..end].chunks_exact(1 << order).any(|block| !block.contains(&true))
    }
}
