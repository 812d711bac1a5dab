//! Document 02's W-202: why a get, a get with a frame or a put would be turned down. Each call answers its code;
//! reason and frame. "Both 0 when the tool refuses; frame is 0 with reasons 0 to 3."

use std::ops::Range;

use super::blocks::{held, zeros};
use super::lower::Lent;
use super::numbers::{MARK, Shape};

impl Lent<'_> {
    /// The frames of a huge frame.
    fn frames_of(&self, huge: u64) -> Range<u64> {
        let count = self.shape.variant.huge_frames();
        count * huge..count * huge + count
    }

    /// "A frame below N is free if its bit is clear and its entry is not the mark, otherwise held; frame N and
    /// later ones are never free."
    fn is_free_frame(&self, frame: u64) -> bool {
        let huge = (frame / self.shape.variant.huge_frames()) as usize;
        frame < self.shape.n && !held(self.rows, frame) && self.entries[huge] != MARK
    }

    /// "Each present huge frame either has the mark, lies wholly below N and has all bits clear, or has an entry
    /// of at most 512 equal to its number of clear bits, with every bit at or past N set. Absent entries are 0."
    fn consistent(&self, huge: u64) -> bool {
        let Shape { variant, n, .. } = self.shape;
        let entry = self.entries[huge as usize];
        if huge >= self.shape.present() {
            return entry == 0;
        }
        let (frames, clear) = (self.frames_of(huge), zeros(self.rows_of(huge)));
        let past_are_set = (n.max(frames.start)..frames.end).all(|frame| held(self.rows, frame));
        let marked = entry == MARK && frames.end <= n && clear == variant.huge_frames();
        marked || (entry as u64 <= variant.huge_frames() && entry as u64 == clear && past_are_set)
    }

    /// "1 to 6 as in the request itself, then 8 if the tree isn't consistent": the tree of a frame.
    fn refused_why(&self, request: u64, frame: u64) -> u64 {
        match request {
            0 if !self.tree(frame).all(|huge| self.consistent(huge)) => 8,
            code => code,
        }
    }

    /// "1, the tree has fewer than 2^order free frames; 2, it has enough, but the order is below 9 and no single
    /// huge frame has that many; 3, otherwise, no aligned block."
    pub fn why_get(&self, row: u64, order: u64) -> (u64, [u64; 2]) {
        let code = self.refused_why(self.refused_start(row, order), row.wrapping_mul(64));
        if code != 0 {
            return (code, [0, 0]);
        }
        let (tree, wanted) = (self.tree(64 * row), 1 << order);
        let free_in = |huge| self.frames_of(huge).filter(|frame| self.is_free_frame(*frame)).count() as u64;
        let counts: Vec<u64> = tree.clone().map(free_in).collect();
        let mut blocks = (self.frames_of(tree.start).start..self.frames_of(tree.end).start).step_by(wanted);
        let wanted = wanted as u64;
        let reason = if counts.iter().sum::<u64>() < wanted {
            1
        } else if order < self.shape.variant.huge_order && counts.iter().all(|count| *count < wanted) {
            2
        } else if !blocks.any(|block| (block..block + wanted).all(|frame| self.is_free_frame(frame))) {
            3
        } else {
            0
        };
        (0, [reason, 0])
    }

    /// "4, with the lowest held frame of the block."
    pub fn why_get_at(&self, frame: u64, order: u64) -> (u64, [u64; 2]) {
        let code = self.refused_why(self.refused_block(frame, order), frame);
        if code != 0 {
            return (code, [0, 0]);
        }
        match (frame..frame + (1 << order)).find(|frame| !self.is_free_frame(*frame)) {
            Some(lowest) => (0, [4, lowest]),
            None => (0, [0, 0]),
        }
    }

    /// "5, with the lowest free frame of the block; 6, all held, but a huge frame in it is held singly, with the
    /// lowest such one's first frame." A block of an order below 9 has no huge frame in it.
    pub fn why_put(&self, frame: u64, order: u64) -> (u64, [u64; 2]) {
        let code = self.refused_why(self.refused_block(frame, order), frame);
        if code != 0 {
            return (code, [0, 0]);
        }
        let variant = self.shape.variant;
        let frames = frame..frame + (1 << order);
        if let Some(lowest) = frames.clone().find(|frame| self.is_free_frame(*frame)) {
            return (0, [5, lowest]);
        }
        let mut huge = frames.start.div_ceil(variant.huge_frames())..frames.end / variant.huge_frames();
        match huge.find(|huge| self.entries[*huge as usize] != MARK) {
            Some(lowest) => (0, [6, self.frames_of(lowest).start]),
            None => (0, [0, 0]),
        }
    }
}
