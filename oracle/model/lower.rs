//! The rules for the lower level's calls. staff.rs has those of the kernel's staff, and why.rs those that say why
//! a get or a put would be turned down.

use super::bitfield::first_zeros;
use super::blocks::{self, all, hold, set_all};
use super::numbers::{MARK, MOST, Shape, TREES};

/// What a call is lent.
pub struct Lent<'a> {
    pub shape: Shape,
    pub rows: &'a mut [u64],
    pub entries: &'a mut [u16],
}

impl Lent<'_> {
    // ---- The refusals, checked in the order of their numbers; 0 where there is none.

    pub(super) fn refused(&self) -> u64 {
        let Shape { n, t, .. } = self.shape;
        if n == 0 || n > MOST {
            return 1;
        }
        if !TREES.contains(&t) {
            return 2;
        }
        let (rows, entries) = self.shape.needed();
        if (self.rows.len() as u64) < rows || (self.entries.len() as u64) < entries { 3 } else { 0 }
    }

    /// "Order above the top order"; "row·64 ≥ N".
    pub(super) fn refused_start(&self, row: u64, order: u64) -> u64 {
        match self.refused() {
            0 if order > self.shape.top_order() => 4,
            0 if row as u128 * 64 >= self.shape.n as u128 => 5,
            code => code,
        }
    }

    /// "Order above the top order"; "frame + 2^order > N"; "frame not aligned".
    pub(super) fn refused_block(&self, frame: u64, order: u64) -> u64 {
        match self.refused() {
            0 => blocks::refused(frame, order, self.shape.top_order(), self.shape.n),
            code => code,
        }
    }

    // ---- Huge frames, and the entries of blocks from order 9.

    /// The entry of a huge frame that is free whole: "all entries 512".
    pub(super) fn free(&self) -> u16 {
        self.shape.variant.huge_frames() as u16
    }

    /// The rows of a huge frame.
    pub(super) fn rows_of(&self, huge: u64) -> &[u64] {
        let count = self.shape.variant.huge_rows();
        &self.rows[(count * huge) as usize..][..count as usize]
    }

    /// The entries of a block of order 9 or more.
    fn group(&mut self, frame: u64, order: u64) -> &mut [u16] {
        let variant = self.shape.variant;
        &mut self.entries[(frame / variant.huge_frames()) as usize..][..1 << (order - variant.huge_order)]
    }

    /// Whether the group's entries are all this number.
    fn all_are(&mut self, frame: u64, order: u64, number: u16) -> bool {
        self.group(frame, order).iter().all(|entry| *entry == number)
    }

    /// Turns the group's entries from one number to another, where all of them are that number.
    fn exchange(&mut self, frame: u64, order: u64, from: u16, to: u16) -> bool {
        let all = self.all_are(frame, order, from);
        if all {
            self.group(frame, order).fill(to);
        }
        all
    }

    // ---- The calls.

    /// "All frames below N free. Absent entries 0, bits past N set."
    pub fn free_all(&mut self) -> u64 {
        let code = self.refused();
        if code != 0 {
            return code;
        }
        let Shape { variant, n, .. } = self.shape;
        let (rows, entries) = self.shape.needed();
        (0..64 * rows).for_each(|frame| hold(self.rows, frame, frame >= n));
        for huge in 0..entries {
            let first = variant.huge_frames() * huge;
            let frames = (first..first + variant.huge_frames()).filter(|frame| *frame < n);
            self.entries[huge as usize] = frames.count() as u16;
        }
        0
    }

    /// "All held (mark for whole huge frames; a partial one has all bits set, entry 0)"; under a mark, as
    /// in any consistent state, all bits are clear.
    pub fn reserve_all(&mut self) -> u64 {
        let code = self.refused();
        if code != 0 {
            return code;
        }
        let (rows, entries) = self.shape.needed();
        let whole = self.shape.whole();
        let first_partial = whole * self.shape.variant.huge_frames();
        (0..64 * rows).for_each(|frame| hold(self.rows, frame, frame >= first_partial));
        (0..entries).for_each(|huge| self.entries[huge as usize] = if huge < whole { MARK } else { 0 });
        0
    }

    /// Get without a frame: code; frame and probes.
    pub fn get(&mut self, row: u64, order: u64) -> (u64, [u64; 2]) {
        match self.refused_start(row, order) {
            0 if order < self.shape.variant.huge_order => self.get_small(row, order),
            0 => self.get_huge(row, order),
            code => (code, [0, 0]),
        }
    }

    /// "Visit the T entries of the start row's tree, from the start row's huge frame, wrapping in the
    /// tree. Skip the mark and counts below 2^order. Search the huge frame", each from the start row as a
    /// bitfield's search takes it. "If found, set the bits and lower the entry by 2^order. If not, go on. 7
    /// if all fail. 8 if the search reaches an eligible absent entry, or a count above 512 with no block, or
    /// finds a block ending past N."
    fn get_small(&mut self, row: u64, order: u64) -> (u64, [u64; 2]) {
        let Shape { variant, n, t } = self.shape;
        let start = row / variant.huge_rows();
        for probes in 1..=t {
            let huge = start / t * t + (start + probes - 1) % t;
            let entry = self.entries[huge as usize];
            if entry == MARK || entry < 1 << order {
                continue;
            }
            if huge >= self.shape.present() {
                return (8, [0, probes]);
            }
            let (code, place) = first_zeros(variant, self.rows_of(huge), row, order);
            let frame = variant.huge_frames() * huge + place;
            match code {
                0 if frame + (1 << order) > n => return (8, [0, probes]),
                0 => {
                    set_all(self.rows, frame, order, true);
                    self.entries[huge as usize] -= 1 << order;
                    return (0, [frame, probes]);
                }
                _ if entry > self.free() => return (8, [0, probes]),
                _ => {}
            }
        }
        (7, [0, t])
    }

    /// "Groups of 2^(order−9) entries, from the group holding the start row's huge frame, wrapping. The
    /// first group whose entries are all 512 gets the mark throughout; rows stay as they are. 8 if that
    /// group ends past N."
    fn get_huge(&mut self, row: u64, order: u64) -> (u64, [u64; 2]) {
        let (frames, tree_frames) = (1 << order, self.shape.tree_frames());
        let tree = 64 * row / tree_frames * tree_frames;
        let groups = tree_frames / frames;
        for probes in 1..=groups {
            let frame = tree + (64 * row / frames + probes - 1) % groups * frames;
            if self.all_are(frame, order, self.free()) {
                if frame + frames > self.shape.n {
                    return (8, [0, probes]);
                }
                self.group(frame, order).fill(MARK);
                return (0, [frame, probes]);
            }
        }
        (7, [0, groups])
    }

    /// Get with a frame: code; frame and probes. "Only that block. Order 9 and up: all entries 512, else 7.
    /// Below: entry marked or below 2^order is 7; bits not all clear is 7, or 8 if the count is above 512."
    pub fn get_at(&mut self, frame: u64, order: u64) -> (u64, [u64; 2]) {
        let code = self.refused_block(frame, order);
        if code != 0 {
            return (code, [0, 0]);
        }
        if order >= self.shape.variant.huge_order {
            let taken = self.exchange(frame, order, self.free(), MARK);
            return if taken { (0, [frame, 1]) } else { (7, [0, 1]) };
        }
        let huge = (frame / self.shape.variant.huge_frames()) as usize;
        let entry = self.entries[huge];
        if entry == MARK || entry < 1 << order {
            return (7, [0, 1]);
        }
        if !all(self.rows, frame, order, false) {
            return (if entry > self.free() { 8 } else { 7 }, [0, 1]);
        }
        set_all(self.rows, frame, order, true);
        self.entries[huge] -= 1 << order;
        (0, [frame, 1])
    }

    /// "Order 9 and up: all entries the mark, which become 512; else 7. Below 9: marked with any bit set,
    /// 8; marked otherwise, set all 512 bits, entry 0, then clear the block and entry 2^order. Not marked:
    /// count above 512 − 2^order, or a bit of the block clear, is 7; else clear the bits and raise the
    /// entry."
    pub fn put(&mut self, frame: u64, order: u64) -> u64 {
        let code = self.refused_block(frame, order);
        if code != 0 {
            return code;
        }
        let variant = self.shape.variant;
        if order >= variant.huge_order {
            return if self.exchange(frame, order, MARK, self.free()) { 0 } else { 7 };
        }
        let huge = frame / variant.huge_frames();
        let first = variant.huge_frames() * huge;
        let entry = self.entries[huge as usize];
        if entry == MARK {
            if !all(self.rows, first, variant.huge_order, false) {
                return 8;
            }
            set_all(self.rows, first, variant.huge_order, true);
            set_all(self.rows, frame, order, false);
            self.entries[huge as usize] = 1 << order;
            return 0;
        }
        if entry > self.free() - (1 << order) || !all(self.rows, frame, order, true) {
            return 7;
        }
        set_all(self.rows, frame, order, false);
        self.entries[huge as usize] += 1 << order;
        0
    }

    /// Code, and 1 for yes. "Order 9 and up, all entries 512. Below: count below 2^order no; count 512 yes;
    /// else the block's bits all clear." The mark's count is 0.
    pub fn is_free(&mut self, frame: u64, order: u64) -> (u64, [u64; 1]) {
        let code = self.refused_block(frame, order);
        if code != 0 {
            return (code, [0]);
        }
        let variant = self.shape.variant;
        let yes = if order >= variant.huge_order {
            self.all_are(frame, order, self.free())
        } else {
            match self.entries[(frame / variant.huge_frames()) as usize] {
                MARK => false,
                count if count < 1 << order => false,
                count => count == self.free() || all(self.rows, frame, order, false),
            }
        };
        (0, [yes as u64])
    }
}
