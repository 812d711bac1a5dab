//! The rules for the calls of the kernel's staff.

use std::ops::Range;

use super::blocks::{held, zeros};
use super::lower::Lent;
use super::numbers::{MARK, Shape};

impl Lent<'_> {
    /// The refusals of a call at a frame: 5 for "frame ≥ N".
    fn refused_frame(&self, frame: u64) -> u64 {
        match self.refused() {
            0 if frame >= self.shape.n => 5,
            code => code,
        }
    }

    /// "Entry 65535 is the mark: free count 0. Any other entry is its own free count."
    fn counts(&self, huge: Range<u64>) -> Vec<u64> {
        let entries = &self.entries[huge.start as usize..huge.end as usize];
        entries.iter().map(|entry| if *entry == MARK { 0 } else { *entry as u64 }).collect()
    }

    /// The huge frames of a frame's tree.
    pub(super) fn tree(&self, frame: u64) -> Range<u64> {
        let first = frame / self.shape.tree_frames() * self.shape.t;
        first..first + self.shape.t
    }

    /// Code; free frames, huge frames and trees. "Sum of free counts; entries that are 512; trees whose sum
    /// is 512T."
    pub fn stats(&self) -> (u64, [u64; 3]) {
        let code = self.refused();
        if code != 0 {
            return (code, [0; 3]);
        }
        let counts = self.counts(0..self.shape.needed().1);
        let huge = counts.iter().filter(|count| **count == self.shape.variant.huge_frames()).count();
        let trees = counts.chunks(self.shape.t as usize).map(|tree| tree.iter().sum::<u64>());
        let free = trees.filter(|sum| *sum == self.shape.tree_frames()).count();
        (0, [counts.iter().sum(), huge as u64, free as u64])
    }

    /// "Order 0: 1 if count > 0 and bit clear. Order 9: count, count div 512, 0. Top order: sum, sum of count
    /// div 512, sum div 512T. Any other order: zeros, code 0. At T = 1 the order 9 rule comes first, so free
    /// trees is 0."
    pub fn stats_at(&self, frame: u64, order: u64) -> (u64, [u64; 3]) {
        let code = self.refused_frame(frame);
        if code != 0 {
            return (code, [0; 3]);
        }
        let variant = self.shape.variant;
        let huge = frame / variant.huge_frames();
        let count = self.counts(huge..huge + 1)[0];
        let stats = match order {
            0 => [(count > 0 && !held(self.rows, frame)) as u64, 0, 0],
            _ if order == variant.huge_order => [count, count / variant.huge_frames(), 0],
            _ if order == self.shape.top_order() => {
                let counts = self.counts(self.tree(frame));
                let sum = counts.iter().sum::<u64>();
                let huge = counts.iter().map(|count| count / variant.huge_frames()).sum();
                [sum, huge, sum / self.shape.tree_frames()]
            }
            _ => [0; 3],
        };
        (0, stats)
    }

    /// What is wrong with a huge frame, or 0. "1 mark over a partial huge frame, 2 mark with a set bit, 3
    /// clear bit past N, 4 count differs from the clear bits, 5 absent entry not 0. Reason 1 goes before 2, 3
    /// before 4; 3 and 4 apply only to present entries without the mark, and absent ones have only 5."
    fn reason(&self, huge: u64) -> u64 {
        let Shape { variant, n, .. } = self.shape;
        let first = variant.huge_frames() * huge;
        let (end, entry) = (first + variant.huge_frames(), self.entries[huge as usize]);
        if first >= n {
            return if entry == 0 { 0 } else { 5 };
        }
        if entry == MARK {
            let set = self.rows_of(huge).iter().any(|row| *row != 0);
            return if end > n { 1 } else { 2 * set as u64 };
        }
        if (first.max(n)..end).any(|frame| !held(self.rows, frame)) {
            return 3;
        }
        if entry as u64 == zeros(self.rows_of(huge)) { 0 } else { 4 }
    }

    /// Code; huge frame and reason. "The first faulty huge frame and its reason. Clean is 0, 0."
    pub fn audit(&self) -> (u64, [u64; 2]) {
        let code = self.refused();
        if code != 0 {
            return (code, [0; 2]);
        }
        let mut all = (0..self.shape.needed().1).map(|huge| [huge, self.reason(huge)]);
        (0, all.find(|fault| fault[1] != 0).unwrap_or([0; 2]))
    }

    /// The first reason that no recover mends, 1, 3 or 5, or 0.
    pub fn past_mending(&self) -> u64 {
        let mut reasons = (0..self.shape.needed().1).map(|huge| self.reason(huge));
        reasons.find(|reason| [1, 3, 5].contains(reason)).unwrap_or(0)
    }

    /// Code; entries and bitfields changed. "8 if any huge frame has reason 1, 3 or 5. Otherwise the zeros of
    /// eight rows are counted and summed, a wrong count is replaced, and bits under a mark are cleared."
    pub fn recover(&mut self) -> (u64, [u64; 2]) {
        let code = self.refused();
        if code != 0 {
            return (code, [0; 2]);
        }
        if self.past_mending() != 0 {
            return (8, [0; 2]);
        }
        let rows = self.shape.variant.huge_rows() as usize;
        let mut changed = [0; 2];
        for huge in 0..self.shape.present() {
            match self.reason(huge) {
                4 => {
                    self.entries[huge as usize] = zeros(self.rows_of(huge)) as u16;
                    changed[0] += 1;
                }
                2 => {
                    self.rows[rows * huge as usize..][..rows].fill(0);
                    changed[1] += 1;
                }
                _ => {}
            }
        }
        (0, changed)
    }

    /// Code; nineteen counts. "Below 9: the sum over entries of free count div 2^order. From 9 to the top
    /// order: aligned groups all 512. Above: 0."
    pub fn tree_room(&self, frame: u64) -> (u64, Vec<u64>) {
        let variant = self.shape.variant;
        let orders = 0..variant.highest_order() + 1;
        let code = self.refused_frame(frame);
        if code != 0 {
            return (code, orders.map(|_| 0).collect());
        }
        let counts = self.counts(self.tree(frame));
        let at_order = |order: u64| {
            if order < variant.huge_order {
                counts.iter().map(|count| count >> order).sum()
            } else if order <= self.shape.top_order() {
                let groups = counts.chunks(1 << (order - variant.huge_order));
                let free = |group: &&[u64]| group.iter().all(|count| *count == variant.huge_frames());
                groups.filter(free).count() as u64
            } else {
                0
            }
        };
        (0, orders.map(at_order).collect())
    }

    /// Code; where the part begins and its length. "Hands back the tree's own run of entries, T long."
    pub fn tree_run(&self, frame: u64) -> (u64, [u64; 2]) {
        match self.refused_frame(frame) {
            0 => (0, [self.tree(frame).start, self.shape.t]),
            code => (code, [0; 2]),
        }
    }
}
