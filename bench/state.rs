//! Consistent states of whole trees, flat, as ours has them.

#[allow(dead_code)]
#[path = "../oracle/model"]
mod model {
    pub mod blocks;
    pub mod numbers;
}

use crate::rows::Random;
use model::blocks::{hold, zeros};
use model::numbers::Variant;

pub use model::numbers::MARK;

/// That of the default page size.
const VARIANT: Variant = Variant { huge_order: 9 };
pub const HUGE_ORDER: usize = VARIANT.huge_order as usize;
pub const HUGE_FRAMES: usize = VARIANT.huge_frames() as usize;
pub const HUGE_ROWS: usize = VARIANT.huge_rows() as usize;

#[derive(Clone, PartialEq)]
pub struct State {
    pub n: usize,
    pub t: usize,
    pub rows: Vec<u64>,
    pub entries: Vec<u16>,
}

impl State {
    pub fn fresh(t: usize, trees: usize) -> State {
        let huge = trees * t;
        let (rows, entries) = (vec![0; HUGE_ROWS * huge], vec![HUGE_FRAMES as u16; huge]);
        State { n: HUGE_FRAMES * huge, t, rows, entries }
    }

    pub fn count(&mut self) {
        for (entry, rows) in self.entries.iter_mut().zip(self.rows.chunks(HUGE_ROWS)) {
            if *entry != MARK {
                *entry = zeros(rows) as u16;
            }
        }
    }

    /// By its rows; each entry counts what is clear.
    pub fn of_rows(t: usize, trees: usize, row: impl FnMut() -> u64) -> State {
        let mut state = State::fresh(t, trees);
        state.rows.fill_with(row);
        state.count();
        state
    }

    /// Full but for one frame in each huge frame.
    pub fn one_free(t: usize, trees: usize, random: &mut Random) -> State {
        let mut state = State::of_rows(t, trees, || u64::MAX);
        for rows in state.rows.chunks_mut(HUGE_ROWS) {
            rows[random.below(HUGE_ROWS as u64) as usize] ^= 1 << random.below(64);
        }
        state.count();
        state
    }

    /// Half full: of eight trees one is free and one held, and six are split.
    pub fn half(t: usize, trees: usize, random: &mut Random) -> State {
        let mut state = State::fresh(t, trees);
        let tree_frames = HUGE_FRAMES * t;
        (0..trees).for_each(|tree| state.treat(tree_frames * tree, tree_frames, tree as u64 % 8, random));
        state.count();
        state
    }

    /// Leaves a block free (0), holds it (1) or splits it, and treats its halves by chance.
    fn treat(&mut self, frame: usize, frames: usize, treatment: u64, random: &mut Random) {
        match treatment {
            0 => {}
            1 if frames >= HUGE_FRAMES => {
                self.entries[frame / HUGE_FRAMES..][..frames / HUGE_FRAMES].fill(MARK);
            }
            1 => (frame..frame + frames).for_each(|frame| hold(&mut self.rows, frame as u64, true)),
            _ => {
                let half = frames / 2;
                let treatments = if half == 1 { 2 } else { 8 };
                self.treat(frame, half, random.below(treatments), random);
                self.treat(frame + half, half, random.below(treatments), random);
            }
        }
    }

    pub fn copy_from(&mut self, other: &State) {
        self.rows.copy_from_slice(&other.rows);
        self.entries.copy_from_slice(&other.entries);
    }
}
