//! What a run has borrowed, frame by frame: for the promise that a run which gives back exactly what it took
//! leaves no trace.

use crate::lower::calls::{Call, What};
use crate::model::numbers::MARK;
use crate::shared::comparison::Call as _;
use crate::shared::random::{Random, mask};
use crate::shared::room::{Outcome, Room};

pub struct Ledger {
    /// A call's numbers, with no more lent than is needed.
    plain: Call,
    /// The state that the run is to come back to.
    pub start: Room,
    /// The frames that were held there, and those got since and not put back: a bit each.
    held: Vec<u64>,
    mine: Vec<u64>,
    /// All frames that were got.
    pub borrowed: u64,
}

impl Ledger {
    pub fn new(plain: Call, start: &Room) -> Ledger {
        let mut copy = start.clone();
        let (rows, entries) = copy.lent(plain.rows, plain.entries);
        let huge_rows = plain.shape.variant.huge_rows() as usize;
        let marked = |row: usize| entries[row / huge_rows] == MARK;
        let held = (0..rows.len()).map(|row| if marked(row) { u64::MAX } else { rows[row] });
        Ledger { plain, held: held.collect(), mine: vec![0; rows.len()], start: start.clone(), borrowed: 0 }
    }

    /// Whether the call keeps to what was borrowed: it gives back nothing else, and starts nothing anew. One
    /// that is refused may be any.
    pub fn allows(&self, call: &Call, now: &Room) -> bool {
        let highest = call.shape.variant.highest_order();
        let kept = match call.what {
            What::FreeAll | What::ReserveAll => false,
            What::Put => call.order <= highest && self.all_mine(call.at, call.order),
            _ => true,
        };
        kept || call.by_model(now).code != 0
    }

    /// Takes note of what the call got or put back. What it got must have been nobody's.
    pub fn saw(&mut self, call: &Call, outcome: &Outcome) {
        match call.what {
            What::Get | What::GetAt if outcome.code == 0 => {
                let frame = outcome.numbers[0];
                for (row, bits) in rows(frame, call.order) {
                    let taken = (self.held[row] | self.mine[row]) & bits;
                    assert!(taken == 0, "{call}: a frame was handed out that is held");
                    self.mine[row] |= bits;
                }
                self.borrowed += 1 << call.order;
            }
            What::Put if outcome.code == 0 => {
                rows(call.at, call.order).for_each(|(row, bits)| self.mine[row] &= !bits);
            }
            _ => {}
        }
    }

    /// Gives all of it back, in any order and in any blocks that are accepted. `make` makes a call.
    pub fn give_back(&mut self, random: &mut Random, mut make: impl FnMut(Call) -> Outcome) {
        for piece in 0.. {
            let Some(frame) = self.any(random) else { return };
            let fits = |order: &u64| self.all_mine(frame >> order << order, *order);
            let most = (0..self.plain.shape.top_order() + 1).take_while(fits).last().unwrap();
            // Mostly the largest blocks, and in the end only these: else it would take long.
            let some = if piece < 64 { random.below(most + 1) } else { most };
            let highest = random.one_of(&[most, some]);
            // A huge frame that was not got whole, or was put in part, is not put whole.
            for order in (0..highest + 1).rev() {
                let call = Call { what: What::Put, at: frame >> order << order, order, ..self.plain };
                let outcome = make(call);
                self.saw(&call, &outcome);
                if outcome.code == 0 {
                    break;
                }
                let huge = order >= self.plain.shape.variant.huge_order;
                assert!(outcome.code == 7 && huge, "{call}: not taken back");
            }
        }
    }

    /// Any frame that is to be given back.
    fn any(&self, random: &mut Random) -> Option<u64> {
        let (count, from) = (self.mine.len(), random.below(self.mine.len() as u64) as usize);
        let row = (0..count).map(|row| (row + from) % count).find(|row| self.mine[*row] != 0)?;
        let bits: Vec<u64> = (0..64).filter(|bit| self.mine[row] >> bit & 1 == 1).collect();
        Some(64 * row as u64 + random.one_of(&bits))
    }

    fn all_mine(&self, frame: u64, order: u64) -> bool {
        let mut rows = rows(frame, order);
        rows.all(|(row, bits)| self.mine.get(row).is_some_and(|mine| mine & bits == bits))
    }
}

/// The rows of a block, and its bits in them.
fn rows(frame: u64, order: u64) -> impl Iterator<Item = (usize, u64)> {
    let bits = if order < 6 { mask(frame % 64, order) } else { u64::MAX };
    (0..(1u64 << order).div_ceil(64)).map(move |row| ((frame / 64 + row) as usize, bits))
}
