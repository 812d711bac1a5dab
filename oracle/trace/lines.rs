//! The lines that `trace` is fed: mostly good ones. All of it follows from the seed.

use crate::lower::calls::{Call, What};
use crate::lower::line::line;
use crate::lower::runs::Run;
use crate::lower::states::{frames, named_frames};
use crate::model::numbers::{LARGEST_TREE, MOST, Shape, TREES, Variant};
use crate::shared::random::Random;
use crate::shared::room::Outcome;
use crate::trace::expected::{ROWS, is_start};
use crate::trace::spoils::{SPOILS, with_field};

/// The most frames that the program has rows for.
const ROOM: u64 = 64 * ROWS;

pub struct Lines {
    variant: Variant,
    run: Run,
    /// Whether a start was made, and the number of the next one's tree size.
    started: bool,
    next_tree: usize,
}

impl Lines {
    /// The calls before any start are as if on 1,000 frames.
    pub fn new(variant: Variant, random: &mut Random) -> Lines {
        let run = Run::from_start(Shape { variant, n: 1000, t: 2 }, What::FreeAll, random).1;
        Lines { variant, run, started: false, next_tree: random.below(TREES.len() as u64) as usize }
    }

    /// The next line, and the number of its spoil, if it has one.
    pub fn next(&mut self, random: &mut Random) -> (Vec<u8>, Option<usize>) {
        let good = self.good(random);
        match random.below(32) {
            0..4 => {
                let spoil = random.below(SPOILS.len() as u64) as usize;
                (SPOILS[spoil].1(&good, random), Some(spoil))
            }
            // The highest number there is.
            4 => (with_field(&good, "18446744073709551615", random), None),
            _ => (good.into(), None),
        }
    }

    /// A line of a good form, whose call may be refused.
    fn good(&mut self, random: &mut Random) -> String {
        loop {
            let call = match random.below(64) {
                0 => self.start(random),
                // Soon after the first lines, which have no N.
                1..4 if !self.started => self.start(random),
                1 => refused_start(self.variant, random),
                2..22 => self.run.staff(random),
                _ => self.run.next(random),
            };
            let call = if random.below(8) == 0 { beside(call, random) } else { call };
            let Some(text) = line(&call) else { continue };
            let short = is_start(&call) && call.shape.t == 4 && random.below(2) == 0;
            return if short { text.replacen(" 4 ", " ", 1) } else { text };
        }
    }

    /// A start that is done, with each tree size in turn.
    fn start(&mut self, random: &mut Random) -> Call {
        let t = TREES[self.next_tree % TREES.len()];
        self.started = true;
        self.next_tree += 1;
        let n = match random.below(4) {
            0 => ROOM - random.below(3),
            1 => 1 + random.below(ROOM),
            2 => random.one_of(&named_frames(self.variant, t)),
            _ => frames(self.variant, t, random),
        };
        let what = random.one_of(&[What::FreeAll, What::ReserveAll]);
        Run::from_start(Shape { variant: self.variant, n: n.min(ROOM), t }, what, random).2
    }

    /// Takes note of what a line did: after a start that is done, the calls are on its frames.
    pub fn saw(&mut self, call: &Call, outcome: &Outcome, random: &mut Random) {
        if is_start(call) && outcome.code == 0 {
            self.run = Run::from_start(call.shape, call.what, random).1;
        } else {
            self.run.saw(call, outcome);
        }
    }
}

/// The call with a row or frame and an order beside its own.
fn beside(call: Call, random: &mut Random) -> Call {
    let at = random.one_of(&[call.at, call.at.wrapping_add(1), call.at.wrapping_add(64), call.shape.n]);
    let any = random.below(call.shape.variant.highest_order() + 3);
    let order = random.one_of(&[call.order, call.order, call.order.wrapping_add(1), any]);
    Call { at, order, ..call }.to(call.what)
}

/// A start with numbers for which it is refused, mostly.
fn refused_start(variant: Variant, random: &mut Random) -> Call {
    let (tree, any) = (random.one_of(&TREES), random.word() >> random.below(64));
    let what = random.one_of(&[What::FreeAll, What::ReserveAll]);
    let n = random.one_of(&[0, ROOM + 1, ROOM + 2, MOST - 1, MOST, MOST + 1, 1 << 32, u64::MAX, any, 1000]);
    let (above, twice) = (LARGEST_TREE + 1, 2 * LARGEST_TREE);
    let t = random.one_of(&[tree, tree, tree, tree, 0, 3, above, twice, 1 << 32, u64::MAX, any]);
    Run::from_start(Shape { variant, n: 1000, t: tree }, what, random).2.with(n, t)
}
