//! What the comparison of `trace` came by, each of which it must have met.

use crate::lower::calls::{CALLS, What};
use crate::model::numbers::TREES;
use crate::shared::demand::demand;
use crate::trace::expected::{Expected, is_start};
use crate::trace::spoils::SPOILS;

#[derive(Default)]
pub struct Tally {
    /// For each call and code.
    codes: [[u64; 9]; CALLS],
    /// Starts done with each tree size, by its logarithm.
    starts: [u64; TREES.len()],
    /// Bad lines, by their spoil; the last are those without one.
    bad: [u64; SPOILS.len() + 1],
    /// Runs that ended with an unended line: a good one, and a bad one.
    unended: [u64; 2],
    /// Those that the Rust answered too.
    both: u64,
    /// Gets that were done and whose searches the Rust begins elsewhere.
    apart: u64,
}

impl Tally {
    pub fn add(&mut self, expected: &Expected, spoil: Option<usize>, unended: bool) {
        self.unended[expected.call.is_none() as usize] += unended as u64;
        let Some((call, outcome, both)) = &expected.call else {
            self.bad[spoil.unwrap_or(SPOILS.len())] += 1;
            return;
        };
        self.codes[call.what as usize][outcome.code as usize] += 1;
        self.both += *both as u64;
        self.apart += (call.apart() && outcome.code == 0) as u64;
        if is_start(call) && outcome.code == 0 {
            self.starts[call.shape.t.ilog2() as usize] += 1;
        }
    }

    /// All lines; the bad ones; those refused with 1 to 6; and those that the Rust answered too.
    pub fn figures(&self) -> [u64; 4] {
        let bad = self.bad.iter().sum::<u64>();
        let refused = self.codes.iter().map(|codes| codes[1..7].iter().sum::<u64>()).sum();
        [bad + self.codes.as_flattened().iter().sum::<u64>(), bad, refused, self.both]
    }

    /// Ends the run unless each letter was answered with each code that it can have, and the rest above met.
    /// The program's own states are consistent, so nothing is refused with 8.
    pub fn demand_all(&self) {
        let codes: [(What, &[usize]); 10] = [
            (What::FreeAll, &[0, 1, 2, 3]),
            (What::ReserveAll, &[0, 1, 2, 3]),
            (What::Get, &[0, 1, 4, 5, 7]),
            (What::GetAt, &[0, 1, 4, 5, 6, 7]),
            (What::Put, &[0, 1, 4, 5, 6, 7]),
            (What::IsFree, &[0, 1, 4, 5, 6]),
            (What::Stats, &[0, 1]),
            (What::StatsAt, &[0, 1, 5]),
            (What::Audit, &[0, 1]),
            (What::Recover, &[0, 1]),
        ];
        for (what, codes) in codes {
            let counts = self.codes[what as usize];
            codes.iter().for_each(|code| met(counts[*code], &format!("{what:?}, code {code}")));
        }
        TREES.iter().zip(self.starts).for_each(|(t, count)| met(count, &format!("a start with T {t}")));
        self.bad.iter().zip(SPOILS).for_each(|(count, (name, _))| met(*count, name));
        met(self.apart, "a get from outside the first group");
        met(self.unended[0], "a last good line that has no end");
        met(self.unended[1], "a last bad line that has no end");
    }
}

fn met(count: u64, name: &str) {
    demand("trace", count, name);
}
