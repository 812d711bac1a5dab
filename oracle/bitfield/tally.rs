//! What the comparison of bitfield calls came by: how often each was answered with each code, and where those
//! searches ended that the Rust begins elsewhere.

use crate::bitfield::calls::{Call, What};
use crate::model::numbers::Variant;
use crate::shared::comparison;
use crate::shared::demand::demand;
use crate::shared::reach::Reach;
use crate::shared::room::{Outcome, Room};

const CALLS: usize = 1 + What::CountZeros as usize - What::Search as usize;

/// One count for each call, order (the last for all above a bitfield's, 0 for a call without one), flag (of
/// is_zero the answer, else the argument) and code.
pub struct Tally {
    variant: Variant,
    counts: Vec<Vec<[[u64; 8]; 2]>>,
    /// Searches that the Rust begins elsewhere, for each order and Reach; the last are those that found no block.
    apart: Vec<[u64; 4]>,
}

fn number(what: What) -> usize {
    what as usize - What::Search as usize
}

impl comparison::Tally<Call> for Tally {
    fn add(&mut self, call: &Call, _: &mut Room, answer: &Outcome, _: bool) {
        let order = if call.what == What::Set { 0 } else { call.b.min(self.above()) };
        let flag = if call.what == What::IsZero { answer.numbers[0] != 0 } else { call.flag != 0 };
        self.counts[number(call.what)][order as usize][flag as usize][answer.code as usize] += 1;
        match answer.code {
            0 if call.apart() => {
                let reach = Reach::of(self.variant, call.a, order, answer.numbers[0]);
                self.apart[order as usize][reach as usize] += 1;
            }
            7 if call.apart() => self.apart[order as usize][3] += 1,
            _ => {}
        }
    }
}

impl Tally {
    pub fn new(variant: Variant) -> Tally {
        let orders = variant.huge_order as usize + 2;
        Tally { variant, counts: vec![vec![[[0; 8]; 2]; orders]; CALLS], apart: vec![[0; 4]; orders] }
    }

    /// The place of all orders above a bitfield's.
    fn above(&self) -> u64 {
        self.variant.huge_order + 1
    }

    /// One-row searches, calls on rows, those of both that were refused with 3 to 6, and searches of rows that the
    /// Rust begins elsewhere.
    pub fn figures(&self) -> [u64; 4] {
        let mut figures = [0, 0, 0, self.apart.as_flattened().iter().sum()];
        for (call, orders) in self.counts.iter().enumerate() {
            for codes in orders.iter().flatten() {
                figures[(call != number(What::Search)) as usize] += codes.iter().sum::<u64>();
                figures[2] += codes[3..7].iter().sum::<u64>();
            }
        }
        figures
    }

    /// Ends the run unless each call was answered with each code that it can have, at each order and with
    /// either flag.
    pub fn demand_all(&self) {
        let highest = self.variant.huge_order;
        for order in 0..=self.above() {
            self.demand(What::Search, order, false, if order <= 6 { &[0, 7] } else { &[4] });
            let search: &[usize] = if order <= highest { &[0, 3, 7] } else { &[3, 4] };
            self.demand(What::FirstZeros, order, false, search);
            self.demand(What::SetFirstZeros, order, false, search);
            let look: &[usize] = if order > highest {
                &[3, 4]
            } else if order == 0 || order == highest {
                // Order 0 is aligned anywhere, and the only place of the highest is 0.
                &[0, 3, 5]
            } else {
                &[0, 3, 5, 6]
            };
            self.demand(What::IsZero, order, false, look);
            self.demand(What::Toggle, order, false, look);
            self.demand(What::Toggle, order, true, look);
        }
        for order in 0..=highest {
            self.demand(What::IsZero, order, true, &[0]);
            self.demand(What::Toggle, order, false, &[7]);
            self.demand(What::Toggle, order, true, &[7]);
        }
        for value in [false, true] {
            self.demand(What::Set, 0, value, &[0, 3, 5]);
            self.demand(What::Fill, 0, value, &[0, 3]);
        }
        self.demand(What::CountZeros, 0, false, &[0, 3]);
        for order in 7..highest {
            let [origin, above, below, none] = self.apart[order as usize];
            let met = |count, what| {
                demand("bitfield", count, format!("order {order}, outside the first group, {what}"))
            };
            met(origin, "done where it begins");
            // Of two groups none is above the second.
            if order + 1 < highest {
                met(above, "done above");
            }
            met(below, "done below");
            met(none, "no block");
        }
    }

    fn demand(&self, what: What, order: u64, flag: bool, codes: &[usize]) {
        let counts = &self.counts[number(what)][order as usize][flag as usize];
        for code in codes {
            let name = format!("{what:?}, order {order}, flag {flag}, code {code}");
            demand("bitfield", counts[*code], name);
        }
    }
}
