//! What the comparison of the lower level's calls came by: how often each was answered with each code, and in what
//! way.

use crate::lower::calls::{ALL, CALLS, Call, STAFF, WHY, What};
use crate::model::numbers::{MOST, TREES, Variant};
use crate::shared::comparison;
use crate::shared::demand::demand;
use crate::shared::reach::Reach;
use crate::shared::room::{Outcome, Room};

/// Ways to answer, at most.
const WAYS: usize = 7;

/// One count for each way to answer and each code.
type Ways = [[u64; 9]; WAYS];

pub struct Tally {
    variant: Variant,
    /// For each call and order; the last is for all above the top order, and for calls without a tree size,
    /// which have no top order.
    orders: Vec<Vec<Ways>>,
    /// For each call and logarithm of the tree size; not for refusals 1 and 2.
    trees: [[Ways; TREES.len()]; CALLS],
    /// Those that the Rust answered too.
    both: u64,
}

/// The way in which a call is answered: `is_free` no or yes; `stats` without or with a free tree; `stats_at`
/// of a frame not free or free, a huge frame not free or free, a tree not free or free, or nothing; the
/// reason of an audit; `recover` of nothing, entries, bitfields or both, or the reason that it was refused
/// for; room without or with a free tree; tree run of the first tree or another; the reason for which a get or a
/// put would be turned down; of a get, that of `way_of_get`. All else is 0.
fn way(call: &Call, before: &mut Room, answer: &Outcome) -> usize {
    let Outcome { code, numbers, .. } = answer;
    let above_0 = |number: usize| (numbers[number] > 0) as usize;
    match call.what {
        What::Recover if *code == 8 => call.lends(before).past_mending() as usize,
        What::Get => way_of_get(call, answer),
        _ if *code != 0 => 0,
        What::IsFree | What::TreeRun => above_0(0),
        What::Stats => above_0(2),
        What::StatsAt => match call.order {
            0 => above_0(0),
            order if order == call.shape.variant.huge_order => 2 + above_0(1),
            order if order == call.shape.top_order() => 4 + above_0(2),
            _ => 6,
        },
        What::Audit => numbers[1] as usize,
        What::Recover => above_0(0) + 2 * above_0(1),
        What::TreeRoom => above_0(call.shape.top_order() as usize),
        What::WhyGet | What::WhyGetAt | What::WhyPut => numbers[0] as usize,
        _ => 0,
    }
}

/// Of a get past the refusals 1 to 6 whose searches the Rust begins elsewhere: refused with 7 or 8 it is 1; done
/// in the start row's huge frame 1, 2 or 3, by its Reach; and in another 4, 5 or 6. Of all other gets it is 0.
fn way_of_get(call: &Call, answer: &Outcome) -> usize {
    let Outcome { code, numbers, .. } = answer;
    match code {
        _ if !call.apart() => 0,
        0 => {
            let variant = call.shape.variant;
            let reach = Reach::of(variant, call.at, call.order, numbers[0] % variant.huge_frames());
            1 + reach as usize + 3 * (numbers[1] > 1) as usize
        }
        7 | 8 => 1,
        _ => 0,
    }
}

impl comparison::Tally<Call> for Tally {
    fn add(&mut self, call: &Call, before: &mut Room, answer: &Outcome, both: bool) {
        let (what, way, code) = (call.what as usize, way(call, before, answer), answer.code as usize);
        let above = self.above();
        self.both += both as u64;
        if code == 1 || code == 2 {
            self.orders[what][above][way][code] += 1;
            return;
        }
        let order = if call.order > call.shape.top_order() { above } else { call.order as usize };
        self.orders[what][order][way][code] += 1;
        self.trees[what][call.shape.t.ilog2() as usize][way][code] += 1;
    }
}

impl Tally {
    pub fn new(variant: Variant) -> Tally {
        let orders = vec![Ways::default(); variant.highest_order() as usize + 2];
        Tally { variant, orders: vec![orders; CALLS], trees: Default::default(), both: 0 }
    }

    /// The place of all orders above the top order.
    fn above(&self) -> usize {
        self.variant.highest_order() as usize + 1
    }

    /// All calls; the staff's among them; those that say why; those that the Rust answered too; and those refused
    /// with 1 to 6 or 8.
    pub fn figures(&self) -> [u64; 5] {
        let codes = |calls: &[What]| -> [u64; 9] {
            let ways = calls.iter().flat_map(|what| self.orders[*what as usize].as_flattened());
            ways.fold([0; 9], |sum, codes| std::array::from_fn(|code| sum[code] + codes[code]))
        };
        let all = codes(&[&ALL[..], &WHY].concat());
        let calls = all.iter().sum();
        let [staff, whys] = [&STAFF[..], &WHY].map(|calls| codes(calls).iter().sum());
        [calls, staff, whys, self.both, calls - all[0] - all[7]]
    }

    /// The gets past the refusals 1 to 6 whose searches the Rust begins elsewhere; those of them that were done,
    /// by their Reach; and those refused with 7.
    pub fn apart(&self) -> [u64; 5] {
        let mut figures = [0; 5];
        for ways in &self.orders[What::Get as usize] {
            for (way, codes) in ways.iter().enumerate().skip(1) {
                figures[0] += codes.iter().sum::<u64>();
                figures[1 + (way - 1) % 3] += codes[0];
                figures[4] += codes[7];
            }
        }
        figures
    }

    /// Ends the run unless each call was answered with each code that it can have, at each order and tree
    /// size.
    pub fn demand_all(&self) {
        for start in [What::FreeAll, What::ReserveAll] {
            self.demand(start, 0, 0, &[0, 3]);
            self.demand_trees(start, &[0, 3]);
        }
        let on_frames = [What::Get, What::GetAt, What::Put, What::IsFree];
        for order in 0..self.above() {
            on_frames.iter().for_each(|what| self.demand(*what, order, 0, &[0, 5]));
            on_frames[..3].iter().for_each(|what| self.demand(*what, order, 0, &[7]));
            // Order 0 is aligned anywhere, and as many frames as there can be lie at 0 alone.
            if order > 0 && 1 << order < MOST {
                on_frames[1..].iter().for_each(|what| self.demand(*what, order, 0, &[6]));
            }
            self.demand(What::IsFree, order, 1, &[0]);
            self.demand(What::Get, order, 0, &[8]);
            if (order as u64) < self.variant.huge_order {
                self.demand(What::GetAt, order, 0, &[8]);
                self.demand(What::Put, order, 0, &[8]);
            }
        }
        on_frames.iter().for_each(|what| self.demand(*what, self.above(), 0, &[4]));
        ALL.iter().chain(&WHY).for_each(|what| self.demand(*what, self.above(), 0, &[1, 2]));
        self.demand_trees(What::Get, &[0, 3, 4, 5, 7, 8]);
        self.demand_trees(What::GetAt, &[0, 3, 4, 5, 6, 7, 8]);
        self.demand_trees(What::Put, &[0, 3, 4, 5, 6, 7, 8]);
        self.demand_trees(What::IsFree, &[0, 3, 4, 5, 6]);
        self.demand_apart();
        self.demand_staff();
        self.demand_why();
    }

    /// The same of the gets whose searches the Rust begins elsewhere: each way. Of two groups none is above the
    /// second, and in trees of one huge frame there is no other.
    fn demand_apart(&self) {
        let huge_order = self.variant.huge_order as usize;
        for order in 7..huge_order {
            let ways = (1..7).filter(|way| order + 1 < huge_order || ![2, 5].contains(way));
            ways.for_each(|way| self.demand(What::Get, order, way, &[0]));
            self.demand(What::Get, order, 1, &[7, 8]);
        }
        for log in 0..TREES.len() {
            (1..if log == 0 { 4 } else { 7 }).for_each(|way| self.demand_tree(What::Get, log, way, &[0]));
            self.demand_tree(What::Get, log, 1, &[7, 8]);
        }
    }

    /// The same of the staff's calls: each way to answer, at each tree size. In trees of one huge frame no
    /// entry is absent, and the huge order is the top order; a tree of as many frames as there can be is the
    /// only one.
    fn demand_staff(&self) {
        for log in 0..TREES.len() {
            let demand = |what, way, codes| self.demand_tree(what, log, way, codes);
            let has = |way: &usize, absent: &[usize]| log > 0 || !absent.contains(way);
            STAFF.iter().for_each(|what| demand(*what, 0, &[0, 3]));
            [What::StatsAt, What::TreeRoom, What::TreeRun].iter().for_each(|what| demand(*what, 0, &[5]));
            [What::Stats, What::TreeRoom].iter().for_each(|what| demand(*what, 1, &[0]));
            if self.variant.huge_frames() << log < MOST {
                demand(What::TreeRun, 1, &[0]);
            }
            (1..7).filter(|way| has(way, &[4, 5])).for_each(|way| demand(What::StatsAt, way, &[0]));
            (1..6).filter(|way| has(way, &[5])).for_each(|way| demand(What::Audit, way, &[0]));
            (1..4).for_each(|way| demand(What::Recover, way, &[0]));
            [1, 3, 5].iter().filter(|way| has(way, &[5])).for_each(|way| demand(What::Recover, *way, &[8]));
        }
        for order in 0..=self.above() {
            let way = match order as u64 {
                0 => 0,
                order if order == self.variant.huge_order => 2,
                order if order == self.variant.highest_order() => 4,
                _ => 6,
            };
            self.demand(What::StatsAt, order, way, &[0]);
            self.demand(What::StatsAt, order, 0, &[5]);
        }
    }

    /// The same of those that say why: each reason that there can be, and each refusal. At order 0 a free frame
    /// is a block, and at the top order of a tree so many free frames are all of it. In trees of one huge frame it
    /// has as many free frames as its tree.
    fn demand_why(&self) {
        let [get, get_at, put] = WHY;
        let reasons = |log: Option<usize>, order: Option<usize>| {
            let below = |end: u64| order.is_none_or(|order| 0 < order && (order as u64) < end);
            let huge = order.is_none_or(|order| order as u64 >= self.variant.huge_order);
            let spread = log != Some(0) && below(self.variant.huge_order);
            let all = [
                (get, 0, true),
                (get, 1, true),
                (get, 2, spread),
                (get, 3, below(self.variant.highest_order())),
                (get_at, 0, true),
                (get_at, 4, true),
                (put, 0, true),
                (put, 5, true),
                (put, 6, huge),
            ];
            all.into_iter().filter(|(_, _, can)| *can).map(|(what, reason, _)| (what, reason))
        };
        for order in 0..self.above() {
            reasons(None, Some(order)).for_each(|(what, reason)| self.demand(what, order, reason, &[0]));
            WHY.iter().for_each(|what| self.demand(*what, order, 0, &[5, 8]));
            if order > 0 && 1 << order < MOST {
                [get_at, put].iter().for_each(|what| self.demand(*what, order, 0, &[6]));
            }
        }
        WHY.iter().for_each(|what| self.demand(*what, self.above(), 0, &[4]));
        for log in 0..TREES.len() {
            reasons(Some(log), None).for_each(|(what, reason)| self.demand_tree(what, log, reason, &[0]));
            WHY.iter().for_each(|what| self.demand_tree(*what, log, 0, &[3, 4, 5, 8]));
            [get_at, put].iter().for_each(|what| self.demand_tree(*what, log, 0, &[6]));
        }
    }

    fn demand(&self, what: What, order: usize, way: usize, codes: &[usize]) {
        let name = format!("{what:?}, order {order}, way {way}");
        met(&self.orders[what as usize][order][way], codes, &name);
    }

    fn demand_tree(&self, what: What, log: usize, way: usize, codes: &[usize]) {
        let name = format!("{what:?}, T {}, way {way}", TREES[log]);
        met(&self.trees[what as usize][log][way], codes, &name);
    }

    fn demand_trees(&self, what: What, codes: &[usize]) {
        (0..TREES.len()).for_each(|log| self.demand_tree(what, log, 0, codes));
    }
}

fn met(counts: &[u64; 9], codes: &[usize], name: &str) {
    codes.iter().for_each(|code| demand("lower", counts[*code], format!("{name}, code {code}")));
}
