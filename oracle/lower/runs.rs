//! Runs of the kernel's calls and its staff's on one state, consistent or damaged. All of it follows from the
//! seed.

use crate::lower::calls::{Call, STAFF, What};
use crate::lower::edges::odd;
use crate::lower::states::{consistent, damage};
use crate::model::numbers::Shape;
use crate::shared::random::Random;
use crate::shared::room::{Outcome, Room};

/// A run of calls on one state, and what it has a mind to.
pub struct Run {
    plain: Call,
    orders: Vec<u64>,
    /// Of eight calls, how many are gets.
    gets: u64,
    /// Huge frames that it comes back to.
    places: Vec<u64>,
    /// The blocks that it got and has not put back.
    held: Vec<(u64, u64)>,
    /// Whether its state is consistent, and so stays it.
    pub consistent: bool,
}

impl Run {
    fn new(shape: Shape, random: &mut Random) -> Run {
        let (huge, top) = (shape.variant.huge_order, shape.top_order());
        let one = random.below(top + 1);
        let orders = match random.below(8) {
            0 => one..one + 1,
            1 => 0..7,
            2 => 7..huge,
            3 => huge..top + 1,
            _ => 0..top + 1,
        };
        Run {
            plain: Call::lending(shape, random.below(2), random.below(2)),
            orders: orders.collect(),
            gets: random.one_of(&[2, 4, 6]),
            places: (0..3).map(|_| random.below(shape.present())).collect(),
            held: Vec::new(),
            consistent: true,
        }
    }

    /// A run on a consistent state.
    pub fn on_consistent(shape: Shape, random: &mut Random) -> (Room, Run) {
        let run = Run::new(shape, random);
        (consistent(shape, random), run)
    }

    /// A run on a state of its own, consistent or, every other time, damaged.
    pub fn on_state(shape: Shape, random: &mut Random) -> (Room, Run) {
        let (mut room, mut run) = Run::on_consistent(shape, random);
        if random.below(2) == 0 {
            run.consistent = false;
            let last = shape.present() - 1;
            run.places.extend(damage(&mut room, shape, random).into_iter().map(|huge| huge.min(last)));
        }
        (room, run)
    }

    /// A run on rows and entries that are anything, which is to begin with the call handed back: a start.
    pub fn from_start(shape: Shape, start: What, random: &mut Random) -> (Room, Run, Call) {
        let run = Run::new(shape, random);
        let start = Call { what: start, ..run.plain };
        (Room::new(shape.needed(), random), run, start)
    }

    /// All calls at each order, which `make` makes: a get, put back, and those on one block, twice or where it
    /// is not aligned. From one start or the other, each is done and refused with 7, or says yes and no.
    pub fn tour(&self, random: &mut Random, mut make: impl FnMut(Call) -> Outcome) {
        for order in 0..self.plain.shape.top_order() + 1 {
            let got = make(self.call(What::Get, order, random));
            if got.code == 0 {
                make(Call { what: What::Put, at: got.numbers[0], order, ..self.plain });
            }
            let block = self.call(What::IsFree, order, random);
            for what in [What::IsFree, What::GetAt, What::GetAt, What::IsFree, What::Put, What::Put] {
                make(Call { what, ..block });
            }
            for what in [What::IsFree, What::GetAt, What::Put] {
                make(Call { what, at: 1, ..block });
            }
        }
    }

    /// The next call: one time in 32 anything else than plain, and rarely a start.
    pub fn next(&mut self, random: &mut Random) -> Call {
        match random.below(256) {
            0 => Call { what: random.one_of(&[What::FreeAll, What::ReserveAll]), ..self.plain },
            1..9 => {
                let call = self.plain(random);
                odd(call, random)
            }
            _ => self.plain(random),
        }
    }

    /// Takes note of what the call got.
    pub fn saw(&mut self, call: &Call, outcome: &Outcome) {
        match call.what {
            What::Get | What::GetAt if outcome.code == 0 => self.held.push((outcome.numbers[0], call.order)),
            What::FreeAll | What::ReserveAll => self.held.clear(),
            _ => {}
        }
    }

    /// A call of the staff's: one time in 32 anything else than plain.
    pub fn staff(&self, random: &mut Random) -> Call {
        let what = random.one_of(&STAFF);
        let shape = self.plain.shape;
        let any = random.below(shape.variant.highest_order() + 2);
        let order = random.one_of(&[0, shape.variant.huge_order, shape.top_order(), any]);
        let call = Call { order, ..self.call(What::StatsAt, 0, random) }.to(what);
        if random.below(32) == 0 { odd(call, random) } else { call }
    }

    fn plain(&mut self, random: &mut Random) -> Call {
        let order = random.one_of(&self.orders);
        if random.below(8) < self.gets {
            let what = random.one_of(&[What::Get, What::Get, What::Get, What::GetAt]);
            return self.call(what, order, random);
        }
        if random.below(3) == 0 {
            return self.call(What::IsFree, order, random);
        }
        if self.held.is_empty() || random.below(4) == 0 {
            return self.call(What::Put, order, random);
        }
        let (frame, order) = self.held.swap_remove(random.below(self.held.len() as u64) as usize);
        // Whole, or a part of it.
        let part = random.below(order + 1);
        let (at, order) = match random.below(4) {
            0 => (frame + (random.below(1 << (order - part)) << part), part),
            _ => (frame, order),
        };
        Call { what: What::Put, at, order, ..self.plain }
    }

    /// A call with a row or aligned frame below N: any, among the last, or in a place that it comes back to.
    fn call(&self, what: What, order: u64, random: &mut Random) -> Call {
        let Shape { variant, n, .. } = self.plain.shape;
        let frame = match random.below(8) {
            0..2 => random.below(n),
            2 => n - 1,
            3 => n.saturating_sub(1 << order),
            4 => (n - 1).saturating_sub(random.below(2 * variant.huge_frames())),
            _ => {
                let huge = random.one_of(&self.places);
                frame_of(self.plain.shape, huge, random)
            }
        };
        let at = if what == What::Get { frame / 64 } else { frame >> order << order };
        Call { what, at, order, ..self.plain }
    }
}

/// Gets, gets with a frame and puts of each order: from a row or of a block by chance, and of the first and last
/// block.
pub fn requests(shape: Shape, random: &mut Random) -> Vec<Call> {
    let plain = Call::lending(shape, 0, 0);
    let mut calls = Vec::new();
    for order in 0..shape.top_order() + 1 {
        let blocks = shape.n >> order;
        let at = random.below(shape.n) / 64;
        calls.push(Call { what: What::Get, at, order, ..plain });
        for what in [What::GetAt, What::Put] {
            let some = random.below(blocks.max(1));
            let mut places = vec![some, random.one_of(&[0, blocks.saturating_sub(1)])];
            places.dedup();
            calls.extend(places.into_iter().map(|place| Call { what, at: place << order, order, ..plain }));
        }
    }
    calls
}

/// Gets from each row of a huge frame that begins below N, at each order above 6 and below that of the huge frame.
pub fn from_each_row(shape: Shape, huge: u64) -> impl Iterator<Item = Call> {
    let (plain, rows) = (Call::lending(shape, 0, 0), shape.variant.huge_rows());
    let below_n = (rows * huge..rows * huge + rows).filter(move |row| 64 * row < shape.n);
    below_n.flat_map(move |at| {
        (7..shape.variant.huge_order).map(move |order| Call { what: What::Get, at, order, ..plain })
    })
}

/// A get from a frame's row, and a get and a put of its block, at an order below that of a huge frame and at the top
/// order.
pub fn about(shape: Shape, frame: u64, random: &mut Random) -> Vec<Call> {
    let plain = Call::lending(shape, 0, 0);
    let orders = [random.below(shape.variant.huge_order), shape.top_order()];
    let of = |order: u64| {
        let block = frame >> order << order;
        let at = [(What::Get, frame / 64), (What::GetAt, block), (What::Put, block)];
        at.map(|(what, at)| Call { what, at, order, ..plain })
    };
    orders.into_iter().flat_map(of).collect()
}

/// The staff's calls about one huge frame, or where that is absent about its tree.
pub fn staff(shape: Shape, huge: u64, random: &mut Random) -> Vec<Call> {
    let at = frame_of(shape, huge, random);
    let call = Call { at, ..Call::lending(shape, 0, 0) };
    let any = random.below(shape.variant.highest_order() + 2);
    let orders = [shape.variant.huge_order, shape.top_order(), any];
    let stats_at = orders.map(|order| Call { order, ..call }.to(What::StatsAt));
    STAFF.map(|what| call.to(what)).into_iter().chain(stats_at).collect()
}

/// A frame of a huge frame, or the last one below N.
pub fn frame_of(shape: Shape, huge: u64, random: &mut Random) -> u64 {
    let frames = shape.variant.huge_frames();
    (frames * huge + random.below(frames)).min(shape.n - 1)
}
