//! Times the calls of two builds of our archive, one before and one after: in one process, on the same states in the
//! same memory, chunk by chunk in turn. Run by bench/pair.
//!
//! Prints lines for ratios.rs: six words (the call, T, the order, the state, the rows of a huge frame that it starts
//! from, whether the answers are the same), then the nanoseconds of one call in each chunk, before and then after.

mod builds;
// Not all of its rows are of use here.
#[allow(dead_code)]
mod rows;
// Nor all of its states.
#[allow(dead_code)]
mod state;
// Nor its lines.
#[allow(dead_code)]
mod turns;

use std::hint::black_box;
use std::sync::LazyLock;

use builds::{Answer, BUILDS, Build};
use rows::{Random, blocks, crowded};
use state::{HUGE_ORDER, HUGE_ROWS, State};

/// The huge frames of a state, and the bitfields of one that has nothing else.
const HUGE: usize = 512;
const BITFIELDS: usize = 128;
/// The calls of a line, each from a start row of its own: too many for a predictor to know them by heart.
const CHUNKS: usize = 8;
const CALLS: usize = 512;
/// The gets that come before their puts, where only the ones or the others are timed.
const BURST: usize = 32;
/// How often each build takes a chunk; the least time counts.
const ROUNDS: usize = 100;
/// A row of which every other frame is free.
const STRIPES: u64 = 0x5555_5555_5555_5555;

/// The nanoseconds of some calls, without those of the clock itself.
fn time(calls: impl FnOnce()) -> u128 {
    static CLOCK: LazyLock<u128> = LazyLock::new(|| (0..1000).map(|_| turns::pass(|| {})).min().unwrap());
    let clock = *CLOCK;
    turns::pass(calls).saturating_sub(clock)
}

/// Calls of one order on a state, from any row, or from those of each huge frame that are in the first group or past
/// it: a group has the rows of a block.
struct Line<'a> {
    call: &'a str,
    order: usize,
    kind: &'a str,
    state: &'a State,
    from: &'a str,
}

impl Line<'_> {
    /// Start rows by chance. Each tree has equally many, so that no crowded one runs out of blocks.
    fn starts(&self, random: &mut Random) -> Vec<usize> {
        let group = block_rows(self.order);
        let rows = match self.from {
            "first group" => 0..group,
            "past it" => group..HUGE_ROWS,
            _ => 0..HUGE_ROWS,
        };
        let t = self.state.t;
        let mut trees: Vec<usize> = (0..self.state.entries.len() / t).collect();
        let mut starts = Vec::new();
        while starts.len() < CHUNKS * CALLS {
            for i in 1..trees.len() {
                trees.swap(i, random.below(i as u64 + 1) as usize);
            }
            for tree in &trees {
                let huge = t * tree + random.below(t as u64) as usize;
                starts.push(HUGE_ROWS * huge + rows.start + random.below(rows.len() as u64) as usize);
            }
        }
        starts
    }

    /// Takes a chunk, and tells every answer but a put's. The nanoseconds are those of one call.
    fn chunk(
        &self,
        build: &Build,
        memory: &mut State,
        starts: &[usize],
        mut tell: impl FnMut(Answer),
    ) -> f64 {
        let (order, mut nanoseconds, mut calls) = (self.order, 0, CALLS);
        match self.call {
            "set_first_zeros" => {
                for starts in starts.chunks(BITFIELDS) {
                    memory.copy_from(self.state);
                    nanoseconds += time(|| {
                        starts.iter().for_each(|row| tell(build.set_first_zeros(memory, *row, order)));
                    });
                }
            }
            "get" | "put" => {
                let (mut gets, mut puts, mut found) = (0, 0, 0);
                for starts in starts.chunks(BURST) {
                    let (mut got, mut done) = ([0; BURST], 0);
                    gets += time(|| {
                        for row in starts {
                            let answer = build.get(memory, *row, order);
                            tell(answer);
                            got[done] = answer.1;
                            done += (answer.0 == 0) as usize;
                        }
                    });
                    puts += time(|| got[..done].iter().for_each(|frame| build.put(memory, *frame, order)));
                    found += done;
                }
                (nanoseconds, calls) = if self.call == "get" { (gets, CALLS) } else { (puts, found) };
            }
            _ => {
                nanoseconds = time(|| {
                    for row in starts {
                        let answer = build.get(memory, *row, order);
                        tell(answer);
                        if answer.0 == 0 {
                            build.put(memory, answer.1, order);
                        }
                    }
                });
            }
        }
        nanoseconds as f64 / calls as f64
    }

    /// The answers of a build, once it is known that all it got was put back.
    fn answers(&self, build: &Build, starts: &[usize]) -> Vec<Answer> {
        let Line { call, order, kind, state, .. } = *self;
        let (mut memory, mut answers) = (state.clone(), Vec::new());
        for starts in starts.chunks(CALLS) {
            self.chunk(build, &mut memory, starts, |answer| answers.push(answer));
        }
        let known = answers.iter().all(|(code, ..)| matches!(code, 0 | 7));
        let found = answers.iter().any(|(code, ..)| *code == 0);
        assert!(known && found != (call == "get refused"), "the codes of {call} {order} on a state {kind}");
        assert!(call == "set_first_zeros" || memory == *state, "what was got was not put back");
        answers
    }

    fn print(&self, random: &mut Random) {
        let (builds, starts) = (black_box(&BUILDS), self.starts(random));
        let [before, after] = builds.each_ref().map(|build| self.answers(build, &starts));
        let answers = if before == after { "same" } else { "differ" };
        let (mut memory, mut least) = (self.state.clone(), [[f64::MAX; CHUNKS]; 2]);
        for round in 0..ROUNDS {
            for (chunk, starts) in starts.chunks(CALLS).enumerate() {
                for build in [round % 2, 1 - round % 2] {
                    let nanoseconds = self.chunk(&builds[build], &mut memory, starts, |_| {});
                    least[build][chunk] = least[build][chunk].min(nanoseconds);
                }
            }
        }
        let Line { call, order, kind, state, from } = self;
        let t = if *call == "set_first_zeros" { String::new() } else { state.t.to_string() };
        print!("{call}\t{t}\t{order}\t{kind}\t{from}\t{answers}");
        least.as_flattened().iter().for_each(|nanoseconds| print!("\t{nanoseconds}"));
        println!();
    }
}

/// How many rows a block has, or is within.
fn block_rows(order: usize) -> usize {
    1 << order.saturating_sub(6)
}

/// Most huge frames are full, some have a few free frames or many; but each tree has some free blocks of the order.
fn crowded_state(t: usize, order: usize, random: &mut Random) -> State {
    let mut state = State::fresh(t, HUGE / t);
    for rows in state.rows.chunks_mut(HUGE_ROWS) {
        match random.below(10) {
            0 => rows.fill(STRIPES),
            1 | 2 => rows.fill_with(|| crowded(random)),
            _ => rows.fill(u64::MAX),
        }
    }
    for tree in state.rows.chunks_mut(HUGE_ROWS * t) {
        let mut blocks: Vec<_> = tree.chunks_mut(block_rows(order)).collect();
        for _ in 0..t.div_ceil(8) {
            blocks.swap_remove(random.below(blocks.len() as u64) as usize).fill(0);
        }
    }
    state.count();
    state
}

fn gets(t: usize, order: usize, random: &mut Random) {
    let fresh = State::fresh(t, HUGE / t);
    let half = State::half(t, HUGE / t, random);
    let crowded = crowded_state(t, order, random);
    let grouped = matches!(order, 7 | 8);
    for (kind, state) in [("fresh", &fresh), ("half full", &half), ("crowded", &crowded)] {
        let mut line = |call, from| Line { call, order, kind, state, from }.print(random);
        for from in if grouped { &["first group", "past it"][..] } else { &["any"] } {
            line("get", from);
            line("get, put", from);
        }
        if grouped {
            line("put", "first group");
        }
    }
    if grouped || order == 0 {
        let (kind, row) = if grouped { ("every other free", STRIPES) } else { ("full", u64::MAX) };
        let state = &State::of_rows(t, HUGE / t, || row);
        Line { call: "get refused", order, kind, state, from: "any" }.print(random);
    }
}

fn main() {
    let random = &mut Random(1);
    for t in [4, 32] {
        [0, 3, 6, 7, 8, HUGE_ORDER].iter().for_each(|order| gets(t, *order, random));
    }
    for order in [0, 3, 6, 7, 8] {
        let (call, kind, mut state) =
            ("set_first_zeros", "half of the blocks clear", State::fresh(1, BITFIELDS));
        for rows in state.rows.chunks_mut(block_rows(order)) {
            rows.fill(blocks(order.min(6) as u64, random));
        }
        Line { call, order, kind, state: &state, from: "any" }.print(random);
    }
}
