//! Times what is done to and asked of a whole state of 1,048,576 frames, and of one tree in it, against the
//! Rust's; sides.rs says what is called and turns.rs how it is timed. Audit, room and tree run are ours alone.
//! Run by bench/run, as: staff LIBRARY..
//!
//! A pass of a call that may write is one call.

// Not all of its rows are of use here.
#[allow(dead_code)]
mod rows;
// Nor all of its calls.
#[allow(dead_code)]
mod sides;
// Nor all of its states.
#[allow(dead_code)]
mod state;
mod turns;

use rows::Random;
use sides::{NONE, Ours, Rust, line};
use state::{HUGE_FRAMES, HUGE_ORDER, HUGE_ROWS, MARK, State};

const HUGE: usize = 2048;
/// Calls in a pass over all entries.
const SUMS: usize = 16;
/// Calls in a pass over single trees, each with a frame of its own.
const FRAMES: usize = 1024;

/// Every count is wrong.
fn miscounted(mut state: State) -> State {
    let counts = state.entries.iter_mut().filter(|entry| **entry != MARK);
    counts.for_each(|entry| *entry = (*entry + 1) % (HUGE_FRAMES as u16 + 1));
    state
}

/// All is held whole, with one bit set under each mark.
fn stained(t: usize, random: &mut Random) -> State {
    let mut state = State::fresh(t, HUGE / t);
    state.entries.fill(MARK);
    let mut stain = |rows: &mut [u64]| rows[random.below(rows.len() as u64) as usize] = 1 << random.below(64);
    state.rows.chunks_mut(HUGE_ROWS).for_each(&mut stain);
    state
}

fn lines(rust: &Rust, random: &mut Random) {
    let Rust { t, start, stats, stats_at, recover, .. } = *rust;
    let free = State::fresh(t, HUGE / t);
    let half = State::half(t, HUGE / t, random);
    let (miscounted, stained) = (miscounted(half.clone()), stained(t, random));
    let (free, half) = (("all free", &free), ("half full", &half));

    line("free_all", "", half, 1, |ours, _| ours.free_all(), rust, Some(|kept, _| unsafe { start(kept, 0) }));
    line(
        "reserve_all",
        "",
        half,
        1,
        |ours, _| ours.reserve_all(),
        rust,
        Some(|kept, _| unsafe { start(kept, 1) }),
    );
    for state in [free, half] {
        line(
            "stats",
            "",
            state,
            SUMS,
            |ours, _| {
                let [mut frames, mut huge, mut trees] = [0; 3];
                (ours.stats(&mut frames, &mut huge, &mut trees), [frames, huge, trees])
            },
            rust,
            Some(|kept, _| {
                let mut numbers = [0; 3];
                (unsafe { stats(kept, &mut numbers) }, numbers)
            }),
        );
    }
    for state in [free, half, ("every count wrong", &miscounted), ("a bit set under every mark", &stained)] {
        line(
            "recover",
            "",
            state,
            1,
            |ours, _| ours.recover(&mut 0, &mut 0),
            rust,
            Some(|kept, _| unsafe { recover(kept) }),
        );
    }
    for state in [free, half] {
        let audit = |ours: &mut Ours, _| {
            let (mut huge, mut reason) = (0, 0);
            let code = ours.audit(&mut huge, &mut reason);
            assert_eq!(
                (code, huge, reason),
                (0, 0, 0),
                "a consistent state has no fault that ends its audit"
            );
            code
        };
        line("audit", "", state, 1, audit, rust, NONE);
    }

    let frames: Vec<usize> =
        (0..FRAMES).map(|_| random.below((HUGE_FRAMES * HUGE) as u64) as usize).collect();
    let mut orders = vec![0, HUGE_ORDER, HUGE_ORDER + t.ilog2() as usize];
    orders.dedup();
    for order in orders {
        line(
            "stats_at",
            &order.to_string(),
            half,
            FRAMES,
            |ours, i| {
                let [mut count, mut huge, mut trees] = [0; 3];
                let code = ours.stats_at(frames[i], order, &mut count, &mut huge, &mut trees);
                (code, [count, huge, trees])
            },
            rust,
            Some(|kept, i: usize| {
                let mut numbers = [0; 3];
                (unsafe { stats_at(kept, frames[i], order, &mut numbers) }, numbers)
            }),
        );
    }
    line("room", "", half, FRAMES, |ours, i| ours.room(frames[i], &mut [0; 19]), rust, NONE);
    line("tree_run", "", half, FRAMES, |ours, i| ours.tree_run(frames[i], &mut 0, &mut 0), rust, NONE);
}

fn main() {
    let mut random = Random(1);
    for path in std::env::args().skip(1) {
        lines(&Rust::load(&path), &mut random);
    }
}
