//! Times gets and puts that are turned down, against the Rust's, and beside each the call that says why, which is
//! ours alone; sides.rs says what is called and turns.rs how it is timed. Run by bench/run, as: why LIBRARY..
//!
//! Mostly all of the tree or of the block has to be looked at until the reason is known.

// Not all of its rows are of use here.
#[allow(dead_code)]
mod rows;
// Nor all of its calls.
#[allow(dead_code)]
mod sides;
// Nor all of its states.
#[allow(dead_code)]
mod state;
mod turns;

use rows::{Random, crowded, shared_start};
use sides::{Kept, NONE, Ours, Rust, line};
use state::{HUGE_FRAMES, HUGE_ORDER, HUGE_ROWS, MARK, State};

const TREES: usize = 16;
/// Calls in a pass, each with a start row or a frame by chance.
const CALLS: usize = 1024;

/// Requests of an order on a state that turns all of them down for one reason, each with a row or a frame.
struct Down<'a> {
    kind: &'a str,
    state: &'a State,
    order: usize,
    reason: u32,
    places: Vec<usize>,
}

impl Down<'_> {
    /// Two lines: the request, ours and the Rust's, and the call that says why.
    fn lines(
        &self,
        [name, why_name]: [&str; 2],
        request: impl Fn(&mut Ours, usize) -> u32,
        rust: &Rust,
        theirs: impl Fn(*mut Kept, usize) -> u32,
        why: impl Fn(&mut Ours, usize, &mut u32) -> u32,
    ) {
        let Down { kind, state, order, reason, places } = self;
        let (kind, order) = (format!("{kind}: reason {reason}"), order.to_string());
        let mut ours = Ours::of(state);
        for place in places {
            let mut told = 0;
            let code = why(&mut ours, *place, &mut told);
            assert_eq!((code, told), (0, *reason), "{why_name} {order} on a state {kind}");
            assert_eq!(request(&mut ours, *place), 7, "{name} {order} on a state {kind}");
        }
        let state = (&kind[..], *state);
        line(
            name,
            &order,
            state,
            CALLS,
            |ours, i| request(ours, places[i]),
            rust,
            Some(|kept, i: usize| theirs(kept, places[i])),
        );
        line(why_name, &order, state, CALLS, |ours, i| why(ours, places[i], &mut 0), rust, NONE);
    }
}

fn any_rows(random: &mut Random, state: &State, order: usize) -> Vec<usize> {
    (0..CALLS).map(|_| shared_start(random.below(state.n as u64 / 64) as usize, order)).collect()
}

/// The last block of an order in any trees.
fn last_blocks(random: &mut Random, state: &State, order: usize) -> Vec<usize> {
    let tree = HUGE_FRAMES * state.t;
    (0..CALLS).map(|_| tree * (1 + random.below(TREES as u64) as usize) - (1 << order)).collect()
}

fn gets(rust: &Rust, random: &mut Random) {
    let t = rust.t;
    let full = State::of_rows(t, TREES, || u64::MAX);
    let thin = State::one_free(t, TREES, random);
    let striped = State::of_rows(t, TREES, || 0x5555_5555_5555_5555);
    let crowded = State::of_rows(t, TREES, || crowded(random));
    for (kind, state, order, reason) in [
        ("full", &full, 0, 1),
        ("full", &full, HUGE_ORDER, 1),
        ("one in 512 free", &thin, 3, 2),
        ("every other free", &striped, 1, 3),
        ("crowded", &crowded, 3, 3),
        ("every other free", &striped, 8, 3),
        ("crowded", &crowded, HUGE_ORDER, 3),
    ] {
        Down { kind, state, order, reason, places: any_rows(random, state, order) }.lines(
            ["get", "why_get"],
            |ours, row| ours.get(row, order, &mut 0, &mut 0),
            rust,
            |kept, row| unsafe { (rust.get)(kept, row, order, &mut 0) },
            |ours, row, reason| ours.why_get(row, order, reason, &mut 0),
        );
    }
}

/// Gets of a frame, and puts.
fn blocks(rust: &Rust, random: &mut Random) {
    let (t, top) = (rust.t, HUGE_ORDER + rust.t.ilog2() as usize);
    let full = State::of_rows(t, TREES, || u64::MAX);
    // The last frame of each tree alone is held, or free; or its last huge frame alone is not held whole.
    let mut last_held = State::fresh(t, TREES);
    let mut last_free = full.clone();
    let mut last_singly = State::fresh(t, TREES);
    last_singly.entries.fill(MARK);
    for end in (1..TREES + 1).map(|tree| t * tree) {
        last_held.rows[HUGE_ROWS * end - 1] = 1 << 63;
        last_free.rows[HUGE_ROWS * end - 1] = !(1 << 63);
        last_singly.rows[HUGE_ROWS * (end - 1)..HUGE_ROWS * end].fill(u64::MAX);
        last_singly.entries[end - 1] = 0;
    }
    last_held.count();
    last_free.count();
    for (kind, state, order) in [
        ("full", &full, 0),
        ("full", &full, HUGE_ORDER),
        ("last frame held", &last_held, HUGE_ORDER),
        ("last frame held", &last_held, top),
    ] {
        Down { kind, state, order, reason: 4, places: last_blocks(random, state, order) }.lines(
            ["get_at", "why_get_at"],
            |ours, frame| ours.get_at(frame, order, &mut 0, &mut 0),
            rust,
            |kept, frame| unsafe { (rust.get_at)(kept, frame, order, &mut 0) },
            |ours, frame, reason| ours.why_get_at(frame, order, reason, &mut 0),
        );
    }
    for (kind, state, order, reason) in [
        ("last frame free", &last_free, 0, 5),
        ("last frame free", &last_free, HUGE_ORDER, 5),
        ("last frame free", &last_free, top, 5),
        ("last huge frame held singly", &last_singly, HUGE_ORDER, 6),
        ("last huge frame held singly", &last_singly, top, 6),
    ] {
        Down { kind, state, order, reason, places: last_blocks(random, state, order) }.lines(
            ["put", "why_put"],
            |ours, frame| ours.put(frame, order),
            rust,
            |kept, frame| unsafe { (rust.put)(kept, frame, order) },
            |ours, frame, reason| ours.why_put(frame, order, reason, &mut 0),
        );
    }
}

fn main() {
    let mut random = Random(1);
    for path in std::env::args().skip(1) {
        let rust = Rust::load(&path);
        gets(&rust, &mut random);
        blocks(&rust, &mut random);
    }
}
