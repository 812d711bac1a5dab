//! Times our lower level's gets and puts, and what is asked of one block, against the Rust's; sides.rs says
//! what is called and turns.rs how it is timed. Gets of orders 7 and 8 that start past the first group of rows
//! are ours alone. Run by bench/run, as: lower LIBRARY..

// Not all of its rows are of use here.
#[allow(dead_code)]
mod rows;
// Nor all of its calls.
#[allow(dead_code)]
mod sides;
mod state;
mod turns;

use std::iter;

use rows::{Random, crowded, shared_start};
use sides::{Kept, Ours, Rust, line};
use state::{HUGE_FRAMES, HUGE_ORDER, HUGE_ROWS, MARK, State};

const TREES: usize = 16;
/// Calls in a pass, each with a start row, a frame or a block of its own.
const CALLS: usize = 1024;
/// The gets that one tree has before the next: the frames of a tree of 32 with one free in each huge frame.
const RUN: usize = 32;

/// A get from a row, a get of a frame, and a put, on some memory: a get gives the code and the frame, a put
/// the code.
trait Side {
    fn get(&mut self, row: usize, order: usize) -> (u32, usize);
    fn get_at(&mut self, frame: usize, order: usize) -> (u32, usize);
    fn put(&mut self, frame: usize, order: usize) -> u32;
}

impl Side for Ours {
    fn get(&mut self, row: usize, order: usize) -> (u32, usize) {
        let mut found = 0;
        (Ours::get(self, row, order, &mut found, &mut 0), found)
    }

    fn get_at(&mut self, frame: usize, order: usize) -> (u32, usize) {
        let mut found = 0;
        (Ours::get_at(self, frame, order, &mut found, &mut 0), found)
    }

    fn put(&mut self, frame: usize, order: usize) -> u32 {
        Ours::put(self, frame, order)
    }
}

struct OnKept<'a> {
    rust: &'a Rust,
    kept: *mut Kept,
}

impl Side for OnKept<'_> {
    fn get(&mut self, row: usize, order: usize) -> (u32, usize) {
        let mut found = 0;
        (unsafe { (self.rust.get)(self.kept, row, order, &mut found) }, found)
    }

    fn get_at(&mut self, frame: usize, order: usize) -> (u32, usize) {
        let mut found = 0;
        (unsafe { (self.rust.get_at)(self.kept, frame, order, &mut found) }, found)
    }

    fn put(&mut self, frame: usize, order: usize) -> u32 {
        unsafe { (self.rust.put)(self.kept, frame, order) }
    }
}

/// The gets of a pass, of one order.
struct Load {
    order: usize,
    /// A start row for each, or a frame.
    places: Vec<usize>,
    /// The places are frames.
    at: bool,
    /// So many gets come before their puts.
    together: usize,
    /// Of the places only the first of each run counts: every further get starts from the row where the one
    /// before it found its frame, as the level above keeps it.
    kept: bool,
}

impl Load {
    /// One pass. What was got is put back in it, so that each finds the same state; every answer is told.
    fn pass(&self, side: &mut impl Side, mut tell: impl FnMut(u32, usize)) {
        let mut got = [0; RUN];
        for run in self.places.chunks(RUN) {
            let mut row = run[0];
            for places in run.chunks(self.together) {
                let mut done = 0;
                for place in places {
                    let (code, frame) = match self {
                        Load { at: true, .. } => side.get_at(*place, self.order),
                        Load { kept: true, .. } => side.get(row, self.order),
                        _ => side.get(*place, self.order),
                    };
                    tell(code, frame);
                    got[done] = frame;
                    done += (code == 0) as usize;
                    row = frame / 64;
                }
                got[..done].iter().for_each(|frame| tell(side.put(*frame, self.order), 0));
            }
        }
    }

    /// A line of the table: the time of a get, with its put where it found a block. Without the Rust it is
    /// ours alone.
    fn line(&self, name: &str, kind: &str, rust: Option<&Rust>, state: &State) {
        let mut ours = Ours::of(state);
        let mut theirs = rust.map(|rust| OnKept { rust, kept: rust.keep(state) });
        let (mut answers, mut others) = (Vec::new(), Vec::new());
        self.pass(&mut ours, |code, frame| answers.push((code, frame)));
        if let Some(theirs) = &mut theirs {
            self.pass(theirs, |code, frame| others.push((code, frame)));
            assert_eq!(answers, others, "{name} of order {} on a state {kind}", self.order);
        }
        // Each get that found a block has a put after it.
        let found = answers.len() - CALLS;

        turns::line(
            [name, &state.t.to_string(), &self.order.to_string(), kind, &format!("{}%", 100 * found / CALLS)],
            CALLS,
            || turns::pass(|| self.pass(&mut ours, |_, _| {})),
            theirs.as_mut().map(|theirs| || turns::pass(|| self.pass(theirs, |_, _| {}))),
        );
        let kept = theirs.is_none_or(|theirs| theirs.rust.read(theirs.kept, state) == *state);
        assert!(ours.state == *state && kept, "what was got was not put back");
    }
}

/// The crowded tree: gets put straight back, and a run of gets and then its puts, from kept start rows and
/// from any.
fn crowded_tree(rust: &Rust, random: &mut Random) {
    let state = State::one_free(rust.t, TREES, random);
    let tree_rows = (HUGE_ROWS * rust.t) as u64;
    for (together, name) in [(1, "get, put"), (RUN, "32 gets, 32 puts")] {
        for (kept, kind) in [(true, "one in 512 free, rows kept"), (false, "one in 512 free, any rows")] {
            let mut places = Vec::new();
            for _ in 0..CALLS / RUN {
                let tree = random.below(TREES as u64);
                places.extend((0..RUN).map(|_| (tree * tree_rows + random.below(tree_rows)) as usize));
            }
            Load { order: 0, places, at: false, together, kept }.line(name, kind, Some(rust), &state);
        }
    }
}

/// Puts of blocks of which no two share frames, and questions whether blocks are free.
fn blocks(rust: &Rust, half: &State, random: &mut Random) {
    let singly = State::of_rows(rust.t, TREES, || u64::MAX);
    let mut whole = State::fresh(rust.t, TREES);
    whole.entries.fill(MARK);
    for (order, kind, state) in [
        (0, "held singly", &singly),
        (3, "held singly", &singly),
        (6, "held singly", &singly),
        (7, "held singly", &singly),
        (0, "held whole", &whole),
        (HUGE_ORDER, "held whole", &whole),
    ] {
        // Of a huge frame held whole the first put holds the others singly, so each is put from once.
        let size = if state == &whole { HUGE_FRAMES } else { 1 << order };
        let mut frames: Vec<usize> = (0..state.n).step_by(size).collect();
        for i in 1..frames.len() {
            frames.swap(i, random.below(i as u64 + 1) as usize);
        }
        frames.truncate(CALLS);
        line(
            "put",
            &order.to_string(),
            (kind, state),
            frames.len(),
            |ours, i| ours.put(frames[i], order),
            rust,
            Some(|kept, i: usize| unsafe { (rust.put)(kept, frames[i], order) }),
        );
    }
    for order in orders(rust.t) {
        let frames = any_frames(half, order, random);
        line(
            "is_free",
            &order.to_string(),
            ("half full", half),
            CALLS,
            |ours, i| {
                let mut yes = 0;
                (ours.is_free(frames[i], order, &mut yes), yes)
            },
            rust,
            Some(|kept, i: usize| {
                let mut yes = 0;
                (unsafe { (rust.is_free)(kept, frames[i], order, &mut yes) }, yes)
            }),
        );
    }
}

fn orders(t: usize) -> [usize; 7] {
    [0, 3, 6, 7, 8, HUGE_ORDER, HUGE_ORDER + t.ilog2() as usize]
}

fn any_frames(state: &State, order: usize, random: &mut Random) -> Vec<usize> {
    (0..CALLS).map(|_| (random.below((state.n >> order) as u64) as usize) << order).collect()
}

fn any_row(state: &State, random: &mut Random) -> usize {
    random.below(state.n as u64 / 64) as usize
}

fn main() {
    let mut random = Random(1);
    for path in std::env::args().skip(1) {
        let rust = Rust::load(&path);
        let t = rust.t;
        let fresh = State::fresh(t, TREES);
        let crowded = State::of_rows(t, TREES, || crowded(&mut random));
        let half = State::half(t, TREES, &mut random);
        for (kind, state) in [("fresh", &fresh), ("half full", &half), ("crowded", &crowded)] {
            for order in orders(t) {
                let places = (0..CALLS).map(|_| shared_start(any_row(state, &mut random), order)).collect();
                Load { order, places, at: false, together: 1, kept: false }.line(
                    "get, put",
                    kind,
                    Some(&rust),
                    state,
                );
            }
        }
        for (kind, state) in
            [("fresh, past the first group", &fresh), ("half full, past the first group", &half)]
        {
            for order in [7, 8] {
                let rows = iter::repeat_with(|| any_row(state, &mut random));
                let places = rows.filter(|row| row % HUGE_ROWS >> (order - 6) != 0).take(CALLS).collect();
                Load { order, places, at: false, together: 1, kept: false }
                    .line("get, put", kind, None, state);
            }
        }
        if t == 32 {
            crowded_tree(&rust, &mut random);
        }
        for (kind, state) in [("fresh", &fresh), ("half full", &half)] {
            for order in orders(t) {
                let places = any_frames(state, order, &mut random);
                Load { order, places, at: true, together: 1, kept: false }.line(
                    "get_at, put",
                    kind,
                    Some(&rust),
                    state,
                );
            }
        }
        if t == 32 {
            blocks(&rust, &half, &mut random);
        }
    }
}
