//! Times our bitfield calls against the Rust's: in one process, each side behind a C call through a pointer,
//! on the same input in the same memory; turns.rs says how. Run by bench/run, as: bench LIBRARY
//!
//! A pass makes some thousands of calls. All rows are restored before each, outside of its time.

#[allow(dead_code)]
#[path = "../rust/ravelbeam/src/calls.rs"]
mod calls;
mod rows;
#[path = "../oracle/bitfield/rust.rs"]
mod rust;
#[allow(dead_code)]
#[path = "../oracle/shared"]
mod shared {
    pub mod library;
}
mod turns;

use std::array;
use std::cell::RefCell;
use std::hint::black_box;

use calls::*;
use rows::{Random, blocks, crowded, shared_start};
use rust::Rust;
use shared::library::Library;

/// The eight rows of one huge frame.
type Rows = [u64; 8];

const STATES: usize = 256;
/// How often a pass goes through all states: a search has that many blocks to find in each.
const TURNS: usize = 4;

/// Our calls as pointers, as the Rust's are. A type that is not the declaration's does not compile.
struct Ours {
    first_zeros_aligned: unsafe extern "C" fn(u64, usize, &mut usize, &mut u64) -> u32,
    set: unsafe extern "C" fn(*mut u64, usize, usize, usize, u32) -> u32,
    toggle: unsafe extern "C" fn(*mut u64, usize, usize, usize, u32) -> u32,
    is_zero: unsafe extern "C" fn(*const u64, usize, usize, usize, &mut u32) -> u32,
    first_zeros: unsafe extern "C" fn(*const u64, usize, usize, usize, &mut usize) -> u32,
    set_first_zeros: unsafe extern "C" fn(*mut u64, usize, usize, usize, &mut usize) -> u32,
    fill: unsafe extern "C" fn(*mut u64, usize, u32) -> u32,
    count_zeros: unsafe extern "C" fn(*const u64, usize, &mut usize) -> u32,
}

static OURS: Ours = Ours {
    first_zeros_aligned: rb_first_zeros_aligned,
    set: rb_bitfield_set,
    toggle: rb_bitfield_toggle,
    is_zero: rb_bitfield_is_zero,
    first_zeros: rb_bitfield_first_zeros,
    set_first_zeros: rb_bitfield_set_first_zeros,
    fill: rb_bitfield_fill,
    count_zeros: rb_bitfield_count_zeros,
};

/// The states of a line, row by row.
fn states(mut row: impl FnMut() -> u64) -> Vec<Rows> {
    (0..STATES).map(|_| [(); 8].map(|()| row())).collect()
}

/// A pass over a copy of the states, each by its number.
fn pass(memory: &mut [Rows], states: &[Rows], call: impl Fn(usize, &mut Rows)) -> u128 {
    memory.copy_from_slice(states);
    turns::pass(|| {
        for _ in 0..TURNS {
            for (i, rows) in memory.iter_mut().enumerate() {
                call(i, rows);
            }
        }
    })
}

/// A line of the table. Each side makes `calls` calls on a state.
fn line(
    [call, order, kind]: [&str; 3],
    states: &[Rows],
    calls: usize,
    ours: impl Fn(usize, &mut Rows),
    rust: Option<impl Fn(usize, &mut Rows)>,
) {
    let memory = &RefCell::new(states.to_vec());
    turns::line(
        [call, "", order, kind, ""],
        TURNS * STATES * calls,
        || pass(&mut memory.borrow_mut(), states, &ours),
        rust.map(|rust| move || pass(&mut memory.borrow_mut(), states, &rust)),
    );
}

/// Stands for the Rust's call where it has none.
const NONE: Option<fn(usize, &mut Rows)> = None;

fn main() {
    let library = std::env::args().nth(1).expect("the Rust's library");
    let rust = &Rust::of(&Library::load(&library));
    let ours = black_box(&OURS);
    let mut random = Random(1);
    let half = states(|| random.word());
    let crowded = states(|| crowded(&mut random));

    for order in 0..7 {
        let halved = states(|| blocks(order as u64, &mut random));
        for (kind, states) in
            [("half full", &half), ("half of the blocks clear", &halved), ("crowded", &crowded)]
        {
            line(
                ["first_zeros_aligned", &order.to_string(), kind],
                states,
                8,
                |_, rows| unsafe {
                    let (mut place, mut row) = (0, 0);
                    for v in rows {
                        (ours.first_zeros_aligned)(*v, order, &mut place, &mut row);
                    }
                },
                Some(|_, rows: &mut Rows| unsafe {
                    let (mut place, mut row) = (0, 0);
                    for v in rows {
                        (rust.first_zeros_aligned)(*v, order, &mut place, &mut row);
                    }
                }),
            );
        }
    }

    // Every state has a start row of its own; in the last kind of order 0, all rows but the one before it are
    // full.
    let mut last = vec![[u64::MAX; 8]; STATES];
    last.iter_mut().enumerate().for_each(|(i, rows)| rows[(i + 7) % 8] = random.word());
    let [bytes, words] = [3, 6].map(|order| states(|| blocks(order, &mut random)));
    let clear = vec![[0; 8]; STATES];
    for (order, kind, states) in [
        (0, "half full", &half),
        (0, "crowded", &crowded),
        (0, "full but the last row", &last),
        (3, "half of the blocks clear", &bytes),
        (6, "half of the blocks clear", &words),
        (7, "clear", &clear),
    ] {
        let starts: [usize; 8] = array::from_fn(|row| shared_start(row, order));
        line(
            ["set_first_zeros", &order.to_string(), kind],
            states,
            1,
            |i, rows| unsafe {
                (ours.set_first_zeros)(rows.as_mut_ptr(), 8, starts[i % 8], order, &mut 0);
            },
            Some(|i, rows: &mut Rows| unsafe {
                (rust.set_first_zeros)(rows.as_mut_ptr(), starts[i % 8], order, &mut 0);
            }),
        );
    }
    line(
        ["first_zeros", "0", "half full"],
        &half,
        1,
        |i, rows| unsafe {
            (ours.first_zeros)(rows.as_ptr(), 8, i % 8, 0, &mut 0);
        },
        NONE,
    );

    for order in [0, 3, 6, 7, 9] {
        let place = |i: usize| (i << order) % 512;
        let order_name = order.to_string();
        // A block is turned and turned back.
        line(
            ["toggle", &order_name, "clear"],
            &clear,
            2,
            |i, rows| unsafe {
                (ours.toggle)(rows.as_mut_ptr(), 8, place(i), order, 0);
                (ours.toggle)(rows.as_mut_ptr(), 8, place(i), order, 1);
            },
            Some(|i, rows: &mut Rows| unsafe {
                (rust.toggle)(rows.as_mut_ptr(), place(i), order, 0);
                (rust.toggle)(rows.as_mut_ptr(), place(i), order, 1);
            }),
        );
        line(
            ["is_zero", &order_name, "clear"],
            &clear,
            1,
            |i, rows| unsafe {
                (ours.is_zero)(rows.as_ptr(), 8, place(i), order, &mut 0);
            },
            Some(|i, rows: &mut Rows| unsafe {
                (rust.is_zero)(rows.as_ptr(), place(i), order, &mut 0);
            }),
        );
    }
    let ranges: Vec<[usize; 2]> = (0..STATES)
        .map(|_| {
            let ends = [(); 2].map(|()| random.word() as usize % 512);
            [ends[0].min(ends[1]), ends[0].max(ends[1])]
        })
        .collect();
    line(
        ["set", "", "half full, any range"],
        &half,
        1,
        |i, rows| unsafe {
            let [start, end] = ranges[i];
            (ours.set)(rows.as_mut_ptr(), 8, start, end, 1);
        },
        Some(|i, rows: &mut Rows| unsafe {
            let [start, end] = ranges[i];
            (rust.set)(rows.as_mut_ptr(), start, end, 1);
        }),
    );
    line(
        ["fill", "", "half full"],
        &half,
        1,
        |_, rows| unsafe {
            (ours.fill)(rows.as_mut_ptr(), 8, 1);
        },
        Some(|_, rows: &mut Rows| unsafe {
            (rust.fill)(rows.as_mut_ptr(), 1);
        }),
    );
    line(
        ["count_zeros", "", "half full"],
        &half,
        1,
        |_, rows| unsafe {
            (ours.count_zeros)(rows.as_ptr(), 8, &mut 0);
        },
        Some(|_, rows: &mut Rows| unsafe {
            (rust.count_zeros)(rows.as_ptr(), &mut 0);
        }),
    );
}
