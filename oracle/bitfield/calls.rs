//! A call on one row, or on the rows of one huge frame, and what it does by the model and by the Rust.

use std::cell::Cell;
use std::fmt;

use crate::bitfield::rust::Rust;
use crate::bitfield::tally::Tally;
use crate::model::bitfield as model;
use crate::model::numbers::Variant;
use crate::shared::comparison;
use crate::shared::library::{Library, huge_order};
use crate::shared::room::{Outcome, Room};

/// What a call is; the numbers are calls.h's.
#[derive(Clone, Copy, PartialEq, Debug)]
pub enum What {
    Search = 16,
    Set,
    Toggle,
    IsZero,
    FirstZeros,
    SetFirstZeros,
    Fill,
    CountZeros,
}

/// A call that lends `length` rows. `a` and `b` are place and order, start row and order, or start and end; of
/// a search row and order. `flag` is value or expected. What a call does not take is 0.
#[derive(Clone, Copy)]
pub struct Call {
    pub variant: Variant,
    pub what: What,
    pub length: u64,
    pub a: u64,
    pub b: u64,
    pub flag: u32,
}

impl Call {
    /// Whether this is a search of rows that the Rust begins elsewhere.
    pub fn apart(&self) -> bool {
        matches!(self.what, What::FirstZeros | What::SetFirstZeros)
            && !self.variant.rust_begins_there(self.a, self.b)
    }
}

impl fmt::Display for Call {
    fn fmt(&self, f: &mut fmt::Formatter) -> fmt::Result {
        let Call { what, length, a, b, flag, .. } = self;
        match what {
            What::Search => write!(f, "first_zeros_aligned(row {a:#018x}, order {b})"),
            What::Set => write!(f, "set({length} rows, start {a}, end {b}, value {flag})"),
            What::Toggle => write!(f, "toggle({length} rows, place {a}, order {b}, expected {flag})"),
            What::IsZero => write!(f, "is_zero({length} rows, place {a}, order {b})"),
            What::FirstZeros => write!(f, "first_zeros({length} rows, start row {a}, order {b})"),
            What::SetFirstZeros => write!(f, "set_first_zeros({length} rows, start row {a}, order {b})"),
            What::Fill => write!(f, "fill({length} rows, value {flag})"),
            What::CountZeros => write!(f, "count_zeros({length} rows)"),
        }
    }
}

/// The Rust in the build of each tree size. The bitfield is the same in all, so they take turns.
pub struct Builds {
    pub variant: Variant,
    builds: Vec<Rust>,
    turn: Cell<usize>,
}

impl Builds {
    pub fn load(paths: &[String]) -> Builds {
        let libraries: Vec<Library> = paths.iter().map(|path| Library::load(path)).collect();
        let builds = libraries.iter().map(Rust::of).collect();
        Builds { variant: Variant { huge_order: huge_order(&libraries) }, builds, turn: Cell::new(0) }
    }

    fn next(&self) -> &Rust {
        self.turn.set((self.turn.get() + 1) % self.builds.len());
        &self.builds[self.turn.get()]
    }
}

/// The number by which export.rs reports a panic.
const PANIC: u32 = 99;

/// The numbers that a call is lent: place and row of a search; yes or no; place; zeros.
impl comparison::Call for Call {
    type Builds = Builds;
    type Tally = Tally;

    fn item(&self) -> (u64, [u64; 6]) {
        (self.what as u64, [self.length, self.a, self.b, self.flag as u64, 0, 0])
    }

    fn lent(&self) -> (u64, u64) {
        (self.length, 0)
    }

    fn by_model(&self, before: &Room) -> Outcome {
        let Call { variant, what, length, a, b, flag } = *self;
        let mut after = before.clone();
        let (rows, _) = after.lent(length, 0);
        let value = flag != 0;
        let one = |(code, number)| (code, vec![number]);
        let (code, numbers) = match what {
            What::Search => {
                let (code, numbers) = model::row_search(a, b);
                (code, numbers.to_vec())
            }
            What::Set => (model::set(variant, rows, a, b, value), vec![]),
            What::Toggle => (model::toggle(variant, rows, a, b, value), vec![]),
            What::IsZero => one(model::is_zero(variant, rows, a, b)),
            What::FirstZeros => one(model::first_zeros(variant, rows, a, b)),
            What::SetFirstZeros => one(model::set_first_zeros(variant, rows, a, b)),
            What::Fill => (model::fill(variant, rows, value), vec![]),
            What::CountZeros => one(model::count_zeros(variant, rows)),
        };
        Outcome { code, numbers, changes: before.changes(&after) }
    }

    /// The Rust has no search that only reads: it sets, and the rows are put back.
    fn by_rust(&self, builds: &Builds, before: &Room, model: &Outcome) -> Option<Outcome> {
        if model.code != 0 && model.code != 7 {
            return None;
        }
        let Call { variant, what, length, a, b, flag } = *self;
        let rust = builds.next();
        let mut after = before.clone();
        let rows = after.lent(length, 0).0.as_mut_ptr();
        let (first, second) = (a as usize, b as usize);
        let (mut found, mut row, mut yes) = (0, 0, 0);
        let code = unsafe {
            match what {
                What::Search => (rust.first_zeros_aligned)(a, second, &mut found, &mut row),
                What::Set => (rust.set)(rows, first, second, flag),
                What::Toggle => (rust.toggle)(rows, first, second, flag),
                What::IsZero => (rust.is_zero)(rows, first, second, &mut yes),
                What::FirstZeros | What::SetFirstZeros => {
                    (rust.set_first_zeros)(rows, first, second, &mut found)
                }
                What::Fill => (rust.fill)(rows, flag),
                What::CountZeros => (rust.count_zeros)(rows, &mut found),
            }
        };
        let end = variant.huge_frames();
        if what == What::Set && (a, b) == (end, end) {
            // Document 01: here the Rust panics, and ours follows the document alone.
            assert_eq!(code, PANIC, "{self}: the Rust does not panic");
            return None;
        }
        if self.apart() {
            // Document 02, W-206: here ours follows the model alone. Only whether there is a block is the same.
            assert_eq!(code as u64, model.code, "{self}: the Rust answers another code");
            return None;
        }
        let numbers = match what {
            What::Search => vec![found as u64, row],
            What::IsZero => vec![yes as u64],
            What::FirstZeros | What::SetFirstZeros | What::CountZeros => vec![found as u64],
            What::Set | What::Toggle | What::Fill => vec![],
        };
        let changes = if what == What::FirstZeros { vec![] } else { before.changes(&after) };
        Some(Outcome { code: code as u64, numbers, changes })
    }
}
