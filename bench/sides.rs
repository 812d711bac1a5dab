//! The two sides of the lower level in one process, each behind a C call through a pointer, on the same state.
//! Ours has it flat; the Rust has it in its own layout, where it stays.

#[path = "../rust/ravelbeam/src/calls.rs"]
mod calls;
#[path = "../oracle/shared/library.rs"]
mod library;

use std::fmt::Debug;
use std::hint::black_box;

use crate::state::State;
use crate::turns;
use calls::*;
use library::Library;

/// Makes pointers to our calls, as the Rust's are: each by its name here, its declared name, and what it takes,
/// whether rows and entries are lent as mut or const and what comes after them. Rust can't name the type of a
/// declared function; a type that is not the declaration's does not compile.
macro_rules! ours {
    ($($call:ident = $name:ident($lent:tt $(, $word:ident: $kind:ty)*);)*) => {
        struct Calls {
            $($call: unsafe extern "C" fn(
                usize,
                usize,
                *$lent u64,
                usize,
                *$lent u16,
                usize,
                $($kind),*
            ) -> u32,)*
        }

        static CALLS: Calls = Calls { $($call: $name),* };

        impl Ours {
            $(pub fn $call(&mut self, $($word: $kind),*) -> u32 {
                let State { n, t, rows, entries } = &mut self.state;
                let (rows_len, entries_len) = (rows.len(), entries.len());
                let (rows, entries) = (rows.as_mut_ptr(), entries.as_mut_ptr());
                unsafe { (self.calls.$call)(*n, *t, rows, rows_len, entries, entries_len, $($word),*) }
            })*
        }
    };
}

ours! {
    free_all = rb_free_all(mut);
    reserve_all = rb_reserve_all(mut);
    get = rb_get(mut, row: usize, order: usize, frame: &mut usize, probes: &mut usize);
    get_at = rb_get_at(mut, frame: usize, order: usize, taken: &mut usize, probes: &mut usize);
    put = rb_put(mut, frame: usize, order: usize);
    is_free = rb_is_free(const, frame: usize, order: usize, yes: &mut u32);
    stats = rb_stats(const, frames: &mut usize, huge: &mut usize, trees: &mut usize);
    stats_at =
        rb_stats_at(const, frame: usize, order: usize, frames: &mut usize, huge: &mut usize, trees: &mut usize);
    audit = rb_audit(const, huge: &mut usize, reason: &mut u32);
    recover = rb_recover(mut, entries_changed: &mut usize, bitfields_changed: &mut usize);
    room = rb_room(const, frame: usize, counts: &mut [usize; 19]);
    tree_run = rb_tree_run(const, frame: usize, offset: &mut usize, length: &mut usize);
    why_get = rb_why_get(const, row: usize, order: usize, reason: &mut u32, frame: &mut usize);
    why_get_at = rb_why_get_at(const, frame: usize, order: usize, reason: &mut u32, at: &mut usize);
    why_put = rb_why_put(const, frame: usize, order: usize, reason: &mut u32, at: &mut usize);
}

pub struct Ours {
    pub state: State,
    calls: &'static Calls,
}

impl Ours {
    pub fn of(state: &State) -> Ours {
        Ours { state: state.clone(), calls: black_box(&CALLS) }
    }
}

/// Stands for what export.rs keeps.
pub enum Kept {}

/// The Rust in the build of one tree size. The names and types are those of export.rs.
pub struct Rust {
    pub t: usize,
    keep: unsafe extern "C" fn(usize) -> *mut Kept,
    copy: unsafe extern "C" fn(*mut Kept, *mut u64, *mut u16, u32),
    pub start: unsafe extern "C" fn(*mut Kept, u32) -> u32,
    pub get: unsafe extern "C" fn(*mut Kept, usize, usize, &mut usize) -> u32,
    pub get_at: unsafe extern "C" fn(*mut Kept, usize, usize, &mut usize) -> u32,
    pub put: unsafe extern "C" fn(*mut Kept, usize, usize) -> u32,
    pub is_free: unsafe extern "C" fn(*mut Kept, usize, usize, &mut u32) -> u32,
    pub stats: unsafe extern "C" fn(*mut Kept, &mut [usize; 3]) -> u32,
    pub stats_at: unsafe extern "C" fn(*mut Kept, usize, usize, &mut [usize; 3]) -> u32,
    pub recover: unsafe extern "C" fn(*mut Kept) -> u32,
}

impl Rust {
    pub fn load(path: &str) -> Rust {
        let library = Library::load(path);
        unsafe {
            Rust {
                t: library.tree_huge(),
                keep: library.function("keep"),
                copy: library.function("kept_copy"),
                start: library.function("kept_start"),
                get: library.function("kept_get"),
                get_at: library.function("kept_get_at"),
                put: library.function("kept_put"),
                is_free: library.function("kept_is_free"),
                stats: library.function("kept_stats"),
                stats_at: library.function("kept_stats_at"),
                recover: library.function("kept_recover"),
            }
        }
    }

    pub fn keep(&self, state: &State) -> *mut Kept {
        let kept = unsafe { (self.keep)(state.n) };
        self.write(kept, state);
        kept
    }

    fn write(&self, kept: *mut Kept, state: &State) {
        let (rows, entries) = (state.rows.as_ptr().cast_mut(), state.entries.as_ptr().cast_mut());
        unsafe { (self.copy)(kept, rows, entries, 0) }
    }

    /// What is kept, by a state with its numbers.
    pub fn read(&self, kept: *mut Kept, state: &State) -> State {
        let mut copy = state.clone();
        unsafe { (self.copy)(kept, copy.rows.as_mut_ptr(), copy.entries.as_mut_ptr(), 1) };
        copy
    }
}

/// Stands for the Rust's call where it has none.
pub const NONE: Option<fn(*mut Kept, usize) -> u32> = None;

/// A line of so many calls in a pass, each of which is told its number. The state is restored before each
/// pass, outside of its time.
pub fn line<A: Debug + PartialEq>(
    call: &str,
    order: &str,
    (kind, state): (&str, &State),
    calls: usize,
    ours: impl Fn(&mut Ours, usize) -> A,
    rust: &Rust,
    theirs: Option<impl Fn(*mut Kept, usize) -> A>,
) {
    let mut memory = Ours::of(state);
    let kept = rust.keep(state);
    if let Some(theirs) = &theirs {
        for i in 0..calls {
            assert_eq!(ours(&mut memory, i), theirs(kept, i), "{call} {order} on a state {kind}");
        }
        assert!(memory.state == rust.read(kept, state), "what {call} {order} leaves of a state {kind}");
    }

    turns::line(
        [call, &state.t.to_string(), order, kind, ""],
        calls,
        || {
            memory.state.copy_from(state);
            turns::pass(|| {
                for i in 0..calls {
                    ours(&mut memory, i);
                }
            })
        },
        theirs.map(|theirs| {
            move || {
                rust.write(kept, state);
                turns::pass(|| {
                    for i in 0..calls {
                        theirs(kept, i);
                    }
                })
            }
        }),
    );
}
