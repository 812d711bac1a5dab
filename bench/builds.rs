//! The calls of two builds of our archive in one process, each behind a C call through a pointer. bench/pair gives
//! them their names.

use crate::state::{HUGE_ROWS, State};

/// Makes pointers to the calls of both builds: each by its name here, its two names, and what it takes.
macro_rules! builds {
    ($($call:ident = $before:ident, $after:ident($($kind:ty),*);)*) => {
        pub struct Build {
            $($call: unsafe extern "C" fn($($kind),*) -> u32,)*
        }

        unsafe extern "C" {
            $(fn $before($(_: $kind),*) -> u32;
            fn $after($(_: $kind),*) -> u32;)*
        }

        pub static BUILDS: [Build; 2] = [Build { $($call: $before),* }, Build { $($call: $after),* }];
    };
}

builds! {
    get = before_rb_get, after_rb_get(
        usize, usize, *mut u64, usize, *mut u16, usize, usize, usize, &mut usize, &mut usize);
    put = before_rb_put, after_rb_put(usize, usize, *mut u64, usize, *mut u16, usize, usize, usize);
    set_first_zeros = before_rb_bitfield_set_first_zeros, after_rb_bitfield_set_first_zeros(
        *mut u64, usize, usize, usize, &mut usize);
}

/// A code, a frame or a place in a bitfield, and the probes of a get.
pub type Answer = (u32, usize, usize);

impl Build {
    pub fn get(&self, State { n, t, rows, entries }: &mut State, row: usize, order: usize) -> Answer {
        let (rows_len, entries_len, mut frame, mut probes) = (rows.len(), entries.len(), 0, 0);
        let (rows, entries) = (rows.as_mut_ptr(), entries.as_mut_ptr());
        let code = unsafe {
            (self.get)(*n, *t, rows, rows_len, entries, entries_len, row, order, &mut frame, &mut probes)
        };
        (code, frame, probes)
    }

    pub fn put(&self, State { n, t, rows, entries }: &mut State, frame: usize, order: usize) {
        let (rows_len, entries_len) = (rows.len(), entries.len());
        let (rows, entries) = (rows.as_mut_ptr(), entries.as_mut_ptr());
        unsafe { (self.put)(*n, *t, rows, rows_len, entries, entries_len, frame, order) };
    }

    /// From a row, in its bitfield.
    pub fn set_first_zeros(&self, state: &mut State, row: usize, order: usize) -> Answer {
        let (start, mut place) = (row % HUGE_ROWS, 0);
        let rows = state.rows[row - start..][..HUGE_ROWS].as_mut_ptr();
        let code = unsafe { (self.set_first_zeros)(rows, HUGE_ROWS, start, order, &mut place) };
        (code, place, 0)
    }
}
