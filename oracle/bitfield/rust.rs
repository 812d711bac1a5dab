//! The Rust's bitfield calls. The names and types are those of export.rs.

use crate::shared::library::Library;

pub struct Rust {
    pub first_zeros_aligned: unsafe extern "C" fn(u64, usize, &mut usize, &mut u64) -> u32,
    pub set: unsafe extern "C" fn(*mut u64, usize, usize, u32) -> u32,
    pub toggle: unsafe extern "C" fn(*mut u64, usize, usize, u32) -> u32,
    pub is_zero: unsafe extern "C" fn(*const u64, usize, usize, &mut u32) -> u32,
    pub set_first_zeros: unsafe extern "C" fn(*mut u64, usize, usize, &mut usize) -> u32,
    pub fill: unsafe extern "C" fn(*mut u64, u32) -> u32,
    pub count_zeros: unsafe extern "C" fn(*const u64, &mut usize) -> u32,
}

impl Rust {
    pub fn of(library: &Library) -> Rust {
        unsafe {
            Rust {
                first_zeros_aligned: library.function("first_zeros_aligned"),
                set: library.function("set"),
                toggle: library.function("toggle"),
                is_zero: library.function("is_zero"),
                set_first_zeros: library.function("set_first_zeros"),
                fill: library.function("fill"),
                count_zeros: library.function("count_zeros"),
            }
        }
    }
}
