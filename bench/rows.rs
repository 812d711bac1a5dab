//! Numbers that follow from a seed, as the comparison has them, rows made of them, and start rows.

#[allow(dead_code)]
#[path = "../oracle/shared/random.rs"]
mod random;

pub use random::{Random, mask};

/// A row of which one bit in sixteen is clear.
pub fn crowded(random: &mut Random) -> u64 {
    (0..3).fold(random.word(), |row, _| row | random.word())
}

/// The row to ask both sides from: at orders 7 and 8 the first of its huge frame, where the Rust always begins.
pub fn shared_start(row: usize, order: usize) -> usize {
    if matches!(order, 7 | 8) { row - row % 8 } else { row }
}

/// A crowded row of which every other block, by chance, is clear.
pub fn blocks(order: u64, random: &mut Random) -> u64 {
    (0..64).step_by(1 << order).fold(crowded(random), |row, place| {
        if random.below(2) == 0 { row & !mask(place, order) } else { row }
    })
}
