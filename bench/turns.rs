//! How a line of the tables is timed. The two sides take turns, pass by pass, and each side's figure is its
//! least pass: what else the machine does can only add to it.

use std::time::Instant;

const PASSES: usize = 400;

/// The nanoseconds of one pass.
pub fn pass(calls: impl FnOnce()) -> u128 {
    let start = Instant::now();
    calls();
    start.elapsed().as_nanos()
}

/// Prints a line for report.rs: its words (the call, T, the order, the state, and of the gets the share that
/// finds a block), and the nanoseconds of one call, ours and the Rust's. A side readies its memory and gives
/// the nanoseconds of a pass, which has so many calls.
pub fn line(
    words: [&str; 5],
    calls: usize,
    mut ours: impl FnMut() -> u128,
    mut rust: Option<impl FnMut() -> u128>,
) {
    let mut least = [u128::MAX; 2];
    for _ in 0..PASSES {
        least[0] = least[0].min(ours());
        if let Some(rust) = &mut rust {
            least[1] = least[1].min(rust());
        }
    }
    let [ours, theirs] = least.map(|time| time as f64 / calls as f64);
    let theirs = if rust.is_some() { theirs.to_string() } else { "-".to_string() };
    println!("{}\t{ours}\t{theirs}", words.join("\t"));
}
