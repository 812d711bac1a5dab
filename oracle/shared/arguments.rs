//! What a comparison is told: SEED AMOUNTS.. LIBRARIES.. -- COMMAND..

use crate::shared::random::Random;

pub struct Arguments<const AMOUNTS: usize> {
    pub random: Random,
    /// How many inputs of each kind.
    pub amounts: [u64; AMOUNTS],
    /// The Rust, one library for each tree size.
    pub libraries: Vec<String>,
    /// Our side's program.
    pub command: Vec<String>,
}

impl<const AMOUNTS: usize> Arguments<AMOUNTS> {
    pub fn of(words: &[String]) -> Self {
        let number = |i: usize| words[i].parse::<u64>().expect("a number");
        let split = words.iter().position(|word| word == "--").expect("--");
        Arguments {
            random: Random(number(0)),
            amounts: std::array::from_fn(|i| number(1 + i)),
            libraries: words[1 + AMOUNTS..split].to_vec(),
            command: words[split + 1..].to_vec(),
        }
    }
}
