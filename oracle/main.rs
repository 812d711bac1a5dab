//! The drivers of the comparisons, and the writer of the stored sample, each with the Rust in its process. Run
//! by oracle/compare and oracle/sample, as:
//!
//!     oracle bitfield SEED ROWS STATES EDGES LIBRARIES -- WORKER..
//!     oracle lower SEED RUNS EDGES BORROWS STARTS LIBRARIES -- WORKER..
//!     oracle trace SEED LINES LIBRARIES -- PROGRAM..
//!     oracle sample CALLS ANSWERS ANSWERED LIBRARIES

mod bitfield;
mod lower;
mod model;
mod shared;
mod trace;

use shared::arguments::Arguments;

fn main() {
    let words: Vec<String> = std::env::args().skip(1).collect();
    let (name, words) = words.split_first().expect("one of the names above");
    match &name[..] {
        "bitfield" => bitfield::compare(Arguments::of(words)),
        "lower" => lower::compare(Arguments::of(words)),
        "trace" => trace::compare(Arguments::of(words)),
        "sample" => lower::sample::write([&words[0], &words[1], &words[2]], &words[3..]),
        _ => panic!("{name} is none of the names above"),
    }
}
