//! The reservation level over both lower levels, on requests by chance: trees SEED CALLS [spoil]
//!
//! Blocks of all orders are taken and given back, until so many calls were made on both. Then all is given
//! back, and all frames must be free, and rows and entries equal. With `spoil` ours makes a get of its own
//! half way, which must be found.

mod both;
mod level;
// Its rows are of no use here.
#[allow(dead_code)]
mod random;

use std::env;
use std::string::String;
use std::vec::Vec;

use crate::*;
use level::Level;
use random::Random;

fn below(random: &mut Random, end: usize) -> usize {
    random.below(end as u64) as usize
}

/// A request of any order: of the log's for single frames most often, of the painter's for huge frames and
/// more.
fn request(random: &mut Random, classes: usize) -> Request {
    let (order, class) = match below(random, 10) {
        0..5 => (0, below(random, classes - 1)),
        5..8 => (below(random, HUGE_ORDER), below(random, classes - 1)),
        _ => (HUGE_ORDER + below(random, TREE_ORDER - HUGE_ORDER + 1), classes - 1),
    };
    Request::new(order, Class(class as u8), Some(0))
}

/// One run: so many calls on a level of so many frames, by a policy.
fn run(frames: usize, classing: &Classing, random: &mut Random, calls: u64, spoil: bool) -> [u64; 2] {
    let level = Level::new(frames, classing);
    let (mut held, mut spoiled, mut steps): (Vec<(FrameId, Request)>, _, usize) = (Vec::new(), false, 0);
    while level.both.calls.get() < calls {
        steps += 1;
        // Now more is taken, now more is given back.
        let take = if steps / 2000 % 2 == 0 { 60 } else { 40 };
        if below(random, 100) < take || held.is_empty() {
            let request = request(random, classing.classes().len());
            let answer = match below(random, 20) {
                0 => level.get_at(FrameId(below(random, frames >> request.order) << request.order), request),
                _ => level.get(request),
            };
            match answer {
                Ok((frame, class)) => held.push((frame, Request { class, ..request })),
                Err(error) => assert_eq!(error, Error::Memory),
            }
        } else {
            let (frame, request) = held.swap_remove(below(random, held.len()));
            assert_eq!(level.put(frame, request), Ok(()));
        }
        match below(random, 5000) {
            0 => level.drain(),
            1 => level.offline_and_online(),
            2 => drop(level.validate()),
            _ => {}
        }
        if spoil && !spoiled && level.both.calls.get() > calls / 2 {
            level.both.spoil();
            spoiled = true;
        }
    }
    for (frame, request) in held {
        assert_eq!(level.put(frame, request), Ok(()));
    }
    level.drain();
    assert_eq!(level.validate(), frames);
    [level.both.calls.get(), level.both.refused.get()]
}

pub fn main() {
    let words: Vec<String> = env::args().collect();
    let (seed, calls) = (words[1].parse().unwrap(), words[2].parse::<u64>().unwrap());
    let mut random = Random(seed);
    let (simple, movable) = (Classing::simple(1).0, Classing::movable(1).0);
    // A few trees and many, with a last one that is partial, and whole ones alone.
    let most = (1 << 20) / TREE_FRAMES;
    let sizes =
        [3 * TREE_FRAMES - 300, 40.min(most) * TREE_FRAMES, 20.min(most) * TREE_FRAMES - TREE_FRAMES / 3 - 1];
    let mut sum = [0, 0];
    for frames in sizes {
        for classing in [&simple, &movable] {
            let [made, refused] = run(frames, classing, &mut random, calls / 6, words.len() > 3);
            sum = [sum[0] + made, sum[1] + refused];
        }
    }
    assert!(sum[1] > 0, "nothing was refused");
    println!(
        "trees: T = {TREE_HUGE}: {} calls of both equal, {} of them refused, and all memory",
        sum[0], sum[1]
    );
}
