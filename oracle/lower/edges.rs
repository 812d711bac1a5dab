//! Calls at the boundaries of every number, and calls that are refused with 8. All of it follows from the seed.

use std::ops::Range;

use crate::lower::calls::{ALL, Call, What};
use crate::model::numbers::{LARGEST_TREE, MARK, MOST, Shape, TREES, Variant};
use crate::shared::random::Random;
use crate::shared::room::Room;

/// The highest number there is.
const LAST: u64 = u64::MAX;
/// Numbers of frames that are refused.
const BAD_FRAMES: [u64; 7] = [0, MOST + 1, 2 * MOST, 1 << 32, (1 << 32) + 1024, 1 << 63, LAST];
/// Tree sizes that are refused.
const BAD_TREES: [u64; 12] = {
    let (below, above, twice) = (LARGEST_TREE - 1, LARGEST_TREE + 1, 2 * LARGEST_TREE);
    [0, 3, 5, 6, 7, 12, below, above, twice, (1 << 32) + 4, 1 << 63, LAST]
};

/// Orders above any top order; by some of them a shift would wrap.
fn high_orders(variant: Variant) -> [u64; 13] {
    let highest = variant.highest_order();
    [highest + 1, highest + 2, 31, 32, 62, 63, 64, 65, 73, 128, (1 << 32) + 1, 1 << 63, LAST]
}

/// Start rows in each part of the range and past it, also where 64 times the row wraps.
fn rows(shape: Shape) -> Vec<u64> {
    let Shape { variant, n, t } = shape;
    let (huge, end) = (variant.huge_rows(), n.div_ceil(64));
    let near = [0, 1, huge - 1, huge, huge * t - 1, huge * t, end - 1, end, end + 1, n - 1, n, n + 1];
    let high = [(1 << 58) - 1, 1 << 58, (1 << 58) + 1, 1 << 59, 1 << 63, LAST - (huge - 1), LAST];
    near.into_iter().chain(high).collect()
}

/// Frames in each part of the range and past it, also where adding 2^order wraps.
fn places(shape: Shape, order: u64) -> Vec<u64> {
    let (n, huge, tree) = (shape.n, shape.variant.huge_frames(), shape.tree_frames());
    let frames = 1u64.checked_shl(order.min(64) as u32).unwrap_or(0);
    let last = n.saturating_sub(frames);
    let aligned = n.checked_div(frames).unwrap_or(0).saturating_sub(1).wrapping_mul(frames);
    let near = [0, 1, frames, huge - 1, huge, tree, last, last + 1, aligned, n - 1, n, n + 1];
    let high = [1 << 32, 1 << 63, 0u64.wrapping_sub(frames), LAST - (huge - 1), LAST];
    near.into_iter().chain(high).collect()
}

/// The call with one of its numbers, or two, such as are refused, or at least odd.
pub fn odd(mut call: Call, random: &mut Random) -> Call {
    let variant = call.shape.variant;
    for _ in 0..1 + random.below(2) {
        let high = random.word() >> random.below(64);
        let at = call.at;
        match random.below(7) {
            0 => call.shape.n = random.one_of(&BAD_FRAMES),
            1 => call.shape.t = random.one_of(&BAD_TREES),
            2 => call.rows = random.below(call.rows.max(1)),
            3 => call.entries = random.below(call.entries.max(1)),
            4 => call.order = random.one_of(&high_orders(variant)),
            5 => call.at = random.one_of(&[at.wrapping_add(1), at.wrapping_add(64), call.shape.n, high]),
            _ => call.order = random.below(variant.highest_order() + 3),
        }
    }
    call.to(call.what)
}

/// Every order with every row or frame above; every call with every pair of lengths, and with other numbers
/// of frames and tree sizes. They are for one state, each of them for itself, and mostly refusals.
pub fn every_edge(shape: Shape, random: &mut Random) -> Vec<Call> {
    let Shape { variant, n, .. } = shape;
    let plain = Call::lending(shape, 0, 0);
    let mut calls = Vec::new();
    for order in (0..shape.top_order() + 2).chain(high_orders(variant)) {
        calls.extend(rows(shape).into_iter().map(|at| Call { what: What::Get, at, order, ..plain }));
        for at in places(shape, order) {
            let block = Call { at, order, ..plain };
            let on_blocks = [What::GetAt, What::Put, What::IsFree, What::StatsAt];
            calls.extend(on_blocks.map(|what| block.to(what)));
        }
    }
    for at in places(shape, shape.top_order()) {
        calls.extend([What::TreeRoom, What::TreeRun].map(|what| Call { what, at, ..plain }));
    }
    let mut each = |call: Call| calls.extend(ALL.map(|what| call.to(what)));
    let lengths = |need: u64| [0, 1, need / 2, need - 1, need, need + 1];
    for rows in lengths(plain.rows) {
        lengths(plain.entries).into_iter().for_each(|entries| each(Call { rows, entries, ..plain }));
    }
    for n in BAD_FRAMES.into_iter().chain([1, n / 2, n - 1, n, n + 1, n + variant.huge_frames(), MOST]) {
        TREES.into_iter().chain(BAD_TREES).for_each(|t| each(plain.with(n, t)));
    }
    // Those above have a reason or two to be refused; these may have more.
    let orders = variant.highest_order() + 3;
    for _ in 0..200 {
        let call = Call { at: random.below(n), order: random.below(orders), ..plain };
        let call = call.to(random.one_of(&ALL));
        calls.push(odd(odd(call, random), random));
    }
    calls
}

/// States that are damaged throughout, and calls of each order on them that are all refused with 8: a count
/// above that of a free huge frame with no block, a mark over set bits, and a group that is free but ends past
/// N.
pub fn refused_with_8(variant: Variant, t: u64, random: &mut Random) -> Vec<(Room, Vec<Call>)> {
    let (huge_order, free) = (variant.huge_order, variant.huge_frames() as u16);
    let tree = variant.huge_frames() * t;
    let mut case = |n: u64, row: u64, entry: u16, calls: &[What], orders: Range<u64>| {
        let shape = Shape { variant, n, t };
        let mut room = Room::new(shape.needed(), random);
        let plain = Call::lending(shape, 0, 0);
        let (rows, entries) = room.lent(plain.rows, plain.entries);
        rows.fill(row);
        entries.fill(entry);
        let last = shape.present() - 1;
        let of_get = |what| if what == What::Get { variant.huge_rows() } else { variant.huge_frames() };
        let calls = calls.iter().map(|what| Call { what: *what, at: of_get(*what) * last, ..plain });
        (room, calls.flat_map(|call| orders.clone().map(move |order| Call { order, ..call })).collect())
    };
    vec![
        case(tree, u64::MAX, free + 88, &[What::Get, What::GetAt], 0..huge_order),
        case(tree, u64::MAX, MARK, &[What::Put], 0..huge_order),
        case(tree - 1, 0, free, &[What::Get], huge_order..variant.top_order(t) + 1),
    ]
}
