//! What is compared: rows, states of one huge frame's rows, and calls on them. All of it follows from the seed.

use crate::bitfield::calls::{Call, What};
use crate::model::numbers::Variant;
use crate::shared::random::{Random, mask};
use crate::shared::room::Room;

/// The rows worth naming, and what lies within two of each: every block alone, set or clear; lanes that
/// are all alike; numbers where the highest bits change.
pub fn named_rows() -> Vec<u64> {
    let mut rows = vec![0];
    for order in 0..7 {
        rows.extend((0..64 >> order).map(|i| mask(i << order, order)));
    }
    rows.extend((0..64).map(|bit| (1 << bit) - 1));
    for lanes in [0x1111_1111_1111_1111, 0x0101_0101_0101_0101, 0x0001_0001_0001_0001, 0x0000_0001_0000_0001]
    {
        rows.extend((0..256u64).map(|lane| lane.wrapping_mul(lanes)));
        rows.extend((0..16).map(|shift| lanes << shift));
    }
    rows.extend(rows.clone().iter().map(|row| !row));
    (0..5).flat_map(|near: u64| rows.iter().map(move |row| row.wrapping_add(near).wrapping_sub(2))).collect()
}

/// The highest number there is.
const LAST: u64 = u64::MAX;
/// What counts as true.
const TRUE: [u32; 4] = [1, 2, 1 << 31, u32::MAX];

/// Orders above a bitfield's.
fn high_orders(variant: Variant) -> impl Iterator<Item = u64> {
    let far = [31, 32, 62, 63, 64, 65, 73, 128, 256, 1 << 32, 1 << 63, LAST];
    (1..4).map(move |above| variant.huge_order + above).chain(far)
}

/// Places and ends from which a sum of 64 bits may wrap.
fn high(variant: Variant) -> [u64; 7] {
    let frames = variant.huge_frames();
    [1 << 32, 1 << 63, LAST - (frames - 1), LAST - (frames / 2 - 1), LAST - 63, LAST - 1, LAST]
}

fn places(variant: Variant) -> Vec<u64> {
    let frames = variant.huge_frames();
    let half = frames / 2;
    let low = [0, 1, 2, 63, 64, 65, 127, 128, half - 1, half, half + 1, half + half / 2];
    let last = [64, 8, 4, 2, 1].map(|before| frames - before);
    let past = [frames, frames + 1, frames + 64, 2 * frames - 1, 2 * frames];
    [&low[..], &last, &past, &high(variant)].concat()
}

/// Ends of a range.
fn ends(variant: Variant) -> Vec<u64> {
    let frames = variant.huge_frames();
    let half = frames / 2;
    let low = [0, 1, 2, 63, 64, 65, 127, 128, 191, 192, half - 1, half, half + 1, half + 64, half + half / 2];
    let last = [65, 64, 2, 1].map(|before| frames - before);
    [&low[..], &last, &[frames, frames + 1, 2 * frames], &high(variant)].concat()
}

fn start_rows(variant: Variant) -> Vec<u64> {
    let rows = variant.huge_rows();
    let past = [rows, rows + 1, 2 * rows - 1, 1 << 32, 1 << 63, LAST - rows, LAST - 2, LAST];
    (0..rows).chain(past).collect()
}

fn search(variant: Variant, row: u64, order: u64) -> Call {
    Call { variant, what: What::Search, length: 0, a: row, b: order, flag: 0 }
}

/// The searches of one row, at each order.
pub fn searches(variant: Variant, row: u64) -> impl Iterator<Item = Call> {
    (0..7).map(move |order| search(variant, row, order))
}

/// Those at orders that the one-row search refuses.
pub fn refused_searches(variant: Variant, row: u64) -> impl Iterator<Item = Call> {
    (7..variant.huge_order + 1).chain(high_orders(variant)).map(move |order| search(variant, row, order))
}

/// Every length with every order and place, start row, or pair of ends above: mostly refusals.
pub fn every_edge(variant: Variant) -> Vec<Call> {
    let rows = variant.huge_rows();
    let (places, ends, start_rows) = (places(variant), ends(variant), start_rows(variant));
    let mut calls = Vec::new();
    for length in (0..rows + 2).chain([2 * rows]) {
        let mut call = |what, a, b, flag| calls.push(Call { variant, what, length, a, b, flag });
        for order in (0..variant.huge_order + 1).chain(high_orders(variant)) {
            for place in &places {
                call(What::Toggle, *place, order, 0);
                call(What::Toggle, *place, order, 1);
                call(What::IsZero, *place, order, 0);
            }
            for start_row in &start_rows {
                call(What::FirstZeros, *start_row, order, 0);
                call(What::SetFirstZeros, *start_row, order, 0);
            }
        }
        for start in &ends {
            for end in &ends {
                call(What::Set, *start, *end, 0);
                call(What::Set, *start, *end, 1);
            }
        }
        for flag in [0].into_iter().chain(TRUE) {
            call(What::Fill, 0, 0, flag);
        }
        call(What::CountZeros, 0, 0, 0);
    }
    calls
}

/// One of a bitfield's blocks, of which it has twice its frames but one, as order and place, the widest first.
fn block(variant: Variant, number: u64) -> (u64, u64) {
    let order = variant.huge_order - (number + 1).ilog2() as u64;
    (order, (number + 1 - (variant.huge_frames() >> order)) << order)
}

/// State `number` and its calls. The states go through all blocks, over and over. Their block is clear,
/// set, either but for one bit, or left as it came, in rows that are crowded, sparse or anything; the
/// calls are at that block, at those around it, and at the lowest one within it of each lower order. Twice
/// the rows of a huge frame can be lent.
pub fn state(variant: Variant, number: u64, random: &mut Random) -> (Room, Vec<Call>) {
    let blocks = 2 * variant.huge_frames() - 1;
    let (order, place) = block(variant, number % blocks);
    let rows = variant.huge_rows() as usize;
    let mut room = vec![0; 2 * rows + 2];
    match random.below(5) {
        0 => {}
        1 => room.fill(u64::MAX),
        2 => room.fill_with(|| random.density()),
        _ => room.fill_with(|| random.row()),
    }
    (room[0], room[1 + rows]) = (random.word(), random.word());
    let treatment = number / blocks % 5;
    let mut put = |bit: u64, held: bool| {
        let row = &mut room[1 + bit as usize / 64];
        *row = *row & !(1 << (bit % 64)) | (held as u64) << (bit % 64);
    };
    if treatment < 4 {
        (place..place + (1 << order)).for_each(|bit| put(bit, treatment % 2 == 1));
    }
    if treatment == 2 || treatment == 3 {
        put(place + random.below(1 << order), treatment == 2);
    }
    (Room::of_rows(&room), calls(variant, number, place, random))
}

fn calls(variant: Variant, number: u64, place: u64, random: &mut Random) -> Vec<Call> {
    let (frames, rows, start_rows) = (variant.huge_frames(), variant.huge_rows(), start_rows(variant));
    let mut calls = Vec::new();
    let mut call = |length, what, a, b, flag| calls.push(Call { variant, what, length, a, b, flag });
    let yes = random.one_of(&TRUE);
    let flag = random.one_of(&[0, yes]);
    for order in 0..variant.huge_order + 1 {
        let place = place >> order << order;
        call(rows, What::Toggle, place, order, 0);
        call(rows, What::Toggle, place, order, yes);
        call(rows, What::IsZero, place, order, 0);
        let start_row = start_rows[(number + order) as usize % start_rows.len()];
        call(rows, What::FirstZeros, start_row, order, 0);
        call(rows, What::SetFirstZeros, start_row, order, 0);
    }
    let (one, other) = (random.below(frames + 1), random.below(frames + 1));
    call(rows, What::Set, one.min(other), one.max(other), 0);
    call(rows, What::Set, one.min(other), one.max(other), yes);
    call(rows, What::Set, one, one, flag);
    call(rows, What::Fill, 0, 0, flag);
    call(rows, What::CountZeros, 0, 0, 0);

    let (length, high) = (random.below(2 * rows + 1), random.word() >> random.below(64));
    let length = random.one_of(&[rows, rows, length]);
    let order = random.one_of(&[number % 16, high]);
    let place = random.one_of(&[one, one + other, high]);
    call(length, What::Toggle, place, order, flag);
    call(length, What::IsZero, place, order, 0);
    call(length, What::FirstZeros, high, order, 0);
    call(length, What::SetFirstZeros, high, order, 0);
    call(length, What::Set, one, place, flag);
    calls
}
