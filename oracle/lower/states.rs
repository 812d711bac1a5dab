//! The states that are compared: numbers of frames, and rows and entries, consistent or damaged.

use std::iter::repeat_with;

use crate::model::blocks::{held, hold, set_all, zeros};
use crate::model::numbers::{MARK, MOST, Shape, Variant};
use crate::shared::random::Random;
use crate::shared::room::Room;

/// Numbers of frames around a row, a huge frame and the first trees.
pub fn named_frames(variant: Variant, t: u64) -> Vec<u64> {
    let (huge, tree) = (variant.huge_frames(), variant.huge_frames() * t);
    let mut frames = vec![1, 63, 64, 65, huge - 1, huge, huge + 1];
    frames.extend((1..4).flat_map(|trees| [tree * trees - 1, tree * trees, tree * trees + 1]));
    frames.retain(|n| *n <= MOST);
    frames
}

/// A number of frames: a named one, one within a few trees, or any to 300,000, of which most are small.
pub fn frames(variant: Variant, t: u64, random: &mut Random) -> u64 {
    let end = match random.below(8) {
        0..4 => return random.one_of(&named_frames(variant, t)),
        4..6 => (4 * variant.huge_frames() * t).min(300_000) >> random.below(6),
        _ => 300_000 >> random.below(10),
    };
    1 + random.below(end)
}

/// The rows of a huge frame, one by one.
fn rows_by(variant: Variant, row: impl FnMut() -> u64) -> Vec<u64> {
    repeat_with(row).take(variant.huge_rows() as usize).collect()
}

/// The rows of a huge frame that is neither free nor full: anything, rows that are all clear or all set,
/// these and others, or one clear block alone.
fn mixed(variant: Variant, random: &mut Random) -> Vec<u64> {
    match random.below(4) {
        0 => rows_by(variant, || random.row()),
        1 => rows_by(variant, || random.one_of(&[0, u64::MAX])),
        2 => rows_by(variant, || {
            let row = random.row();
            random.one_of(&[0, 0, row, u64::MAX])
        }),
        _ => one_block(variant, random),
    }
}

fn one_block(variant: Variant, random: &mut Random) -> Vec<u64> {
    let mut rows = rows_by(variant, || u64::MAX);
    let order = random.below(variant.huge_order);
    let place = random.below(variant.huge_frames() >> order) << order;
    set_all(&mut rows, place, order, false);
    rows
}

/// The rows of a huge frame with so many clear bits, anywhere.
fn scattered(variant: Variant, clear: u64, random: &mut Random) -> Vec<u64> {
    let mut rows = rows_by(variant, || u64::MAX);
    let mut left: Vec<u64> = (0..variant.huge_frames()).collect();
    for _ in 0..clear {
        let place = left.swap_remove(random.below(left.len() as u64) as usize);
        hold(&mut rows, place, false);
    }
    rows
}

/// The rows of a huge frame in pairs, the groups of order 7: clear, clear but for one bit, or full.
fn pairs(variant: Variant, random: &mut Random) -> Vec<u64> {
    let pair = |_| {
        let bit = 1 << random.below(64);
        random.one_of(&[[0, 0], [0, 0], [0, 0], [0, bit], [bit, 0], [u64::MAX; 2], [u64::MAX; 2]])
    };
    (0..variant.huge_rows() / 2).flat_map(pair).collect()
}

/// A consistent state, fresh, half full, crowded, full, or with fewer free frames in each huge frame than some
/// order wants.
pub fn consistent(shape: Shape, random: &mut Random) -> Room {
    let fullness = random.below(5);
    filled(shape, fullness, random)
}

/// A consistent state in whose huge frames some groups of rows are free.
pub fn in_groups(shape: Shape, random: &mut Random) -> Room {
    filled(shape, 5, random)
}

/// A consistent state as one of the two above has it: fresh, and so on by number; the last is that of `in_groups`.
fn filled(shape: Shape, fullness: u64, random: &mut Random) -> Room {
    let variant = shape.variant;
    let (need_rows, need_entries) = shape.needed();
    let mut room = Room::new((need_rows, need_entries), random);
    let (rows, entries) = room.lent(need_rows, need_entries);
    entries.fill(0);
    let wanted = 1 << random.below(variant.huge_order);
    for (huge, rows) in rows.chunks_mut(variant.huge_rows() as usize).enumerate() {
        // 0 free, 1 held whole, 2 all bits set, 3 mixed, 4 one block free, 5 fewer free frames than wanted,
        // 6 pairs of rows.
        let kind = match fullness {
            0 => 0,
            1 => random.one_of(&[0, 1, 3, 3, 3]),
            2 => random.one_of(&[1, 2, 4, 4]),
            3 => random.one_of(&[1, 2]),
            4 => random.one_of(&[1, 2, 5, 5, 5, 5]),
            _ => random.one_of(&[1, 2, 4, 6, 6, 6]),
        };
        let past = shape.n.saturating_sub(variant.huge_frames() * huge as u64)..variant.huge_frames();
        match kind {
            1 if past.is_empty() => {
                rows.fill(0);
                entries[huge] = MARK;
                continue;
            }
            0 => rows.fill(0),
            1 | 2 => rows.fill(u64::MAX),
            3 => rows.copy_from_slice(&mixed(variant, random)),
            4 => rows.copy_from_slice(&one_block(variant, random)),
            6 => rows.copy_from_slice(&pairs(variant, random)),
            _ => {
                let clear = random.below(wanted);
                rows.copy_from_slice(&scattered(variant, clear, random));
            }
        }
        past.for_each(|bit| hold(rows, bit, true));
        entries[huge] = zeros(rows) as u16;
    }
    room
}

/// A consistent state with these frames free. A huge frame that has none is held whole where that is said of it,
/// else singly.
fn by_frames(
    shape: Shape,
    random: &mut Random,
    free: impl Fn(u64) -> bool,
    whole: impl Fn(u64) -> bool,
) -> Room {
    let (variant, (need_rows, need_entries)) = (shape.variant, shape.needed());
    let mut room = Room::new((need_rows, need_entries), random);
    let (rows, entries) = room.lent(need_rows, need_entries);
    entries.fill(0);
    (0..64 * need_rows).for_each(|frame| hold(rows, frame, frame >= shape.n || !free(frame)));
    for (huge, rows) in rows.chunks_mut(variant.huge_rows() as usize).enumerate() {
        entries[huge] = zeros(rows) as u16;
        if entries[huge] == 0 && (huge as u64) < shape.whole() && whole(huge as u64) {
            rows.fill(0);
            entries[huge] = MARK;
        }
    }
    room
}

/// Consistent states that turn gets and puts of each order down for each reason: every other block of an order is
/// held, whole or singly; each huge frame has one free frame too few for an order below its own; all is held, here
/// whole and there singly; and all but one frame near the end of each tree is free, or held.
pub fn turning_down(shape: Shape, random: &mut Random) -> Vec<Room> {
    let (variant, tree) = (shape.variant, shape.tree_frames());
    let mut rooms = Vec::new();
    for order in 0..shape.top_order() + 1 {
        let offset = random.below(2);
        let singly = random.below(4);
        let free = |frame: u64| (frame >> order) % 2 == offset;
        rooms.push(by_frames(shape, random, free, |huge| huge % 4 != singly));
    }
    for order in 1..variant.huge_order {
        let few = scattered(variant, (1 << order) - 1, random);
        rooms.push(by_frames(shape, random, |frame| !held(&few, frame % variant.huge_frames()), |_| true));
    }
    let single = random.below(shape.t);
    rooms.push(by_frames(shape, random, |_| false, |huge| huge % shape.t != single));
    let place = tree - 1 - random.below(variant.huge_frames());
    rooms.push(by_frames(shape, random, |frame| frame % tree != place, |_| true));
    rooms.push(by_frames(shape, random, |frame| frame % tree == place, |_| true));
    rooms
}

/// Counts that no huge frame has.
fn above(variant: Variant) -> Vec<u16> {
    let free = variant.huge_frames() as u16;
    let near = [1, 2, 4, 8, 64, 128, 255, 256, free].map(|more| free + more);
    [&near[..], &[32768, 65280, MARK - 2, MARK - 1]].concat()
}

/// Damages a state here and there, and hands back the huge frames where it did.
pub fn damage(room: &mut Room, shape: Shape, random: &mut Random) -> Vec<u64> {
    let (variant, present) = (shape.variant, shape.present());
    let (huge_frames, huge_rows) = (variant.huge_frames(), variant.huge_rows());
    let (need_rows, need_entries) = shape.needed();
    let (rows, entries) = room.lent(need_rows, need_entries);
    match random.below(12) {
        // As if all trees were whole: absent entries count as free, and bits past N are clear.
        0 => {
            rows.fill(0);
            entries.fill(huge_frames as u16);
            return vec![];
        }
        1 => {
            rows.fill_with(|| random.row());
            entries.fill_with(|| random.word() as u16 >> random.below(16));
            return vec![];
        }
        _ => {}
    }
    let mut places = Vec::new();
    for _ in 0..1 + random.below(6) {
        let (any, near) = (random.below(need_entries), (present + random.below(2)).min(need_entries) - 1);
        let absent = present + random.below(need_entries + 1 - present);
        let huge = random.one_of(&[any, near, near, absent.min(need_entries - 1)]);
        places.push(huge);
        let entry = &mut entries[huge as usize];
        let power = 1 << random.below(variant.huge_order + 1);
        match random.below(9) {
            0 => *entry = random.below(huge_frames + 1) as u16,
            1 => *entry = random.one_of(&above(variant)),
            2 => *entry = MARK,
            3 => *entry = huge_frames as u16,
            4 => *entry = entry.wrapping_add(power),
            5 => *entry = entry.wrapping_sub(power),
            _ if huge >= present => *entry = power,
            treatment => {
                let rows = &mut rows[(huge_rows * huge) as usize..][..huge_rows as usize];
                match treatment {
                    6 => rows.fill(0),
                    7 => rows[random.below(huge_rows) as usize] ^= 1 << random.below(64),
                    _ => rows.copy_from_slice(&mixed(variant, random)),
                }
            }
        }
    }
    places
}

/// The reasons for which some huge frames of a state are faulty, and all others not.
pub const FAULTS: [&[u64]; 12] =
    [&[], &[1], &[2], &[3], &[4], &[5], &[2, 4], &[4, 2, 4], &[1, 4], &[2, 3], &[5, 4], &[2, 5]];

/// A consistent state but for one huge frame for each reason, which are handed back too. None where N and T
/// have no such huge frames.
pub fn faulty(shape: Shape, reasons: &[u64], random: &mut Random) -> Option<(Room, Vec<[u64; 2]>)> {
    let (whole, present, (need_rows, all)) = (shape.whole(), shape.present(), shape.needed());
    let mut faults = Vec::<[u64; 2]>::new();
    for reason in reasons {
        let candidates = match reason {
            1 | 3 => whole..present,
            2 => 0..whole,
            4 => 0..present,
            _ => present..all,
        };
        let other = |huge: &u64| faults.iter().all(|fault| fault[0] != *huge);
        let candidates: Vec<u64> = candidates.filter(other).collect();
        if candidates.is_empty() {
            return None;
        }
        faults.push([random.one_of(&candidates), *reason]);
    }
    let mut room = consistent(shape, random);
    let (rows, entries) = room.lent(need_rows, all);
    let huge_rows = shape.variant.huge_rows() as usize;
    for [huge, reason] in &faults {
        let rows = rows.chunks_mut(huge_rows).nth(*huge as usize).unwrap_or_default();
        fault(shape, rows, &mut entries[*huge as usize], *reason, random);
    }
    Some((room, faults))
}

/// Makes one huge frame faulty for this reason and none that goes before it.
fn fault(shape: Shape, rows: &mut [u64], entry: &mut u16, reason: u64, random: &mut Random) {
    let (variant, frames) = (shape.variant, shape.variant.huge_frames());
    let some = 1 + random.below(MARK as u64 - 1) as u16;
    match reason {
        1 => {
            *entry = MARK;
            // Bits past N are set, or all are clear: the former would be reason 2.
            if random.below(2) == 0 {
                rows.fill(0);
            }
        }
        2 => {
            *entry = MARK;
            let (any, held) = (mixed(variant, random), random.below(frames));
            let [clear, full] = [0, u64::MAX].map(|row| rows_by(variant, || row));
            rows.copy_from_slice(random.one_of(&[&clear, &full, &any]));
            hold(rows, held, true);
        }
        3 => {
            let partial = shape.n % frames;
            hold(rows, partial + random.below(frames - partial), false);
            // Counted with the free ones, or not: that would be reason 4.
            *entry += random.below(2) as u16;
        }
        4 => {
            let free = frames as u16;
            let zeros = if *entry == MARK { free } else { *entry };
            let other = random.one_of(&[0, free, free + 1, some, MARK - 1]);
            *entry = if other == zeros { zeros ^ 1 } else { other };
        }
        _ => *entry = random.one_of(&[1, frames as u16, some, MARK]),
    }
}
