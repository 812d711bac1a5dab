//! Compares our lower level's calls with the Rust's and with the model: answers, and every row and entry after
//! each call.

pub mod calls;
mod edges;
mod ledger;
pub mod line;
pub mod runs;
pub mod rust;
pub mod sample;
pub mod states;
mod tally;

use std::collections::BTreeSet;

use crate::model::numbers::{MOST, Shape, TREES};
use crate::shared;
use crate::shared::arguments::Arguments;
use crate::shared::comparison;
use crate::shared::progress::Progress;
use crate::shared::random::Random;
use crate::shared::room::{Outcome, Room};
use calls::{Call, What};
use ledger::Ledger;
use runs::Run;
use rust::Builds;
use tally::Tally;

type Comparison = comparison::Comparison<Call>;

/// Calls in a run, after those it begins with: so many times one of the kernel's and, mostly, one of its
/// staff's.
const RUN: usize = 64;

/// Asks why a get or a put would be turned down, and makes it; hands back what was told, and what it did. Told
/// must be what is so: the refusal of the call itself, or 8; no reason exactly if the call is done, and one
/// exactly if it answers 7. Both are the model's; ours are held to them, and the Rust's get or put is too.
fn ask(it: &mut Comparison, why: Call, call: Call, keep: bool) -> [Outcome; 2] {
    let told = it.call(why, true);
    let outcome = it.call(call, keep);
    let so = match (told.code, &told.numbers[..]) {
        (0, [0, _]) => outcome.code == 0,
        (0, _) => outcome.code == 7,
        (8, _) => matches!(outcome.code, 0 | 7 | 8),
        (code, _) => outcome.code == code,
    };
    assert!(so, "{why} answers {} {:?}, and the call itself {}", told.code, told.numbers, outcome.code);
    [told, outcome]
}

/// Makes a call. Before a get or a put it is asked as above.
fn make(it: &mut Comparison, call: Call, keep: bool) -> Outcome {
    match call.why() {
        Some(why) => {
            let [_, outcome] = ask(it, why, call, keep);
            outcome
        }
        None => it.call(call, keep),
    }
}

/// Makes calls, each by itself: what it changes is put back.
fn each(it: &mut Comparison, calls: Vec<Call>) {
    calls.into_iter().for_each(|call| drop(make(it, call, false)));
}

/// Makes the next call of a run, and keeps what it changes. One time in three it is asked before it, as above.
fn next(it: &mut Comparison, call: Call, random: &mut Random) -> Outcome {
    if random.below(3) == 0 { make(it, call, true) } else { it.call(call, true) }
}

/// Makes the calls that a run chooses.
fn follow(it: &mut Comparison, run: &mut Run, random: &mut Random) {
    for _ in 0..RUN {
        let call = run.next(random);
        let outcome = next(it, call, random);
        run.saw(&call, &outcome);
        if random.below(4) > 0 {
            inspect(it, run, random);
        }
    }
}

/// Makes a call of the staff's. What a recover mended stays so one time in eight, and is clean then.
fn inspect(it: &mut Comparison, run: &Run, random: &mut Random) {
    let call = run.staff(random);
    let recover = call.what == What::Recover;
    let keep = !recover || random.below(8) == 0;
    let outcome = it.call(call, keep);
    if run.consistent && (recover || call.what == What::Audit) {
        assert!(outcome.numbers == [0, 0], "a fault in a consistent state: {call}");
    }
    if recover && keep && outcome.code == 0 {
        demand(it, call.to(What::Audit), 0, [0, 0]);
        demand(it, call, 0, [0, 0]);
    }
}

/// Makes a call of which it is known beforehand what it answers.
fn demand(it: &mut Comparison, call: Call, code: u64, numbers: [u64; 2]) {
    let outcome = it.call(call, true);
    assert!(outcome.code == code && outcome.numbers == numbers, "{call}: not {code} {numbers:?}");
}

/// The calls of the staff on a state with some faults: the audit finds the first, and a recover mends them
/// all, or refuses. Hands back what `ask_apart` counts.
fn mend(it: &mut Comparison, shape: Shape, reasons: &[u64], random: &mut Random) -> [u64; 2] {
    let Some((room, faults)) = states::faulty(shape, reasons, random) else { return [0, 0] };
    it.state(room);
    let apart = ask_apart(it, shape, &faults, random);
    for [huge, _] in faults.iter().chain([&[0, 0]]) {
        it.each(runs::staff(shape, *huge, random));
    }
    let audit = Call::lending(shape, 0, 0).to(What::Audit);
    let first = faults.iter().min().copied().unwrap_or_default();
    demand(it, audit, 0, first);
    let of = |reason: u64| faults.iter().filter(|fault| fault[1] == reason).count() as u64;
    let mended = of(2) + of(4) == faults.len() as u64;
    let (code, changed, left) = if mended { (0, [of(4), of(2)], [0, 0]) } else { (8, [0, 0], first) };
    demand(it, audit.to(What::Recover), code, changed);
    demand(it, audit, 0, left);
    apart
}

/// Asks why gets and puts would be turned down, in the trees that have these faults and in others: that is refused
/// with 8 in the former alone. Hands back how many were answered beside a faulty tree, and how many were refused
/// where all other trees, of which there are some, have no fault.
fn ask_apart(it: &mut Comparison, shape: Shape, faults: &[[u64; 2]], random: &mut Random) -> [u64; 2] {
    let (present, trees) = (shape.present(), shape.n.div_ceil(shape.tree_frames()));
    let faulty: BTreeSet<u64> = faults.iter().map(|[huge, _]| huge / shape.t).collect();
    let places = faults.iter().map(|[huge, _]| *huge).chain([0, random.below(present), present - 1]);
    let mut apart = [0, 0];
    for huge in places.collect::<Vec<_>>() {
        let frame = runs::frame_of(shape, huge, random);
        let damaged = faulty.contains(&(frame / shape.tree_frames()));
        for call in runs::about(shape, frame, random) {
            let why = call.why().expect("a get or a put");
            let [told, _] = ask(it, why, call, false);
            let early = (1..7).contains(&told.code);
            assert!(early || (told.code == 8) == damaged, "{why} answers {}", told.code);
            apart[0] += (told.code == 0 && !faulty.is_empty()) as u64;
            apart[1] += (told.code == 8 && faulty.len() == 1 && trees > 1) as u64;
        }
    }
    apart
}

/// A run that gives back exactly what it took, and nothing that was held before: then every row and entry,
/// also those beyond the needed ones, is as before. Hands back how many frames it took. It follows the model,
/// to which each answer and change of ours is held.
fn borrow(it: &mut Comparison, shape: Shape, random: &mut Random) -> u64 {
    let (room, mut run) = Run::on_consistent(shape, random);
    let mut ledger = Ledger::new(Call::lending(shape, 0, 0), &room);
    it.state(room);
    for _ in 0..RUN {
        let call = run.next(random);
        if ledger.allows(&call, &it.now) {
            let outcome = next(it, call, random);
            run.saw(&call, &outcome);
            ledger.saw(&call, &outcome);
        }
        if random.below(4) > 0 {
            inspect(it, &run, random);
        }
    }
    ledger.give_back(random, |call| it.call(call, true));
    let Shape { n, t, .. } = shape;
    assert!(it.now == ledger.start, "N {n}, T {t}: a run that gave all back has left a trace");
    ledger.borrowed
}

pub fn compare(arguments: Arguments<4>) {
    let Arguments { mut random, amounts: [runs, edges, borrows, starts], libraries, command } = arguments;
    let builds = Builds::load(&libraries);
    let variant = builds.variant;
    let nothing = Room::new((0, 0), &mut random);
    let mut it = Comparison::new("lower", &command, builds, nothing, Tally::new(variant));
    let mut progress = Progress::new("lower");

    // Each named number of frames from both starts; the largest, whose states are slow, from one.
    for (done, t) in TREES.into_iter().enumerate() {
        progress.say(done as u64, TREES.len() as u64, "tree sizes");
        let named = states::named_frames(variant, t);
        let both = named.iter().flat_map(|n| [(*n, What::FreeAll), (*n, What::ReserveAll)]);
        let largest = [(MOST, What::FreeAll), (MOST - 1, What::ReserveAll)];
        for (n, start) in both.chain(largest) {
            let (room, mut run, start) = Run::from_start(Shape { variant, n, t }, start, &mut random);
            it.state(room);
            it.call(start, true);
            run.tour(&mut random, |call| make(&mut it, call, true));
            follow(&mut it, &mut run, &mut random);
        }
        for (room, calls) in edges::refused_with_8(variant, t, &mut random) {
            it.state(room);
            each(&mut it, calls);
        }
        let tree = variant.huge_frames() * t;
        let shape = Shape { variant, n: MOST.min(2 * tree - random.below(tree / 2)), t };
        for room in states::turning_down(shape, &mut random) {
            it.state(room);
            each(&mut it, runs::requests(shape, &mut random));
        }
        let mut apart = [0, 0];
        for n in named.into_iter().chain([MOST - 1, MOST]) {
            let shape = Shape { variant, n, t };
            for reasons in states::FAULTS {
                let [answered, refused] = mend(&mut it, shape, reasons, &mut random);
                apart = [apart[0] + answered, apart[1] + refused];
            }
        }
        if tree < MOST {
            let beside = ["answered beside a faulty tree", "refused beside trees without a fault"];
            beside.iter().zip(apart).for_each(|(what, count)| {
                shared::demand::demand("lower", count, format!("T {t}: why, {what}"));
            });
        }
    }
    // The states from here on: the tree sizes in turn, each with some number of frames.
    let shape = |done: u64, random: &mut Random| {
        let t = TREES[done as usize % TREES.len()];
        Shape { variant, n: states::frames(variant, t, random), t }
    };
    for done in 0..runs {
        let (room, mut run) = Run::on_state(shape(done, &mut random), &mut random);
        it.state(room);
        follow(&mut it, &mut run, &mut random);
        progress.say(done, runs, "runs");
    }
    for done in 0..edges {
        let shape = shape(done, &mut random);
        let (room, _) = Run::on_state(shape, &mut random);
        it.state(room);
        each(&mut it, edges::every_edge(shape, &mut random));
        progress.say(done, edges, "states with every edge");
    }
    let mut borrowed = 0;
    for done in 0..borrows {
        borrowed += borrow(&mut it, shape(done, &mut random), &mut random);
        progress.say(done, borrows, "runs that give all back");
    }
    assert!(borrowed > 0, "nothing was borrowed");
    for done in 0..starts {
        let shape = shape(done, &mut random);
        let mut room = states::in_groups(shape, &mut random);
        if random.below(2) == 0 {
            states::damage(&mut room, shape, &mut random);
        }
        it.state(room);
        it.each(runs::from_each_row(shape, random.below(shape.present())));
        progress.say(done, starts, "states with gets from each row");
    }

    let states = it.states;
    let tally = it.end();
    tally.demand_all();
    let [calls, staff, whys, both, refusals] = tally.figures();
    let [apart, origin, above, below, none] = tally.apart();
    println!(
        "lower: {states} states, {calls} calls ({staff} of stats, stats_at, audit, recover, room and tree_run, {whys} \
         of why_get, why_get_at and why_put), {both} of them answered by the Rust too, {refusals} refusals; \
         {apart} gets from outside the first group ({origin} done where they begin, {above} above, {below} below, \
         {none} refused with 7); {borrows} runs borrowed {borrowed} frames, returned all of them and left no trace; 0 differences",
    );
}
