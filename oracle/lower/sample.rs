//! Writes a sample of answers, the Rust's wherever it has one, as oracle/sample says.

use std::fmt::Write;
use std::fs;

use crate::lower::calls::{Call, What};
use crate::lower::line::{answer, line};
use crate::lower::runs::{Run, from_each_row};
use crate::lower::rust::Builds;
use crate::lower::states::named_frames;
use crate::model::numbers::{Shape, TREES};
use crate::shared::comparison::Call as _;
use crate::shared::random::Random;
use crate::shared::reach::Reach;
use crate::shared::room::{Outcome, Room};
use crate::trace::expected::{ENTRIES, ROWS};

/// The three files, as far as they are written.
struct Sample {
    rust: Builds,
    calls: String,
    answers: String,
    /// Whose answers they are.
    answered: String,
    /// Gets above order 6 and below that of a huge frame: those that the Rust begins there too, those that it
    /// begins elsewhere, and those whose search has wrapped.
    grouped: [u64; 3],
    /// Chooses the staff's calls.
    random: Random,
}

impl Sample {
    /// Makes a call on the room; where the Rust has an answer, writes it and its answer. An audit, which the Rust
    /// lacks, and a get that it begins elsewhere are written too, with the model's answer.
    fn call(&mut self, call: &Call, room: &mut Room) -> Outcome {
        let outcome = call.by_model(room);
        let rust = call.by_rust(&self.rust, room, &outcome);
        let alone = (call.what == What::Audit || call.apart()) && [0, 7].contains(&outcome.code);
        let Some(text) = line(call).filter(|_| alone || rust.is_some()) else { return outcome };
        writeln!(self.answered, "{}", if rust.is_some() { "Rust" } else { "model" }).unwrap();
        assert!(rust.is_none_or(|rust| rust == outcome), "the Rust and the model differ in {call}");
        room.change(&outcome.changes);
        writeln!(self.calls, "{text}").unwrap();
        writeln!(self.answers, "{} {}", answer(&outcome), digest(call.shape, room)).unwrap();
        self.count(call, &outcome);
        outcome
    }

    fn count(&mut self, call: &Call, outcome: &Outcome) {
        let Call { what, shape: Shape { variant, .. }, at, order, .. } = *call;
        if what == What::Get && (7..variant.huge_order).contains(&order) {
            let place = outcome.numbers[0] % variant.huge_frames();
            let below = outcome.code == 0 && matches!(Reach::of(variant, at, order, place), Reach::Below);
            self.grouped[call.apart() as usize] += 1;
            self.grouped[2] += below as u64;
        }
    }

    /// Makes a call of the kernel's and, mostly, one of its staff's.
    fn calls(&mut self, call: &Call, run: &Run, room: &mut Room) -> Outcome {
        let outcome = self.call(call, room);
        if self.random.below(4) > 0 {
            let call = run.staff(&mut self.random);
            self.call(&call, room);
        }
        outcome
    }
}

/// FNV-1a of the needed entries and rows.
fn digest(shape: Shape, room: &mut Room) -> u64 {
    let (rows, entries) = shape.needed();
    let (rows, entries) = room.lent(rows, entries);
    let entries = entries.iter().flat_map(|entry| entry.to_le_bytes());
    let bytes = entries.chain(rows.iter().flat_map(|row| row.to_le_bytes()));
    bytes.fold(0xcbf2_9ce4_8422_2325, |hash, byte| (hash ^ byte as u64).wrapping_mul(0x100_0000_01b3))
}

/// Writes the calls, the answers and whose they are to a file each. They are always the same.
pub fn write([calls, answers, answered]: [&str; 3], libraries: &[String]) {
    let rust = Builds::load(libraries);
    let variant = rust.variant;
    let mut sample = Sample {
        rust,
        calls: String::new(),
        answers: String::new(),
        answered: String::new(),
        grouped: [0; 3],
        random: Random(2),
    };
    let mut random = Random(1);
    for t in TREES {
        for start in [What::FreeAll, What::ReserveAll] {
            let shape = Shape { variant, n: variant.huge_frames() * t, t };
            let (mut room, run, start) = Run::from_start(shape, start, &mut random);
            sample.call(&start, &mut room);
            run.tour(&mut random, |call| sample.calls(&call, &run, &mut room));
        }
        // A few calls on each named number of frames that trace has room for, and many where they fill it soon.
        let mut runs: Vec<(u64, usize)> = named_frames(variant, t).into_iter().map(|n| (n, 8)).collect();
        runs.retain(|(n, _)| {
            let (rows, entries) = Shape { variant, n: *n, t }.needed();
            rows <= ROWS && entries <= ENTRIES
        });
        runs.extend([(2000, 80), (2001, 80)]);
        for (number, (n, calls)) in runs.into_iter().enumerate() {
            let starts = [What::ReserveAll, What::FreeAll];
            let shape = Shape { variant, n, t };
            let (mut room, mut run, first) = Run::from_start(shape, starts[number % 2], &mut random);
            sample.call(&first, &mut room);
            sample.call(&Call { what: starts[1 - number % 2], ..first }, &mut room);
            for _ in 0..calls {
                let call = run.next(&mut random);
                let outcome = sample.calls(&call, &run, &mut room);
                run.saw(&call, &outcome);
            }
        }
        // Gets from each row of a huge frame, the last row first: where all is free, and every other group.
        let shape = Shape { variant, n: 4 * variant.huge_frames(), t };
        for (start, first) in [(What::FreeAll, shape.n), (What::ReserveAll, 128)] {
            let (mut room, _, start) = Run::from_start(shape, start, &mut random);
            sample.call(&start, &mut room);
            for at in (first..shape.n).step_by(256) {
                sample.call(&Call { what: What::Put, at, order: 7, ..start }, &mut room);
            }
            let gets: Vec<Call> = from_each_row(shape, 1).collect();
            gets.iter().rev().for_each(|call| drop(sample.call(call, &mut room)));
        }
    }
    let Sample { grouped: [there, elsewhere, below], .. } = sample;
    assert!(there >= 100 && elsewhere >= 100 && below >= 10, "{there}, {elsewhere}, {below}");
    let rust = sample.answered.lines().filter(|word| *word == "Rust").count();
    println!("sample: {} calls, {rust} of them answered by the Rust", sample.calls.lines().count());
    fs::write(calls, sample.calls).unwrap();
    fs::write(answers, sample.answers).unwrap();
    fs::write(answered, sample.answered).unwrap();
}
