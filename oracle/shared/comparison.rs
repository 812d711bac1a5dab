//! The comparison of calls: each is made by our side, by the model and, where it has the call, by the Rust, on
//! the same room. All must answer the same and change the same.

use std::fmt::Display;
use std::mem::take;
use std::process::exit;

use crate::shared::room::{Outcome, Room};
use crate::shared::worker::Worker;

/// A call, and what it does by those beside our side.
pub trait Call: Copy + Display {
    /// The Rust, in the builds that can make the call.
    type Builds;
    type Tally: Tally<Self>;

    /// Its number in calls.h, and its own numbers in the order that they have there.
    fn item(&self) -> (u64, [u64; 6]);
    /// How many rows and entries it is lent.
    fn lent(&self) -> (u64, u64);
    fn by_model(&self, before: &Room) -> Outcome;
    /// None where the Rust does not have the call, or need not do what the model does.
    fn by_rust(&self, builds: &Self::Builds, before: &Room, model: &Outcome) -> Option<Outcome>;
}

/// What the comparison came by.
pub trait Tally<C> {
    /// Counts an answer; `both` where the Rust gave it too.
    fn add(&mut self, call: &C, before: &mut Room, answer: &Outcome, both: bool);
}

/// A room, and the calls on it with what they do by the model. What a kept call left is there for the next.
struct Case<C> {
    room: Room,
    calls: Vec<(C, bool, Outcome)>,
}

pub struct Comparison<C: Call> {
    name: &'static str,
    ours: Worker,
    rust: C::Builds,
    /// The room after the calls so far.
    pub now: Room,
    /// The batch that is being gathered, and the one that our side is at.
    gathered: Vec<Case<C>>,
    sent: Vec<Case<C>>,
    /// How many rooms there were.
    pub states: u64,
    tally: C::Tally,
}

impl<C: Call> Comparison<C> {
    /// A comparison with our side's program, and the room that it begins with.
    pub fn new(
        name: &'static str,
        command: &[String],
        rust: C::Builds,
        now: Room,
        tally: C::Tally,
    ) -> Comparison<C> {
        let ours = Worker::start(command);
        Comparison { name, ours, rust, now, gathered: Vec::new(), sent: Vec::new(), states: 0, tally }
    }

    /// The calls from here on are on this room.
    pub fn state(&mut self, room: Room) {
        self.ours.state(&room);
        self.gathered.push(Case { room: room.clone(), calls: Vec::new() });
        self.now = room;
        self.states += 1;
    }

    /// Makes a call, and hands back what it does. With `keep`, what it changes is there for the next; else it
    /// is put back.
    pub fn call(&mut self, call: C, keep: bool) -> Outcome {
        let outcome = call.by_model(&self.now);
        self.gather(call, keep, outcome.clone());
        outcome
    }

    /// Makes calls, each by itself: what it changes is put back.
    pub fn each(&mut self, calls: impl IntoIterator<Item = C>) {
        for call in calls {
            let outcome = call.by_model(&self.now);
            self.gather(call, false, outcome);
        }
    }

    /// Takes a call into the batch.
    fn gather(&mut self, call: C, keep: bool, model: Outcome) {
        if keep {
            self.now.change(&model.changes);
        }
        self.ours.call(call.item(), keep);
        self.gathered.last_mut().unwrap().calls.push((call, keep, model));
        if self.ours.full() {
            self.turn();
            // Our side still has the room.
            self.gathered.push(Case { room: self.now.clone(), calls: Vec::new() });
        }
    }

    /// Takes our answers to the batch that was sent, sends the next, and judges the former meanwhile.
    fn turn(&mut self) {
        let cases = take(&mut self.sent);
        let answers = (!cases.is_empty()).then(|| self.ours.receive());
        self.sent = take(&mut self.gathered);
        if !self.sent.is_empty() {
            self.ours.send();
        }
        let Some(mut answers) = answers else { return };
        for Case { mut room, calls } in cases {
            for (call, keep, model) in calls {
                let ours = answers.next();
                let both = self.judge(&call, &room, &ours, &model);
                self.tally.add(&call, &mut room, &ours, both);
                if keep {
                    room.change(&model.changes);
                }
            }
        }
    }

    /// Holds our outcome to the model's, and both to the Rust's wherever the Rust has one, as is handed back.
    fn judge(&self, call: &C, before: &Room, ours: &Outcome, model: &Outcome) -> bool {
        let rust = call.by_rust(&self.rust, before, model);
        let theirs = rust.as_ref();
        if ours != model || theirs.is_some_and(|rust| rust != model) {
            let sides = [("ours", Some(ours)), ("the model", Some(model)), ("the Rust", theirs)];
            self.differ(call, before, sides);
        }
        rust.is_some()
    }

    /// Prints what it takes to see the difference again, and ends the run.
    fn differ(&self, call: &C, before: &Room, sides: [(&str, Option<&Outcome>); 3]) -> ! {
        println!("{}: a difference in {call}", self.name);
        println!("  before:\n    {}", before.print(call.lent()));
        for (name, outcome) in sides {
            if let Some(Outcome { code, numbers, changes }) = outcome {
                let changed = before.print_changes(call.lent(), changes);
                println!("  {name}: code {code}, numbers {numbers:?}{changed}");
            }
        }
        exit(1);
    }

    /// Compares what is still gathered or sent, and ends our side's process.
    pub fn end(mut self) -> C::Tally {
        self.turn();
        self.turn();
        self.ours.end();
        self.tally
    }
}
