//! Compares our bitfield calls with the Rust's and with the model: answers and all rows.

mod calls;
mod inputs;
mod rust;
mod tally;

use crate::shared::arguments::Arguments;
use crate::shared::comparison::Comparison;
use crate::shared::progress::Progress;
use crate::shared::room::Room;
use calls::{Builds, Call};
use tally::Tally;

pub fn compare(arguments: Arguments<3>) {
    let Arguments { mut random, amounts: [rows, states, edges], libraries, command } = arguments;
    let builds = Builds::load(&libraries);
    let variant = builds.variant;
    // A one-row search is lent no rows.
    let none = Room::of_rows(&[0; 2]);
    let mut it = Comparison::<Call>::new("bitfield", &command, builds, none.clone(), Tally::new(variant));
    let mut progress = Progress::new("bitfield");

    it.state(none);
    for row in inputs::named_rows() {
        it.each(inputs::searches(variant, row));
        it.each(inputs::refused_searches(variant, row));
    }
    for done in 0..rows {
        it.each(inputs::searches(variant, random.row()));
        progress.say(done, rows, "rows");
    }
    for done in 0..states {
        let (room, calls) = inputs::state(variant, done, &mut random);
        it.state(room);
        it.each(calls);
        progress.say(done, states, "states");
    }
    let every_edge = inputs::every_edge(variant);
    for done in 0..edges {
        let number = random.word() >> 1;
        let (room, _) = inputs::state(variant, number, &mut random);
        it.state(room);
        it.each(every_edge.iter().copied());
        progress.say(done, edges, "states with every edge");
    }

    let tally = it.end();
    tally.demand_all();
    let [searches, calls, refusals, apart] = tally.figures();
    println!(
        "bitfield: {searches} row searches, {} states, {calls} calls, {refusals} refusals, {apart} searches from \
         outside the first group, 0 differences",
        states + edges
    );
}
