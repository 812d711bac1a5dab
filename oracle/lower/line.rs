//! Calls and their outcomes as document 01's program `trace` reads and prints them.

use crate::lower::calls::{Call, What};
use crate::model::numbers::Shape;
use crate::shared::room::Outcome;

/// The line of a call; room, tree run and those that say why have none.
pub fn line(call: &Call) -> Option<String> {
    let Call { what, shape: Shape { n, t, .. }, at, order, .. } = call;
    let letter = match what {
        What::FreeAll => return Some(format!("I {n} {t} 0")),
        What::ReserveAll => return Some(format!("I {n} {t} 1")),
        What::Stats => return Some("S".to_string()),
        What::Audit => return Some("A".to_string()),
        What::Recover => return Some("R".to_string()),
        What::TreeRoom | What::TreeRun | What::WhyGet | What::WhyGetAt | What::WhyPut => return None,
        What::Get => 'G',
        What::GetAt => 'P',
        What::Put => 'F',
        What::IsFree => 'Q',
        What::StatsAt => 'T',
    };
    Some(format!("{letter} {at} {order}"))
}

/// "Each line prints the code, then" the call's numbers.
pub fn answer(outcome: &Outcome) -> String {
    outcome.numbers.iter().fold(outcome.code.to_string(), |text, number| format!("{text} {number}"))
}
