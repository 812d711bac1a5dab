//! A second reading of document 01's program `trace`: what it is to print for each line. What a line does is
//! the Rust's doing wherever the Rust has it, and that of the model of the lower level.

use crate::lower::calls::{Call, What};
use crate::lower::line::answer;
use crate::lower::rust::Builds;
use crate::model::numbers::{Shape, Variant};
use crate::shared::comparison::Call as _;
use crate::shared::random::Random;
use crate::shared::room::{Outcome, Room};

/// "`trace` holds 4,096 rows and 512 entries, all zero at the start, with N = T = 0."
pub const ROWS: u64 = 4096;
pub const ENTRIES: u64 = 512;

pub struct Trace<'a> {
    rust: &'a Builds,
    room: Room,
    shape: Shape,
}

/// What a line is to print, and where it is not bad its call, what that does, and whether the Rust said so
/// too.
pub struct Expected {
    pub text: String,
    pub call: Option<(Call, Outcome, bool)>,
}

impl Trace<'_> {
    pub fn new<'a>(rust: &'a Builds, random: &mut Random) -> Trace<'a> {
        let mut room = Room::new((ROWS, ENTRIES), random);
        let (rows, entries) = room.lent(ROWS, ENTRIES);
        rows.fill(0);
        entries.fill(0);
        Trace { rust, room, shape: Shape { variant: rust.variant, n: 0, t: 0 } }
    }

    pub fn variant(&self) -> Variant {
        self.shape.variant
    }

    /// "A bad line prints `9` alone. A refused I keeps the old N and T."
    pub fn line(&mut self, line: &[u8]) -> Expected {
        let Some(call) = self.call(line) else { return Expected { text: "9".to_string(), call: None } };
        let outcome = call.by_model(&self.room);
        let rust = call.by_rust(self.rust, &self.room, &outcome);
        let both = rust.is_some();
        assert!(rust.is_none_or(|rust| rust == outcome), "the Rust and the model differ in {call}");
        self.room.change(&outcome.changes);
        if is_start(&call) && outcome.code == 0 {
            self.shape = call.shape;
        }
        Expected { text: answer(&outcome), call: Some((call, outcome, both)) }
    }

    /// "`I N T m` (m 0 free, 1 held), `I N m` with T = 4, `G row order`, `P frame order` (get with a frame),
    /// `F frame order` (put), `Q frame order` (is_free), `S`, `T frame order`, `A`, `R`."
    fn call(&self, line: &[u8]) -> Option<Call> {
        let (letter, numbers) = fields(line)?;
        let shape = self.shape;
        let call = |what, at, order| Some(Call { what, shape, rows: ROWS, entries: ENTRIES, at, order });
        let start = |n, t, m| match m {
            0 => Some(call(What::FreeAll, 0, 0)?.with(n, t)),
            1 => Some(call(What::ReserveAll, 0, 0)?.with(n, t)),
            _ => None,
        };
        match (letter, &numbers[..]) {
            ("I", [n, t, m]) => start(*n, *t, *m),
            ("I", [n, m]) => start(*n, 4, *m),
            ("G", [row, order]) => call(What::Get, *row, *order),
            ("P", [frame, order]) => call(What::GetAt, *frame, *order),
            ("F", [frame, order]) => call(What::Put, *frame, *order),
            ("Q", [frame, order]) => call(What::IsFree, *frame, *order),
            ("T", [frame, order]) => call(What::StatsAt, *frame, *order),
            ("S", []) => call(What::Stats, 0, 0),
            ("A", []) => call(What::Audit, 0, 0),
            ("R", []) => call(What::Recover, 0, 0),
            _ => None,
        }
    }
}

pub fn is_start(call: &Call) -> bool {
    matches!(call.what, What::FreeAll | What::ReserveAll)
}

/// "Lines of at most 64 bytes, one space between decimal fields": the letter and the numbers.
fn fields(line: &[u8]) -> Option<(&str, Vec<u64>)> {
    if line.len() > 64 {
        return None;
    }
    let mut words = std::str::from_utf8(line).ok()?.split(' ');
    let letter = words.next()?;
    Some((letter, words.map(number).collect::<Option<_>>()?))
}

/// "No leading zeros, below 2^64."
fn number(word: &str) -> Option<u64> {
    let decimal = word.bytes().all(|byte| byte.is_ascii_digit());
    if decimal && (word == "0" || !word.starts_with('0')) { word.parse().ok() } else { None }
}

/// The lines of an input: "a last unended nonempty line counts".
pub fn split(input: &[u8]) -> Vec<&[u8]> {
    let mut lines: Vec<&[u8]> = input.split(|byte| *byte == b'\n').collect();
    lines.pop_if(|last| last.is_empty());
    lines
}
