//! A call of the lower level on rows and entries, and what it does by the model and by the Rust.

use std::fmt;

use crate::lower::rust::Builds;
use crate::lower::tally::Tally;
use crate::model::lower::Lent;
use crate::model::numbers::Shape;
use crate::shared::comparison;
use crate::shared::room::{Outcome, Room};

/// What a call is; the numbers are calls.h's.
#[derive(Clone, Copy, PartialEq, Debug)]
pub enum What {
    FreeAll = 1,
    ReserveAll,
    Get,
    GetAt,
    Put,
    IsFree,
    Stats,
    StatsAt,
    Audit,
    Recover,
    TreeRoom,
    TreeRun,
    WhyGet,
    WhyGetAt,
    WhyPut,
}

/// The kernel's own calls and its staff's, but for those that say why.
pub const ALL: [What; 12] = [
    What::FreeAll,
    What::ReserveAll,
    What::Get,
    What::GetAt,
    What::Put,
    What::IsFree,
    What::Stats,
    What::StatsAt,
    What::Audit,
    What::Recover,
    What::TreeRoom,
    What::TreeRun,
];
/// Those that say why a get, a get with a frame or a put would be turned down.
pub const WHY: [What; 3] = [What::WhyGet, What::WhyGetAt, What::WhyPut];
/// The numbers of all of them end before this.
pub const CALLS: usize = 1 + ALL.len() + WHY.len();
/// Its staff's alone.
pub const STAFF: [What; 6] =
    [What::Stats, What::StatsAt, What::Audit, What::Recover, What::TreeRoom, What::TreeRun];

/// A call that lends so many rows and entries. `at` is the start row of a get or of why one is turned down, else
/// the frame. What a call does not take is 0.
#[derive(Clone, Copy)]
pub struct Call {
    pub what: What,
    pub shape: Shape,
    pub rows: u64,
    pub entries: u64,
    pub at: u64,
    pub order: u64,
}

impl Call {
    /// The numbers of a call that lends what is needed and so much more.
    pub fn lending(shape: Shape, more_rows: u64, more_entries: u64) -> Call {
        let (rows, entries) = shape.needed();
        let (rows, entries) = (rows + more_rows, entries + more_entries);
        Call { what: What::FreeAll, shape, rows, entries, at: 0, order: 0 }
    }

    /// Another call with the same numbers, as far as it takes them.
    pub fn to(self, what: What) -> Call {
        let (at, order) = match what {
            What::FreeAll | What::ReserveAll | What::Stats | What::Audit | What::Recover => (0, 0),
            What::TreeRoom | What::TreeRun => (self.at, 0),
            _ => (self.at, self.order),
        };
        Call { what, at, order, ..self }
    }

    /// The call that says why this one would be turned down.
    pub fn why(self) -> Option<Call> {
        let what = match self.what {
            What::Get => What::WhyGet,
            What::GetAt => What::WhyGetAt,
            What::Put => What::WhyPut,
            _ => return None,
        };
        Some(Call { what, ..self })
    }

    /// The call with these numbers of frames and of huge frames in a tree.
    pub fn with(self, n: u64, t: u64) -> Call {
        Call { shape: Shape { n, t, ..self.shape }, ..self }
    }

    /// Whether this is a get whose searches of huge frames the Rust begins elsewhere.
    pub fn apart(&self) -> bool {
        self.what == What::Get && !self.shape.variant.rust_begins_there(self.at, self.order)
    }

    /// What it lends of a room.
    pub fn lends(self, room: &mut Room) -> Lent<'_> {
        let (rows, entries) = room.lent(self.rows, self.entries);
        Lent { shape: self.shape, rows, entries }
    }
}

impl fmt::Display for Call {
    fn fmt(&self, f: &mut fmt::Formatter) -> fmt::Result {
        let Call { what, shape: Shape { n, t, .. }, rows, entries, at, order } = self;
        let lent = format!("N {n}, T {t}, {rows} rows, {entries} entries");
        match what {
            What::FreeAll => write!(f, "free_all({lent})"),
            What::ReserveAll => write!(f, "reserve_all({lent})"),
            What::Get => write!(f, "get({lent}, row {at}, order {order})"),
            What::GetAt => write!(f, "get_at({lent}, frame {at}, order {order})"),
            What::Put => write!(f, "put({lent}, frame {at}, order {order})"),
            What::IsFree => write!(f, "is_free({lent}, frame {at}, order {order})"),
            What::Stats => write!(f, "stats({lent})"),
            What::StatsAt => write!(f, "stats_at({lent}, frame {at}, order {order})"),
            What::Audit => write!(f, "audit({lent})"),
            What::Recover => write!(f, "recover({lent})"),
            What::TreeRoom => write!(f, "room({lent}, frame {at})"),
            What::TreeRun => write!(f, "tree_run({lent}, frame {at})"),
            What::WhyGet => write!(f, "why_get({lent}, row {at}, order {order})"),
            What::WhyGetAt => write!(f, "why_get_at({lent}, frame {at}, order {order})"),
            What::WhyPut => write!(f, "why_put({lent}, frame {at}, order {order})"),
        }
    }
}

/// Whether the Rust has the call, and must have an answer: the equality domain is what "passes 1 to 6 and is not
/// refused with 8, less `recover` with absent entries".
fn in_domain(call: &Call, model: &Outcome) -> bool {
    (model.code == 0 || model.code == 7)
        && match call.what {
            What::Audit | What::TreeRoom | What::TreeRun => false,
            What::WhyGet | What::WhyGetAt | What::WhyPut => false,
            What::Recover => call.shape.needed().1 == call.shape.present(),
            _ => true,
        }
}

/// The numbers that a call is lent: frame and probes; 1 for yes; the three statistics; huge frame and reason;
/// entries and bitfields; nineteen counts; offset and length; reason and frame.
impl comparison::Call for Call {
    type Builds = Builds;
    type Tally = Tally;

    fn item(&self) -> (u64, [u64; 6]) {
        let Call { what, shape: Shape { n, t, .. }, rows, entries, at, order } = *self;
        (what as u64, [n, t, rows, entries, at, order])
    }

    fn lent(&self) -> (u64, u64) {
        (self.rows, self.entries)
    }

    fn by_model(&self, before: &Room) -> Outcome {
        let Call { what, at, order, .. } = *self;
        let mut after = before.clone();
        let mut lent = self.lends(&mut after);
        fn list<const K: usize>((code, numbers): (u64, [u64; K])) -> (u64, Vec<u64>) {
            (code, numbers.to_vec())
        }
        let (code, numbers) = match what {
            What::FreeAll => (lent.free_all(), vec![]),
            What::ReserveAll => (lent.reserve_all(), vec![]),
            What::Get => list(lent.get(at, order)),
            What::GetAt => list(lent.get_at(at, order)),
            What::Put => (lent.put(at, order), vec![]),
            What::IsFree => list(lent.is_free(at, order)),
            What::Stats => list(lent.stats()),
            What::StatsAt => list(lent.stats_at(at, order)),
            What::Audit => list(lent.audit()),
            What::Recover => list(lent.recover()),
            What::TreeRoom => lent.tree_room(at),
            What::TreeRun => list(lent.tree_run(at)),
            What::WhyGet => list(lent.why_get(at, order)),
            What::WhyGetAt => list(lent.why_get_at(at, order)),
            What::WhyPut => list(lent.why_put(at, order)),
        };
        let changes = before.changes(&after);
        if what == What::Recover {
            // "Reports entries and bitfields changed, equal to those that differ before and after."
            let differing = before.differing(&changes, self.shape.variant.huge_rows());
            assert!(numbers == differing, "{self}: {numbers:?} are said to differ, {differing:?} do");
        }
        Outcome { code, numbers, changes }
    }

    /// In the build for the call's T. Probes, which the Rust does not count, are the model's; what a recover
    /// changed, which it does not report, is what differs.
    fn by_rust(&self, builds: &Builds, before: &Room, model: &Outcome) -> Option<Outcome> {
        if !in_domain(self, model) {
            return None;
        }
        let rust = builds.of(self.shape);
        let mut after = before.clone();
        let (rows, entries) = after.lent(self.rows, self.entries);
        let (rows, entries) = (rows.as_mut_ptr(), entries.as_mut_ptr());
        let (n, at, order) = (self.shape.n as usize, self.at as usize, self.order as usize);
        let (mut found, mut yes, mut stats) = (0, 0, [0; 3]);
        let code = unsafe {
            match self.what {
                What::FreeAll => (rust.new)(n, rows, entries, 0),
                What::ReserveAll => (rust.new)(n, rows, entries, 1),
                What::Get => (rust.get)(n, rows, entries, at, order, None, &mut found),
                What::GetAt => (rust.get)(n, rows, entries, 0, order, Some(&at), &mut found),
                What::Put => (rust.put)(n, rows, entries, at, order),
                What::IsFree => (rust.is_free)(n, rows, entries, at, order, &mut yes),
                What::Stats => (rust.stats)(n, rows, entries, &mut stats),
                What::StatsAt => (rust.stats_at)(n, rows, entries, at, order, &mut stats),
                What::Recover => (rust.recover)(n, rows, entries),
                _ => unreachable!("not in the domain"),
            }
        };
        if self.apart() {
            // Document 02, W-206: here ours follows the model alone. Only the code and the huge frame are the
            // Rust's: whether there is a block in one does not depend on where its search begins.
            let [theirs, ours] =
                [found as u64, model.numbers[0]].map(|at| at / self.shape.variant.huge_frames());
            assert_eq!(code as u64, model.code, "{self}: the Rust answers another code");
            assert_eq!(theirs, ours, "{self}: the Rust finds a block in another huge frame");
            return None;
        }
        let changes = before.changes(&after);
        let numbers = match self.what {
            What::Get | What::GetAt => vec![found as u64, model.numbers[1]],
            What::IsFree => vec![yes as u64],
            What::Stats | What::StatsAt => stats.map(|number| number as u64).to_vec(),
            What::Recover => before.differing(&changes, self.shape.variant.huge_rows()).to_vec(),
            _ => vec![],
        };
        Some(Outcome { code: code as u64, numbers, changes })
    }
}
