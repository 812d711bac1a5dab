//! Document 01's numbers: those of every state, those that the page size decides, and those that follow from N
//! and T.

/// "N frames, 1 to 1,048,576."
pub const MOST: u64 = 1_048_576;
/// "T one of 1, 2, 4, .. 512."
pub const TREES: [u64; 10] = [1, 2, 4, 8, 16, 32, 64, 128, 256, 512];
pub const LARGEST_TREE: u64 = TREES[TREES.len() - 1];
/// "Entry 65535 is the mark: a huge frame held whole, free count 0."
pub const MARK: u16 = 65535;

/// The rows of a group, as a search of a huge frame visits them: "groups of 2 or 4 rows (8 for a bitfield search
/// at order 9)"; to order 6, one row.
pub const fn group_rows(order: u64) -> u64 {
    if order <= 6 { 1 } else { 1 << (order - 6) }
}

/// What the page size decides. Where the document says order 9, 512 frames or eight rows it means the default
/// size; with pages of 16 KiB it is order 11.
#[derive(Clone, Copy, PartialEq)]
pub struct Variant {
    pub huge_order: u64,
}

impl Variant {
    /// The frames of a huge frame.
    pub const fn huge_frames(self) -> u64 {
        1 << self.huge_order
    }

    /// The rows of a huge frame.
    pub const fn huge_rows(self) -> u64 {
        self.huge_frames() / 64
    }

    /// Whether the Rust begins a search of a huge frame where document 02, W-206, has it begin. Above order 6 the
    /// Rust begins at row 0, whatever the start row: so "only where that start lies in the first group". From the
    /// huge order up there is no other group.
    pub const fn rust_begins_there(self, start_row: u64, order: u64) -> bool {
        order <= 6 || order >= self.huge_order || start_row % self.huge_rows() < group_rows(order)
    }

    /// "Top order = 9 + log2 T."
    pub fn top_order(self, t: u64) -> u64 {
        self.huge_order + t.ilog2() as u64
    }

    /// The top order of the largest trees: no block has a higher one.
    pub fn highest_order(self) -> u64 {
        self.top_order(LARGEST_TREE)
    }
}

/// "Any run of calls keeps one N and one T", and one page size. A call may be given any numbers; what follows
/// from them means something once they pass the refusals 1 and 2.
#[derive(Clone, Copy)]
pub struct Shape {
    pub variant: Variant,
    pub n: u64,
    pub t: u64,
}

impl Shape {
    pub fn top_order(self) -> u64 {
        self.variant.top_order(self.t)
    }

    /// The frames of a tree.
    pub fn tree_frames(self) -> u64 {
        self.variant.huge_frames() * self.t
    }

    /// The huge frames that lie wholly below N.
    pub fn whole(self) -> u64 {
        self.n / self.variant.huge_frames()
    }

    /// The huge frames with some frame below N. Entries from this number on are absent.
    pub fn present(self) -> u64 {
        self.n.div_ceil(self.variant.huge_frames())
    }

    /// "Lent rows: at least 8·ceil(N/512). Lent entries: at least T·ceil(N/512T)."
    pub fn needed(self) -> (u64, u64) {
        (self.variant.huge_rows() * self.present(), self.t * self.n.div_ceil(self.tree_frames()))
    }
}
