//! The Rust's lower level and ours in step: each call is made on both, and must have one answer.

use core::cell::{Cell, RefCell};
use core::fmt::Debug;
use core::mem::size_of;
use core::slice;
use std::boxed::Box;
use std::process::exit;
use std::vec::Vec;

use crate::bitfield::RowId;
use crate::lower::Lower;
use crate::util::Align;
use crate::*;

pub struct Both {
    rust: Lower<'static>,
    ours: RefCell<ravelbeam::Lower<'static>>,
    /// The Rust's own memory: the rows, then the entries, those of each tree padded to 64 bytes.
    memory: *const u8,
    frames: usize,
    pub calls: Cell<u64>,
    pub refused: Cell<u64>,
}

/// Memory that lasts as long as the program.
fn leak<T: Clone>(element: T, count: usize) -> &'static mut [T] {
    Box::leak(vec![element; count].into_boxed_slice())
}

impl Both {
    pub fn new(frames: usize) -> Both {
        let lines = leak(Align([0u8; 64]), Lower::metadata_size(frames) / 64);
        let memory = lines.as_mut_ptr().cast::<u8>();
        let bytes = unsafe { slice::from_raw_parts_mut(memory, 64 * lines.len()) };
        let rows = leak(0, ravelbeam::rows_needed(frames));
        let entries = leak(0, ravelbeam::entries_needed(frames, TREE_HUGE));
        Both {
            rust: Lower::new(frames, Init::FreeAll, bytes).expect("the memory is as large as it has to be"),
            ours: ravelbeam::Lower::new(frames, TREE_HUGE, ravelbeam::Init::FreeAll, rows, entries)
                .unwrap()
                .into(),
            memory,
            frames,
            calls: Cell::new(0),
            refused: Cell::new(0),
        }
    }

    /// The answer of both, or the end of the run.
    fn equal<T: PartialEq + Debug>(
        &self,
        call: &str,
        rust: Result<T>,
        ours: core::result::Result<T, ravelbeam::Error>,
    ) -> Result<T> {
        let ours = match ours {
            Ok(answer) => Ok(answer),
            Err(ravelbeam::Error::Memory) => Err(Error::Memory),
            Err(error) => self.differ(call, &rust, &error),
        };
        if rust != ours {
            self.differ(call, &rust, &ours)
        }
        self.calls.set(self.calls.get() + 1);
        self.refused.set(self.refused.get() + rust.is_err() as u64);
        rust
    }

    fn differ(&self, call: &str, rust: &dyn Debug, ours: &dyn Debug) -> ! {
        println!(
            "trees: T = {TREE_HUGE}: call {} differs: {call}: the Rust {rust:?}, ours {ours:?}",
            self.calls.get()
        );
        exit(1)
    }

    pub fn get(&self, start: RowId, order: usize, frame: Option<FrameId>) -> Result<FrameId> {
        let rust = self.rust.get(start, order, frame);
        let chosen = frame.map(|frame| ravelbeam::FrameId(frame.0));
        let ours = self.ours.borrow_mut().get(ravelbeam::RowId(start.0), order, chosen);
        let ours = ours.map(|got| FrameId(got.frame.0)).map_err(|refusal| refusal.error);
        self.equal("get", rust, ours)
    }

    pub fn put(&self, frame: FrameId, order: usize) -> Result<()> {
        let ours = self.ours.borrow_mut().put(ravelbeam::FrameId(frame.0), order);
        self.equal("put", self.rust.put(frame, order), ours)
    }

    /// The free frames of a frame's tree.
    pub fn free_in_tree(&self, frame: FrameId) -> usize {
        let ours = self.ours.borrow().stats_at(ravelbeam::FrameId(frame.0), TREE_ORDER);
        let rust = self.rust.stats_at(frame, TREE_ORDER).free_frames;
        self.equal("stats_at", Ok(rust), ours.map(|stats| stats.free_frames)).unwrap()
    }

    /// The free frames of all trees, having seen that every row and entry of both is equal.
    pub fn free_in_all(&self) -> usize {
        let ours = self.ours.borrow();
        let theirs: *const u64 = self.memory.cast();
        let rows = unsafe { slice::from_raw_parts(theirs, ours.rows().len()) };
        if rows != ours.rows() {
            self.differ("rows", &rows, &ours.rows())
        }
        let padded = size_of::<Align<[u16; TREE_HUGE]>>() / size_of::<u16>();
        let theirs: *const u16 = unsafe { theirs.add(rows.len()) }.cast();
        let tree = |tree| unsafe { slice::from_raw_parts(theirs.add(tree * padded), TREE_HUGE) };
        let entries: Vec<u16> = (0..self.frames.div_ceil(TREE_FRAMES)).flat_map(tree).copied().collect();
        if entries != ours.entries() {
            self.differ("entries", &entries, &ours.entries())
        }
        self.equal("stats", Ok(self.rust.stats().free_frames), Ok(ours.stats().free_frames)).unwrap()
    }

    /// A get that ours alone makes, or a put if nothing is free, to see that a difference is found.
    pub fn spoil(&self) {
        let mut ours = self.ours.borrow_mut();
        if ours.get(ravelbeam::RowId(0), 0, None).is_err() {
            ours.put(ravelbeam::FrameId(0), 0).expect("all of the tree is held");
        }
    }
}
