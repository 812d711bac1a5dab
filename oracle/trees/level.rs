//! What stands in for llfree.rs, which wants local.rs, a file that is not among the sources: it reserves
//! trees for classes of requests, one tree for each class at a time, and asks the lower level for blocks of
//! them. Which tree, and what is counted in it, is for trees.rs to say. It follows llfree.rs, but demotes no
//! tree that another class has reserved.

use core::cell::Cell;
use std::vec::Vec;

use crate::bitfield::RowId;
use crate::trees::{TreeId, Trees};
use crate::*;

use super::both::Both;

/// The tree that a class has reserved: the row of its last block there, and the free frames that are its own.
#[derive(Clone, Copy)]
struct Reservation {
    row: RowId,
    free: usize,
}

pub struct Level {
    pub both: Both,
    trees: Trees<'static>,
    policy: PolicyFn,
    locals: Vec<Cell<Option<Reservation>>>,
    frames: usize,
}

impl Level {
    pub fn new(frames: usize, classing: &Classing) -> Level {
        let both = Both::new(frames);
        let buffer = vec![0u64; Trees::metadata_size(frames).div_ceil(8)].leak();
        let buffer = unsafe { core::slice::from_raw_parts_mut(buffer.as_mut_ptr().cast(), 8 * buffer.len()) };
        let trees =
            Trees::new(frames, buffer, Some(|start| both.free_in_tree(FrameId(start))), classing.default);
        let locals = vec![Cell::new(None); classing.classes().len()];
        Level { both, trees, policy: classing.policy, locals, frames }
    }

    pub fn get(&self, request: Request) -> Result<(FrameId, Class)> {
        let class = request.class;
        let start = match self.get_local(request.order, class, None, true) {
            Err((Error::Memory, start)) => start.unwrap_or(TreeId(0)),
            Err((error, _)) => return Err(error),
            Ok(frame) => return Ok((frame, class)),
        };
        match self.search_and_reserve(request.order, class, start) {
            Err(Error::Memory) => {}
            answer => return answer,
        }
        // Of the trees that other classes have reserved, where the policy lets it.
        for other in (0..self.locals.len()).map(|other| Class(other as u8)) {
            let steals = |free| matches!((self.policy)(class, other, free), Policy::Match(_) | Policy::Steal);
            if other != class && self.local(other).get().is_some_and(|local| steals(local.free)) {
                match self.get_local(request.order, other, None, false) {
                    Err((Error::Memory, _)) => {}
                    Err((error, _)) => return Err(error),
                    Ok(frame) => return Ok((frame, other)),
                }
            }
        }
        Err(Error::Memory)
    }

    pub fn get_at(&self, frame: FrameId, request: Request) -> Result<(FrameId, Class)> {
        match self.get_local(request.order, request.class, Some(frame), true) {
            Err((Error::Memory, _)) => {}
            Err((error, _)) => return Err(error),
            Ok(frame) => return Ok((frame, request.class)),
        }
        let (tree, frames) = (frame.as_tree(), request.frames());
        let class = self.trees.steal(tree, request.class, frames, self.policy).ok_or(Error::Memory)?;
        match self.both.get(tree.as_row(), request.order, Some(frame)) {
            Ok(frame) => Ok((frame, class)),
            Err(error) => {
                self.trees.put(tree, frames, self.policy);
                Err(error)
            }
        }
    }

    pub fn put(&self, frame: FrameId, request: Request) -> Result<()> {
        self.both.put(frame, request.order)?;
        if !self.put_local(request.class, frame.as_tree(), request.frames()) {
            self.trees.put(frame.as_tree(), request.frames(), self.policy);
        }
        Ok(())
    }

    fn local(&self, class: Class) -> &Cell<Option<Reservation>> {
        &self.locals[class.0 as usize]
    }

    /// Adds free frames to a class's reservation, if it is that of a tree.
    fn put_local(&self, class: Class, tree: TreeId, free: usize) -> bool {
        match self.local(class).get() {
            Some(Reservation { row, free: own }) if row.as_tree() == tree => {
                self.local(class).set(Some(Reservation { row, free: own + free }));
                true
            }
            _ => false,
        }
    }

    /// A block of the tree that a class has reserved; refused with 7, it says which tree that was.
    fn get_local(
        &self,
        order: usize,
        class: Class,
        frame: Option<FrameId>,
        sync: bool,
    ) -> core::result::Result<FrameId, (Error, Option<TreeId>)> {
        let Some(Reservation { row, free }) = self.local(class).get() else {
            return Err((Error::Memory, None));
        };
        let (tree, frames) = (row.as_tree(), 1 << order);
        if frame.is_some_and(|frame| frame.as_tree() != tree) {
            return Err((Error::Memory, Some(tree)));
        }
        if free < frames {
            if sync && let Some(more) = self.trees.sync(tree, frames - free) {
                assert!(self.put_local(class, tree, more));
                return self.get_local(order, class, frame, false);
            }
            return Err((Error::Memory, Some(tree)));
        }
        let free = free - frames;
        self.local(class).set(Some(Reservation { row, free }));
        // From a huge frame's first row both begin with the same group above order 6 too (document 02, W-206).
        let start = if order > 6 { row.as_huge().as_row() } else { row };
        match self.both.get(start, order, frame) {
            Ok(frame) => {
                self.local(class).set(Some(Reservation { row: frame.as_row(), free }));
                Ok(frame)
            }
            Err(error) => {
                self.trees.put(tree, frames, self.policy);
                Err((error, Some(tree)))
            }
        }
    }

    /// A block of another tree, the best that trees.rs finds near the last one, or else anywhere.
    fn search_and_reserve(&self, order: usize, class: Class, start: TreeId) -> Result<(FrameId, Class)> {
        let rate = |target, free| match free >= 1 << order {
            true => (self.policy)(class, target, free),
            false => Policy::Invalid,
        };
        let access = |tree| self.reserve_or_steal(tree, order, class);
        let near = (self.trees.len() / 16).max(4);
        if order < HUGE_ORDER {
            let only = |target, free| match rate(target, free) {
                Policy::Demote if free < TREE_FRAMES => Policy::Invalid,
                Policy::Steal => Policy::Invalid,
                policy => policy,
            };
            match self.trees.search_best::<3, _>(start, 1, near, only, access) {
                Err(Error::Memory) => {}
                answer => return answer,
            }
        }
        let direct = |target, free| match rate(target, free) {
            Policy::Match(_) => Policy::Match(u8::MAX),
            Policy::Demote if free == TREE_FRAMES => Policy::Match(u8::MAX),
            policy => policy,
        };
        self.trees.search_best::<8, _>(start, 0, self.trees.len(), direct, access)
    }

    fn reserve_or_steal(&self, tree: TreeId, order: usize, class: Class) -> Result<(FrameId, Class)> {
        let frames = 1 << order;
        let taken = self.trees.reserve_or_steal(tree, class, frames, self.policy);
        let (reserved, free, class) = taken.ok_or(Error::Memory)?;
        match self.both.get(tree.as_row(), order, None) {
            Ok(frame) => {
                if reserved {
                    self.unreserve(class);
                    self.local(class).set(Some(Reservation { row: frame.as_row(), free: free - frames }));
                }
                Ok((frame, class))
            }
            Err(error) => {
                match reserved {
                    true => self.trees.unreserve(tree, free, class, self.policy),
                    false => self.trees.put(tree, frames, self.policy),
                }
                Err(error)
            }
        }
    }

    fn unreserve(&self, class: Class) {
        if let Some(Reservation { row, free }) = self.local(class).take() {
            self.trees.unreserve(row.as_tree(), free, class, self.policy);
        }
    }

    /// Gives all reserved trees back.
    pub fn drain(&self) {
        (0..self.locals.len()).for_each(|class| self.unreserve(Class(class as u8)));
    }

    /// Takes a free tree away from trees.rs, and lets it have it again.
    pub fn offline_and_online(&self) {
        let change = |operation| TreeChange { class: None, operation: Some(operation) };
        for id in (0..self.trees.len()).map(TreeId) {
            let (_, free, reserved) = self.trees.stats_at(id);
            if free > 0 && !reserved {
                let matcher = TreeMatch { id: Some(id), class: None, free };
                let fetch = |tree: TreeId| self.both.free_in_tree(tree.as_frame());
                self.trees.change(matcher.clone(), change(TreeOperation::Offline), fetch).unwrap();
                assert_eq!(self.trees.stats_at(id).1, 0);
                let matcher = TreeMatch { free: 0, ..matcher };
                self.trees.change(matcher, change(TreeOperation::Online), fetch).unwrap();
                assert_eq!(self.trees.stats_at(id).1, free);
            }
        }
    }

    /// What trees.rs counts is what the lower level has, and the memory of both is equal. The free frames.
    pub fn validate(&self) -> usize {
        let mut counts: Vec<usize> =
            (0..self.trees.len()).map(|tree| self.trees.stats_at(TreeId(tree)).1).collect();
        for Reservation { row, free } in self.locals.iter().filter_map(Cell::get) {
            assert!(self.trees.stats_at(row.as_tree()).2, "a tree is not reserved");
            counts[row.as_tree().0] += free;
        }
        for (tree, count) in counts.iter().enumerate() {
            assert_eq!(self.both.free_in_tree(TreeId(tree).as_frame()), *count, "tree {tree}");
        }
        let free = self.both.free_in_all();
        assert_eq!(free, counts.iter().sum());
        assert!(free <= self.frames);
        free
    }
}
