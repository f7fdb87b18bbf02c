//! A pool as a tree and a chain of free slots, its words, and the edits on it.

use super::range::Range;
use super::tree::{self, Entry, Node, Side, Tree, Turn};
use std::collections::VecDeque;

pub const HEADER_WORDS: usize = 4;
pub const SLOT_WORDS: usize = 6;
pub const MOST_SLOTS: u64 = 4095;
pub const HALF: u64 = 65_536;

pub const DONE: u64 = 0;
pub const ALREADY_THERE: u64 = 1;
pub const ABSENT: u64 = 2;
pub const FULL: u64 = 13;

/// The entries in their tree and the free slots in their order, first free first.
#[derive(Clone, PartialEq, Eq, Debug)]
pub struct Pool {
    pub slots: u64,
    pub tree: Tree,
    pub free: VecDeque<u64>,
}

/// The number of slots of a pool of this many words: c where the length is 4 + 6c with c from 1 to 4,095.
pub fn slots_of_length(length: usize) -> Option<u64> {
    let past_header = length.checked_sub(HEADER_WORDS)?;
    let slots = (past_header / SLOT_WORDS) as u64;
    let right = past_header % SLOT_WORDS == 0 && (1..=MOST_SLOTS).contains(&slots);
    right.then_some(slots)
}

/// Where the six words of a slot begin.
pub fn first_word(slot: u64) -> usize {
    HEADER_WORDS + SLOT_WORDS * (slot as usize - 1)
}

/// The slot number of a subtree's root; "0 means none".
fn root_slot(tree: &Tree) -> u64 {
    tree.as_ref().map_or(0, |node| node.entry.slot)
}

/// Writes the six words of each live slot: "start, end, value, max, links, shape".
fn write_live(tree: &Tree, words: &mut [u64]) {
    let Some(node) = tree else {
        return;
    };
    let Node { entry, left, right, height, size, max } = &**node;
    let links = root_slot(left) + HALF * root_slot(right);
    let shape = *height as u64 + HALF * size;
    let six = [entry.range.start, entry.range.end, entry.value, *max, links, shape];
    let at = first_word(entry.slot);
    words[at..at + SLOT_WORDS].copy_from_slice(&six);
    write_live(left, words);
    write_live(right, words);
}

impl Pool {
    /// "Formatting links 1, 2, ... c as free, in that order, all else zero."
    pub fn formatted(slots: u64) -> Pool {
        Pool { slots, tree: None, free: (1..=slots).collect() }
    }

    /// All the words: "header: root, first free slot, live count, zero", then the slots; "a free slot has zeros,
    /// except that links holds the next free slot".
    pub fn words(&self) -> Vec<u64> {
        let mut words = vec![0; HEADER_WORDS + SLOT_WORDS * self.slots as usize];
        words[0] = root_slot(&self.tree);
        words[1] = self.free.front().copied().unwrap_or(0);
        words[2] = tree::size(&self.tree);
        write_live(&self.tree, &mut words);
        for (slot, next) in self.free.iter().zip(self.free.iter().skip(1)) {
            words[first_word(*slot) + 4] = *next;
        }
        words
    }

    /// "An insert takes the first free slot"; whether the range is there is asked before whether the pool is full.
    pub fn insert(&mut self, range: Range, value: u64, turns: &mut Vec<Turn>) -> u64 {
        if tree::find(&self.tree, range).is_some() {
            return ALREADY_THERE;
        }
        let Some(slot) = self.free.pop_front() else {
            return FULL;
        };
        let entry = Entry { slot, range, value };
        self.tree = tree::insert(self.tree.take(), entry, turns);
        DONE
    }

    /// "A removal frees the removed entry's own slot, which becomes the first free; every other entry keeps its slot
    /// number."
    pub fn delete(&mut self, range: Range, turns: &mut Vec<Turn>) -> u64 {
        let Some(removed) = tree::find(&self.tree, range) else {
            return ABSENT;
        };
        self.tree = tree::delete(self.tree.take(), range, turns);
        self.free.push_front(removed.slot);
        DONE
    }

    /// "Delete-min and delete-max remove the first and the last in order; on an empty tree nothing happens."
    pub fn delete_outermost(&mut self, side: Side, turns: &mut Vec<Turn>) -> u64 {
        let Some(root) = self.tree.take() else {
            return ABSENT;
        };
        let (removed, rest) = tree::take_outermost(root, side, turns);
        self.tree = rest;
        self.free.push_front(removed.slot);
        DONE
    }

    /// "Clear leaves the words that formatting leaves."
    pub fn clear(&mut self) -> u64 {
        *self = Pool::formatted(self.slots);
        DONE
    }
}
