//! The crate `meminterval` as a party. It has no pool and reports nothing, so its answers are read from its sizes, and
//! the two refusals that it doesn't have (12 and 13) are given in its name.

use crate::encode;
use crate::party::{Party, Reply, Request, Run, Shape};
use meminterval::{probe, IntervalTree, IntervalTreeIterator};
use model::entry::{refuses, LAST_POSITION_INCLUDED};
use model::pool::{ABSENT, ALREADY_THERE, DONE, FULL};
use model::{Ask, Edit, Range, Span};

#[derive(Default)]
pub struct Original {
    tree: IntervalTree<u64, u64>,
    slots: u64,
}

/// The span that answer 12 refuses, and on which the crate panics or wraps.
fn includes_last_position(span: Span) -> bool {
    span.included && span.end == u64::MAX
}

/// The crate's query over a span.
fn walk(tree: &IntervalTree<u64, u64>, span: Span) -> IntervalTreeIterator<'_, u64, u64> {
    if span.included {
        tree.query(span.start..=span.end)
    } else {
        tree.query(span.start..span.end)
    }
}

impl Original {
    /// The number of entries, as the crate says it.
    pub fn size(&self) -> u64 {
        self.tree.size() as u64
    }

    /// The height, as the crate says it.
    pub fn height(&self) -> i64 {
        self.tree.height()
    }

    /// Inserts. A size that stays means that the range was there; one that grows past the slots means a full pool, and
    /// then the tree is put back.
    fn insert(&mut self, span: Span, value: u64) -> u64 {
        let before = self.size();
        let kept = (before == self.slots).then(|| self.tree.clone());
        if span.included {
            self.tree.insert(span.start..=span.end, value);
        } else {
            self.tree.insert(span.start..span.end, value);
        }
        match kept {
            _ if self.size() == before => ALREADY_THERE,
            Some(tree) => {
                self.tree = tree;
                FULL
            }
            None => DONE,
        }
    }

    /// Removes; a size that stays means that nothing was there to remove.
    fn remove(&mut self, removal: impl FnOnce(&mut IntervalTree<u64, u64>)) -> u64 {
        let before = self.size();
        removal(&mut self.tree);
        if self.size() == before {
            ABSENT
        } else {
            DONE
        }
    }

    /// Makes an edit.
    pub fn edit(&mut self, edit: &Edit) -> u64 {
        match *edit {
            Edit::Insert(span, _) | Edit::Delete(span) if includes_last_position(span) => LAST_POSITION_INCLUDED,
            Edit::Insert(span, value) => self.insert(span, value),
            Edit::Delete(span) if span.included => self.remove(|tree| tree.delete(span.start..=span.end)),
            Edit::Delete(span) => self.remove(|tree| tree.delete(span.start..span.end)),
            Edit::DeleteMin => self.remove(IntervalTree::delete_min),
            Edit::DeleteMax => self.remove(IntervalTree::delete_max),
            Edit::Clear => {
                self.tree.clear();
                DONE
            }
        }
    }

    /// The rows of a query in the crate's order.
    pub fn rows(&self, span: Span) -> Vec<[u64; 3]> {
        walk(&self.tree, span).map(|hit| [hit.interval.start, hit.interval.end, *hit.value]).collect()
    }

    /// Makes an ask; the rows go into a run of so many words, as many as fit.
    fn ask(&mut self, ask: &Ask, room: usize) -> Reply {
        let mut run = Run::lent(room);
        match ask {
            Ask::Edit(edit) => Reply { number: self.edit(edit), run, ..Reply::default() },
            Ask::Query(span) if includes_last_position(*span) => {
                Reply { number: LAST_POSITION_INCLUDED, run, ..Reply::default() }
            }
            Ask::Query(span) => {
                let rows = self.rows(*span);
                let words = rows.concat();
                let written = room.min(words.len()) / 3 * 3;
                run.0[..written].copy_from_slice(&words[..written]);
                Reply { hits: rows.len() as u64, run, ..Reply::default() }
            }
        }
    }

    /// Makes edits one after the other until one is refused.
    fn feed(&mut self, edits: &[Edit]) -> Reply {
        let mut fed = Reply::default();
        for edit in edits {
            let number = self.edit(edit);
            if refuses(number) {
                fed.number = number;
                break;
            }
            fed.records += 1;
            fed.bytes += encode::records(&[*edit]).len() as u64;
        }
        fed
    }
}

impl Party for Original {
    /// The crate's name.
    fn name(&self) -> &'static str {
        "meminterval"
    }

    /// An empty tree; the slots only tell when it counts as full.
    fn format(&mut self, slots: u64) {
        *self = Original { tree: IntervalTree::new(), slots };
    }

    /// The crate knows no records: what a record says is asked directly, and its length is added.
    fn reply(&mut self, request: &Request) -> Reply {
        match request {
            Request::Direct(ask, room) => self.ask(ask, *room),
            Request::Record(ask, room) => {
                let reply = self.ask(ask, *room);
                let length = encode::record(ask).map_or(0, |bytes| bytes.len() as u64);
                Reply { bytes: if refuses(reply.number) { 0 } else { length }, ..reply }
            }
            Request::Feed(edits) => self.feed(edits),
            Request::Measure => {
                let measures = [self.tree.size() as i64, self.tree.height(), i64::from(self.tree.is_empty())];
                Reply { measures, ..Reply::default() }
            }
        }
    }

    /// The crate's nodes, as the probe shows them.
    fn shapes(&self) -> Result<Vec<Shape>, String> {
        Ok(probe::shapes(&self.tree))
    }

    /// The crate has no words.
    fn words(&self) -> &[u64] {
        &[]
    }

    /// The nodes that the crate's iterator still holds after each hit.
    fn trail(&self, query: Range) -> Option<Vec<u64>> {
        let mut walk = walk(&self.tree, Span::excluded(query.start, query.end));
        let mut trail = Vec::new();
        while walk.next().is_some() {
            let pending = probe::pending(&walk);
            trail.push(pending.len() as u64);
            trail.extend(pending.iter().flat_map(|(start, end)| [*start, *end]));
        }
        Some(trail)
    }
}
