//! The query, twice: as the list of its hits, and as steps on the pending nodes.

use super::range::Range;
use super::tree::{Entry, Node, Tree};

/// "A node whose max isn't above the query's start is passed over with its subtrees."
fn passed_over(node: &Node, query: Range) -> bool {
    node.max <= query.start
}

/// "Its right subtree is skipped if the query's end isn't above its start."
fn right_skipped(node: &Node, query: Range) -> bool {
    query.end <= node.entry.range.start
}

/// "A query visits node, then right subtree, then left subtree. The hits are the overlapping entries in that
/// visiting order."
pub fn hits(tree: &Tree, query: Range) -> Vec<Entry> {
    let mut found = Vec::new();
    gather(tree, query, &mut found);
    found
}

/// Adds one subtree's hits to those found before.
fn gather(tree: &Tree, query: Range, found: &mut Vec<Entry>) {
    let Some(node) = tree else {
        return;
    };
    if passed_over(node, query) {
        return;
    }
    if node.entry.range.overlaps(query) {
        found.push(node.entry);
    }
    if !right_skipped(node, query) {
        gather(&node.right, query, found);
    }
    gather(&node.left, query, found);
}

/// A query under way: what it asks, and its pending nodes, the latest last.
pub struct Walk<'a> {
    pub query: Range,
    pub pending: Vec<&'a Node>,
}

impl<'a> Walk<'a> {
    /// "At the start only the root is pending."
    pub fn new(tree: &'a Tree, query: Range) -> Walk<'a> {
        Walk { query, pending: tree.as_deref().into_iter().collect() }
    }

    /// "A step takes the latest pending node and leaves its children that aren't skipped pending, left before right."
    /// It gives the node that it took.
    pub fn step(&mut self) -> Option<&'a Node> {
        let node = self.pending.pop()?;
        if !passed_over(node, self.query) {
            self.pending.extend(node.left.as_deref());
            if !right_skipped(node, self.query) {
                self.pending.extend(node.right.as_deref());
            }
        }
        Some(node)
    }

    /// Steps until a node taken is a hit, and gives its entry; none when nothing is pending any more.
    pub fn next_hit(&mut self) -> Option<Entry> {
        loop {
            let node = self.step()?;
            if node.entry.range.overlaps(self.query) {
                return Some(node.entry);
            }
        }
    }
}
