//! Counts what a list of asks brings about, by the model, and names what it was to bring about and did not.

use model::tree::{Node, Side, Tree, Turn};
use model::walk::{hits, Walk};
use model::{Edit, Pool, Range, Span};
use std::cmp::Ordering;
use std::collections::BTreeMap;

/// What a recorded list has to hold. Balancing is named by the heavy side and the way its child leans.
const NEEDED: [&str; 32] = [
    "insert: left heavy, child outward",
    "insert: left heavy, child inward",
    "insert: right heavy, child outward",
    "insert: right heavy, child inward",
    "removal: left heavy, child outward",
    "removal: left heavy, child inward",
    "removal: left heavy, child even",
    "removal: right heavy, child outward",
    "removal: right heavy, child inward",
    "removal: right heavy, child even",
    "delete with two children",
    "delete with two children, the successor not the right child",
    "insert already there",
    "delete absent",
    "delete-min on an empty tree",
    "delete-max on an empty tree",
    "clear of a tree that is not empty",
    "stored: empty range",
    "stored: inverted range",
    "stored: excluded end 2^64 - 1",
    "stored: included end 2^64 - 2",
    "stored: a start that another entry has",
    "stored: start 0",
    "stored: start 2^64 - 1",
    "tree of 700 entries",
    "query: hits lost by skipping at the end instead of max",
    "query: a node met with max at the query's start",
    "query: a node met at the query's end, with a right child",
    "query: a hit by one position at the query's start",
    "query: a hit by one position at the query's end",
    "query: empty or inverted, over a tree that is not empty",
    "query: no hit in a tree that is not empty",
];

#[derive(Default)]
pub struct Coverage {
    counts: BTreeMap<String, u64>,
}

/// The node of exactly this range.
fn node_of(tree: &Tree, range: Range) -> Option<&Node> {
    let node = tree.as_deref()?;
    match range.order(node.entry.range) {
        Ordering::Less => node_of(&node.left, range),
        Ordering::Greater => node_of(&node.right, range),
        Ordering::Equal => Some(node),
    }
}

/// Whether an entry of the tree has this start.
fn has_start(tree: &Tree, start: u64) -> bool {
    tree.as_ref().is_some_and(|node| {
        node.entry.range.start == start || has_start(&node.left, start) || has_start(&node.right, start)
    })
}

/// How many hits a walk finds that passes over a node by the node's own end.
fn hits_skipping_by_end(tree: &Tree, query: Range) -> usize {
    let Some(node) = tree else {
        return 0;
    };
    if node.entry.range.end <= query.start {
        return 0;
    }
    let own = usize::from(node.entry.range.overlaps(query));
    own + hits_skipping_by_end(&node.left, query) + hits_skipping_by_end(&node.right, query)
}

impl Coverage {
    /// Counts a thing that has happened.
    fn count(&mut self, what: &str, happened: bool) {
        if happened {
            *self.counts.entry(what.to_string()).or_default() += 1;
        }
    }

    /// Counts what an edit does, by the pool before it, its answer and the turns it made.
    pub fn edit(&mut self, before: &Pool, edit: &Edit, number: u64, turns: &[Turn]) {
        let inserts = matches!(edit, Edit::Insert(..));
        for turn in turns {
            let edit = if inserts { "insert" } else { "removal" };
            let heavy = if turn.heavy == Side::Left { "left" } else { "right" };
            let child = ["inward", "even", "outward"][(turn.child_lean.signum() + 1) as usize];
            self.count(&format!("{edit}: {heavy} heavy, child {child}"), true);
        }
        match edit {
            Edit::Insert(span, _) => self.insert(before, *span, number),
            Edit::Delete(span) => self.delete(before, *span, number),
            Edit::DeleteMin => self.count("delete-min on an empty tree", number == 2),
            Edit::DeleteMax => self.count("delete-max on an empty tree", number == 2),
            Edit::Clear => self.count("clear of a tree that is not empty", before.tree.is_some()),
        }
    }

    /// Counts what an insert stores.
    fn insert(&mut self, before: &Pool, span: Span, number: u64) {
        let Some(range) = span.range() else {
            return;
        };
        let stored = number == 0;
        self.count("insert already there", !stored);
        self.count("stored: empty range", stored && range.start == range.end);
        self.count("stored: inverted range", stored && range.start > range.end);
        self.count("stored: excluded end 2^64 - 1", stored && !span.included && span.end == u64::MAX);
        self.count("stored: included end 2^64 - 2", stored && span.included && span.end == u64::MAX - 1);
        self.count("stored: a start that another entry has", stored && has_start(&before.tree, range.start));
        self.count("stored: start 0", stored && range.start == 0);
        self.count("stored: start 2^64 - 1", stored && range.start == u64::MAX);
        self.count("tree of 700 entries", stored && before.tree.as_ref().is_some_and(|root| root.size == 699));
    }

    /// Counts the place of what a delete removes.
    fn delete(&mut self, before: &Pool, span: Span, number: u64) {
        self.count("delete absent", number == 2);
        let node = span.range().and_then(|range| node_of(&before.tree, range));
        if let Some(Node { left: Some(_), right: Some(right), .. }) = node {
            self.count("delete with two children", true);
            self.count("delete with two children, the successor not the right child", right.left.is_some());
        }
    }

    /// Counts what a query meets on its way.
    pub fn query(&mut self, tree: &Tree, query: Range) {
        let found = hits(tree, query);
        let mut walk = Walk::new(tree, query);
        while let Some(node) = walk.step() {
            let at_end = node.entry.range.start == query.end && node.right.is_some() && node.max > query.start;
            self.count("query: a node met with max at the query's start", node.max == query.start);
            self.count("query: a node met at the query's end, with a right child", at_end);
        }
        for hit in &found {
            let (first, last) = (hit.range.end - 1 == query.start, hit.range.start == query.end - 1);
            self.count("query: a hit by one position at the query's start", first);
            self.count("query: a hit by one position at the query's end", last);
        }
        let lost = hits_skipping_by_end(tree, query) < found.len();
        self.count("query: hits lost by skipping at the end instead of max", lost);
        self.count(
            "query: empty or inverted, over a tree that is not empty",
            tree.is_some() && query.start >= query.end,
        );
        self.count("query: no hit in a tree that is not empty", tree.is_some() && found.is_empty());
    }

    /// The counts as lines, or the first needed thing that never happened.
    pub fn report(&self) -> Result<String, String> {
        let line = |what: &&str| match self.counts.get(*what) {
            Some(times) => Ok(format!("{times:6} {what}")),
            None => Err(format!("the list never has: {what}")),
        };
        Ok(NEEDED.iter().map(line).collect::<Result<Vec<String>, String>>()?.join("\n"))
    }
}
