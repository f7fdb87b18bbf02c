//! What the crate does with an included end of 2^64 - 1. It is built optimised and with debug assertions, and its lines
//! are kept in compare/recorded/included-end.txt.

use meminterval::{probe, IntervalTree};
use std::panic::{catch_unwind, AssertUnwindSafe};

const BUILD: &str = if cfg!(debug_assertions) { "debug" } else { "optimised" };

/// A tree with nothing in it, or with 1..2 in it.
fn tree(stored: bool) -> IntervalTree<u64, u64> {
    let mut tree = IntervalTree::new();
    if stored {
        tree.insert(1..2, 0);
    }
    tree
}

/// The ranges that are stored, node before children.
fn ranges(tree: &IntervalTree<u64, u64>) -> String {
    let shown = probe::shapes(tree).iter().map(|shape| format!(" {}..{}", shape[0], shape[1])).collect::<String>();
    if shown.is_empty() {
        " nothing".to_string()
    } else {
        shown
    }
}

/// Does one thing on an empty tree and on one that isn't, and prints what came of it.
fn show(what: &str, call: fn(&mut IntervalTree<u64, u64>) -> usize) {
    for stored in [false, true] {
        let mut tree = tree(stored);
        let before = ranges(&tree);
        let came = match catch_unwind(AssertUnwindSafe(|| call(&mut tree))) {
            Ok(hits) => format!("{hits} hits, stored after:{}", ranges(&tree)),
            Err(_) => "panic".to_string(),
        };
        println!("{BUILD}: {what}, stored before:{before}: {came}");
    }
}

/// Inserts to the last position and gives no hits.
fn insert(tree: &mut IntervalTree<u64, u64>) -> usize {
    tree.insert(5..=u64::MAX, 0);
    0
}

/// Deletes to the last position and gives no hits.
fn delete(tree: &mut IntervalTree<u64, u64>) -> usize {
    tree.delete(1..=u64::MAX);
    0
}

/// Queries to the last position and counts the hits.
fn query(tree: &mut IntervalTree<u64, u64>) -> usize {
    tree.query(0..=u64::MAX).count()
}

/// Shows insert, delete and query; the message that a panic prints by itself is left out.
fn main() {
    std::panic::set_hook(Box::new(|_| ()));
    show("insert 5..=18446744073709551615", insert);
    show("delete 1..=18446744073709551615", delete);
    show("query 0..=18446744073709551615", query);
}
