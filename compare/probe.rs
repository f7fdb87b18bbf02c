//! Shows what the crate keeps to itself. A generated copy of the crate's lib.rs takes this file in as a child module,
//! and a child sees its parent's private items; the crate's own files stay as they are.

use crate::node::Node;
use crate::{IntervalTree, IntervalTreeIterator};
use alloc::boxed::Box;
use alloc::vec::Vec;

/// Start, end, value, max, height and size of a node, and 1 or 0 for whether it has a left and a right child.
pub type Shape = [u64; 8];

/// Every node of the tree in preorder: node, left subtree, right subtree.
#[must_use]
pub fn shapes(tree: &IntervalTree<u64, u64>) -> Vec<Shape> {
    let mut seen = Vec::new();
    add_shapes(&tree.root, &mut seen);
    seen
}

/// Adds a subtree's nodes in preorder.
fn add_shapes(node: &Option<Box<Node<u64, u64>>>, seen: &mut Vec<Shape>) {
    let Some(node) = node else {
        return;
    };
    seen.push([
        node.interval.start,
        node.interval.end,
        node.value.expect("a node in the tree has its value"),
        node.max,
        node.height as u64,
        node.size as u64,
        u64::from(node.left_child.is_some()),
        u64::from(node.right_child.is_some()),
    ]);
    add_shapes(&node.left_child, seen);
    add_shapes(&node.right_child, seen);
}

/// Start and end of each pending node of a query under way, the latest last.
#[must_use]
pub fn pending(walk: &IntervalTreeIterator<'_, u64, u64>) -> Vec<(u64, u64)> {
    walk.nodes.iter().map(|node| (node.interval.start, node.interval.end)).collect()
}
