//! The tree rules. An entry carries its slot number with it, so that whatever moves in the tree keeps its slot.

use super::range::Range;
use std::cmp::Ordering;

/// What one slot holds for the host, and the slot's number.
#[derive(Clone, Copy, PartialEq, Eq, Debug)]
pub struct Entry {
    pub slot: u64,
    pub range: Range,
    pub value: u64,
}

/// The left or the right one of a node's two children.
#[derive(Clone, Copy, PartialEq, Eq, Debug)]
pub enum Side {
    Left,
    Right,
}

impl Side {
    /// The opposite side, for what is said of both sides at once.
    pub fn other(self) -> Side {
        match self {
            Side::Left => Side::Right,
            Side::Right => Side::Left,
        }
    }
}

pub type Tree = Option<Box<Node>>;

/// An entry, its children, and what is derived from them.
#[derive(Clone, PartialEq, Eq, Debug)]
pub struct Node {
    pub entry: Entry,
    pub left: Tree,
    pub right: Tree,
    pub height: i64,
    pub size: u64,
    pub max: u64,
}

/// One balancing that was made: the heavy side, and how far the child there leaned to that same side.
#[derive(Clone, Copy, PartialEq, Eq, Debug)]
pub struct Turn {
    pub heavy: Side,
    pub child_lean: i64,
}

/// "Height: none is -1, a leaf 0, else 1 plus the larger child's."
pub fn height(tree: &Tree) -> i64 {
    tree.as_ref().map_or(-1, |node| node.height)
}

/// "Size counts entries."
pub fn size(tree: &Tree) -> u64 {
    tree.as_ref().map_or(0, |node| node.size)
}

impl Node {
    /// A node over two subtrees, with height, size and max as the rules have them.
    pub fn over(entry: Entry, left: Tree, right: Tree) -> Box<Node> {
        let mut node = Box::new(Node { entry, left, right, height: 0, size: 0, max: 0 });
        node.update();
        node
    }

    /// Sets height, size and max anew; "max is the largest end in the subtree, inverted entries included".
    fn update(&mut self) {
        self.height = 1 + height(&self.left).max(height(&self.right));
        self.size = 1 + size(&self.left) + size(&self.right);
        let below = [&self.left, &self.right].into_iter().flatten().map(|child| child.max);
        self.max = below.fold(self.entry.range.end, u64::max);
    }

    /// The child on a side.
    pub fn child(&self, side: Side) -> &Tree {
        match side {
            Side::Left => &self.left,
            Side::Right => &self.right,
        }
    }

    /// The place of the child on a side, to be changed.
    fn place(&mut self, side: Side) -> &mut Tree {
        match side {
            Side::Left => &mut self.left,
            Side::Right => &mut self.right,
        }
    }

    /// How much higher the node is on a side than on the other; on the left it is 01's factor.
    pub fn lean(&self, side: Side) -> i64 {
        height(self.child(side)) - height(self.child(side.other()))
    }
}

/// Rotates: the child on the side takes the node's place and the node becomes its child on the other side.
fn lift(mut node: Box<Node>, side: Side) -> Box<Node> {
    let Some(mut child) = node.place(side).take() else {
        return node;
    };
    *node.place(side) = child.place(side.other()).take();
    node.update();
    *child.place(side.other()) = Some(node);
    child.update();
    child
}

/// "Below -1: if the right child's factor is above 0, rotate that child right first; then rotate left.
/// Above 1: mirrored. A factor of 0 in the child gives the single rotation."
fn balance(mut node: Box<Node>, turns: &mut Vec<Turn>) -> Box<Node> {
    for heavy in [Side::Left, Side::Right] {
        if node.lean(heavy) <= 1 {
            continue;
        }
        if let Some(child) = node.place(heavy).take() {
            let child_lean = child.lean(heavy);
            turns.push(Turn { heavy, child_lean });
            let straight = if child_lean < 0 { lift(child, heavy.other()) } else { child };
            *node.place(heavy) = Some(straight);
        }
        return lift(node, heavy);
    }
    node
}

/// A node whose children may have changed is "updated, then balanced".
fn settle(mut node: Box<Node>, turns: &mut Vec<Turn>) -> Box<Node> {
    node.update();
    balance(node, turns)
}

/// The entry with exactly this range, if it is there.
pub fn find(tree: &Tree, range: Range) -> Option<Entry> {
    let node = tree.as_ref()?;
    match range.order(node.entry.range) {
        Ordering::Less => find(&node.left, range),
        Ordering::Greater => find(&node.right, range),
        Ordering::Equal => Some(node.entry),
    }
}

/// "Insert goes down by the order; an equal range keeps the old value and the new one is dropped."
pub fn insert(tree: Tree, entry: Entry, turns: &mut Vec<Turn>) -> Tree {
    let Some(mut node) = tree else {
        return Some(Node::over(entry, None, None));
    };
    let side = match entry.range.order(node.entry.range) {
        Ordering::Less => Side::Left,
        Ordering::Greater => Side::Right,
        Ordering::Equal => return Some(node),
    };
    let below = node.place(side);
    *below = insert(below.take(), entry, turns);
    Some(settle(node, turns))
}

/// Takes out the first entry in order (left) or the last (right), and gives it with what remains.
pub fn take_outermost(mut node: Box<Node>, side: Side, turns: &mut Vec<Turn>) -> (Entry, Tree) {
    match node.place(side).take() {
        None => (node.entry, node.place(side.other()).take()),
        Some(child) => {
            let (taken, rest) = take_outermost(child, side, turns);
            *node.place(side) = rest;
            (taken, Some(settle(node, turns)))
        }
    }
}

/// "Delete: with no left child, the right child takes the place; else with no right child, the left does; with both,
/// the smallest entry of the right subtree is installed at the place and removed below."
pub fn delete(tree: Tree, range: Range, turns: &mut Vec<Turn>) -> Tree {
    let mut node = tree?;
    let side = match range.order(node.entry.range) {
        Ordering::Less => Side::Left,
        Ordering::Greater => Side::Right,
        Ordering::Equal => return without_root(node, turns),
    };
    let below = node.place(side);
    *below = delete(below.take(), range, turns);
    Some(settle(node, turns))
}

/// What stands in a node's place once its own entry is removed.
fn without_root(mut node: Box<Node>, turns: &mut Vec<Turn>) -> Tree {
    if node.left.is_none() {
        return node.right;
    }
    let Some(right) = node.right.take() else {
        return node.left;
    };
    let (smallest, rest) = take_outermost(right, Side::Left, turns);
    node.entry = smallest;
    node.right = rest;
    Some(settle(node, turns))
}
