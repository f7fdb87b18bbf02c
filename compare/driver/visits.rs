//! Which nodes a query looks at. The crate gives only its hits, and a walk that looks at too many nodes has the same
//! hits, and the same pending nodes after each; so here the crate's keys note their comparisons, and these have to be
//! the comparisons on the nodes that the model's steps take.

use crate::asks::{self, FLAVOURS};
use crate::random::Random;
use meminterval::IntervalTree;
use model::entry::perform;
use model::tree::{height, Node, Tree};
use model::walk::Walk;
use model::{Edit, Pool, Range};
use std::cell::RefCell;
use std::cmp::Ordering;

/// Two positions that were compared, the smaller first.
type Pair = (u64, u64);

thread_local! {
    static NOTED: RefCell<Vec<Pair>> = const { RefCell::new(Vec::new()) };
}

/// A position that notes each comparison of its order.
#[derive(Clone, Copy, PartialEq, Eq, Debug)]
struct Key(u64);

impl Ord for Key {
    /// The order of the numbers, noted.
    fn cmp(&self, other: &Key) -> Ordering {
        NOTED.with_borrow_mut(|noted| noted.push(pair(self.0, other.0)));
        self.0.cmp(&other.0)
    }
}

impl PartialOrd for Key {
    /// The same order.
    fn partial_cmp(&self, other: &Key) -> Option<Ordering> {
        Some(self.cmp(other))
    }
}

/// The two positions, the smaller first.
fn pair(one: u64, other: u64) -> Pair {
    (one.min(other), one.max(other))
}

/// The crate's range.
fn keys(range: Range) -> std::ops::Range<Key> {
    Key(range.start)..Key(range.end)
}

/// Makes an edit on the crate's tree.
fn edit(tree: &mut IntervalTree<Key, u64>, edit: &Edit) {
    match edit {
        Edit::Insert(span, value) => span.range().into_iter().for_each(|range| tree.insert(keys(range), *value)),
        Edit::Delete(span) => span.range().into_iter().for_each(|range| tree.delete(keys(range))),
        Edit::DeleteMin => tree.delete_min(),
        Edit::DeleteMax => tree.delete_max(),
        Edit::Clear => tree.clear(),
    }
}

/// The comparisons that a query makes on a node that it takes: the query's start with max; where that is below, its end
/// with the node's start; where that is above, the three of an intersection.
fn on_node(node: &Node, query: Range) -> Vec<Pair> {
    let Range { start, end } = node.entry.range;
    let mut pairs = vec![pair(query.start, node.max)];
    if query.start < node.max {
        pairs.push(pair(query.end, start));
        if query.end > start {
            let shared = pair(start.max(query.start), end.min(query.end));
            pairs.extend([pair(start, query.start), pair(end, query.end), shared]);
        }
    }
    pairs
}

/// The comparisons on all nodes that the model's steps take, in their order. "The walk never holds more than height + 1
/// pending nodes."
fn by_the_model(tree: &Tree, query: Range) -> Result<Vec<Pair>, String> {
    let mut walk = Walk::new(tree, query);
    let mut pairs = Vec::new();
    while let Some(node) = walk.step() {
        pairs.extend(on_node(node, query));
        if walk.pending.len() as i64 > height(tree) + 1 {
            return Err(format!("{} pending nodes at height {}", walk.pending.len(), height(tree)));
        }
    }
    Ok(pairs)
}

/// The comparisons that the crate's query makes.
fn by_the_crate(tree: &IntervalTree<Key, u64>, query: Range) -> Vec<Pair> {
    NOTED.take();
    tree.query(keys(query)).for_each(drop);
    NOTED.take()
}

/// Grows so many random trees on both sides, with a query after each edit; counts what agreed.
pub fn run(trees: u64, seed: u64) -> Result<String, String> {
    let mut random = Random::new(seed);
    let (mut queries, mut compared) = (0, 0);
    for nth in 0..trees {
        let flavour = random.pick(&FLAVOURS);
        let slots = 1 + random.below(80);
        let ranges = asks::ranges(&mut random, flavour, slots);
        let (mut tree, mut pool) = (IntervalTree::new(), Pool::formatted(slots));
        for _ in 0..3 * slots {
            let drawn = asks::edit(&mut random, &ranges, 60);
            edit(&mut tree, &drawn);
            perform(&mut pool, &drawn, &mut Vec::new());
            let Some(query) = asks::query(&mut random, &ranges).range() else {
                continue;
            };
            let (judged, got) = (by_the_crate(&tree, query), by_the_model(&pool.tree, query)?);
            if judged != got {
                return Err(format!("seed {seed}, tree {nth}, {query:?}: crate {judged:?}, model {got:?}"));
            }
            queries += 1;
            compared += judged.len();
        }
    }
    Ok(format!("visits: {queries} queries in {trees} trees (seed {seed}), {compared} comparisons as the model's steps"))
}
