//! The soundness check: 01's sentence, clause by clause. Words that pass are read back as the pool they hold.

use super::pool::{first_word, slots_of_length, Pool, HALF, SLOT_WORDS};
use super::range::Range;
use super::tree::{self, Entry, Node, Side, Tree};
use std::cmp::Ordering;
use std::collections::VecDeque;

/// The clauses of "sound means". The check names the first that it finds broken, in the order of `held`.
#[derive(Clone, Copy, PartialEq, Eq, Debug)]
pub enum Clause {
    /// "length is 4 + 6c", c from 1 to 4,095
    Length,
    /// "live slots form one tree from the root": each link leads to a slot of the pool
    OneTree,
    /// "no slot twice"
    NoSlotTwice,
    /// "bits of links and shape above their two halves are zero"
    HighBits,
    /// "strict order"
    StrictOrder,
    /// "all factors from -1 to 1"
    Factors,
    /// "height, size and max exact"
    HeightSizeMax,
    /// "the free chain ends and holds every other slot once"
    FreeChain,
    /// "free slots are as just said": zeros, except for the link to the next
    FreeSlots,
    /// "the live count is the root's size"
    LiveCount,
    /// "header word 3 is zero"
    HeaderZero,
}

/// The pool that the words hold, or the clause that keeps them from being sound.
pub fn held(words: &[u64]) -> Result<Pool, Clause> {
    let slots = slots_of_length(words.len()).ok_or(Clause::Length)?;
    let mut reading = Reading { words, slots, claimed: vec![false; slots as usize + 1] };
    let tree = reading.tree(words[0])?;
    strict_order(&tree)?;
    each_node(&tree, &|node| factor_allowed(node))?;
    each_node(&tree, &|node| derived_exact(words, node))?;
    let free = reading.free_chain(words[1])?;
    free_slots_clean(words, &free)?;
    demand(words[2] == tree::size(&tree), Clause::LiveCount)?;
    demand(words[3] == 0, Clause::HeaderZero)?;
    Ok(Pool { slots, tree, free })
}

/// A clause holds, or is named.
fn demand(holds: bool, clause: Clause) -> Result<(), Clause> {
    if holds {
        Ok(())
    } else {
        Err(clause)
    }
}

/// The words of a slot, in the order start, end, value, max, links, shape.
fn slot_words(words: &[u64], slot: u64) -> [u64; SLOT_WORDS] {
    let at = first_word(slot);
    std::array::from_fn(|nth| words[at + nth])
}

/// "The check keeps a map of which slots have been claimed, all unclaimed at the start."
struct Reading<'a> {
    words: &'a [u64],
    slots: u64,
    claimed: Vec<bool>,
}

impl Reading<'_> {
    /// Claims a slot; it must be one of the pool's, and not claimed before.
    fn claim(&mut self, slot: u64, no_such: Clause, twice: Clause) -> Result<(), Clause> {
        demand((1..=self.slots).contains(&slot), no_such)?;
        let claimed_before = std::mem::replace(&mut self.claimed[slot as usize], true);
        demand(!claimed_before, twice)
    }

    /// The tree that hangs from a slot, each of its slots claimed.
    fn tree(&mut self, slot: u64) -> Result<Tree, Clause> {
        if slot == 0 {
            return Ok(None);
        }
        self.claim(slot, Clause::OneTree, Clause::NoSlotTwice)?;
        let [start, end, value, _, links, shape] = slot_words(self.words, slot);
        demand(links < HALF * HALF && shape < HALF * HALF, Clause::HighBits)?;
        let left = self.tree(links % HALF)?;
        let right = self.tree(links / HALF)?;
        let entry = Entry { slot, range: Range { start, end }, value };
        Ok(Some(Node::over(entry, left, right)))
    }

    /// The free slots in the order of the chain, which claims every slot that the tree left unclaimed.
    fn free_chain(&mut self, first: u64) -> Result<VecDeque<u64>, Clause> {
        let mut free = VecDeque::new();
        let mut slot = first;
        while slot != 0 {
            self.claim(slot, Clause::FreeChain, Clause::FreeChain)?;
            free.push_back(slot);
            slot = slot_words(self.words, slot)[4];
        }
        demand(!self.claimed[1..].contains(&false), Clause::FreeChain)?;
        Ok(free)
    }
}

/// Asks a question of every node of a tree.
fn each_node(tree: &Tree, holds: &dyn Fn(&Node) -> Result<(), Clause>) -> Result<(), Clause> {
    let Some(node) = tree else {
        return Ok(());
    };
    holds(node)?;
    each_node(&node.left, holds)?;
    each_node(&node.right, holds)
}

/// The ranges of a tree, in order from left to right.
fn ranges_in_order(tree: &Tree, ranges: &mut Vec<Range>) {
    if let Some(node) = tree {
        ranges_in_order(&node.left, ranges);
        ranges.push(node.entry.range);
        ranges_in_order(&node.right, ranges);
    }
}

/// Each range is strictly before the next.
fn strict_order(tree: &Tree) -> Result<(), Clause> {
    let mut ranges = Vec::new();
    ranges_in_order(tree, &mut ranges);
    let ascending = ranges.windows(2).all(|pair| pair[0].order(pair[1]) == Ordering::Less);
    demand(ascending, Clause::StrictOrder)
}

/// The factor is from -1 to 1.
fn factor_allowed(node: &Node) -> Result<(), Clause> {
    demand((-1..=1).contains(&node.lean(Side::Left)), Clause::Factors)
}

/// The stored height, size and max are those of the subtree.
fn derived_exact(words: &[u64], node: &Node) -> Result<(), Clause> {
    let [_, _, _, max, _, shape] = slot_words(words, node.entry.slot);
    let exact = max == node.max && shape % HALF == node.height as u64 && shape / HALF == node.size;
    demand(exact, Clause::HeightSizeMax)
}

/// Start, end, value, max and shape of every free slot are zero.
fn free_slots_clean(words: &[u64], free: &VecDeque<u64>) -> Result<(), Clause> {
    let clean = |slot: &u64| {
        let [start, end, value, max, _, shape] = slot_words(words, *slot);
        [start, end, value, max, shape] == [0; 5]
    };
    demand(free.iter().all(clean), Clause::FreeSlots)
}
