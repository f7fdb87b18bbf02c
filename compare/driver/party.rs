//! Who is compared, and by what. A party answers requests; one that keeps a pool needs `Entries` only.

use crate::call::{Call, Given, MEASURES};
use crate::encode;
use model::tree::Tree;
use model::{held, Ask, Edit, Range};

pub use meminterval::probe::Shape;

/// What the words of a lent run hold before a call, so that a word written is told from one left alone.
pub const UNTOUCHED: u64 = 0xA5A5_5A5A_A5A5_5A5A;

/// One call of a host.
#[derive(Clone, PartialEq, Debug)]
pub enum Request {
    /// The ask by its own entry; a query lends a run of this many words.
    Direct(Ask, usize),
    /// The same ask as one record to apply.
    Record(Ask, usize),
    /// The edits as records of one feed.
    Feed(Vec<Edit>),
    /// Size, height and `is_empty`.
    Measure,
}

/// A lent run of words, after the call.
#[derive(Clone, PartialEq, Default)]
pub struct Run(pub Vec<u64>);

impl Run {
    /// A run of so many words, before the call.
    pub fn lent(words: usize) -> Run {
        Run(vec![UNTOUCHED; words])
    }
}

impl std::fmt::Debug for Run {
    /// The words up to the last that was written.
    fn fmt(&self, out: &mut std::fmt::Formatter<'_>) -> std::fmt::Result {
        let written = self.0.iter().rposition(|word| *word != UNTOUCHED).map_or(0, |last| last + 1);
        write!(out, "{:?} and {} words untouched", &self.0[..written], self.0.len() - written)
    }
}

/// All that a call gave back, zeros where the call gives no such thing.
#[derive(Clone, PartialEq, Debug, Default)]
pub struct Reply {
    pub number: u64,
    pub hits: u64,
    pub run: Run,
    pub records: u64,
    pub bytes: u64,
    pub measures: [i64; 3],
}

pub trait Party {
    /// How the party is called in a report.
    fn name(&self) -> &'static str;
    /// Begins with an empty tree over so many slots.
    fn format(&mut self, slots: u64);
    /// Begins in the same way, and knows which requests will follow.
    fn begin(&mut self, slots: u64, _: &[Request]) {
        self.format(slots);
    }
    /// Answers a request.
    fn reply(&mut self, request: &Request) -> Reply;
    /// The nodes in preorder, or what is wrong with the pool.
    fn shapes(&self) -> Result<Vec<Shape>, String>;
    /// The pool's words; none for a party that has no pool.
    fn words(&self) -> &[u64];
    /// For each hit of a query the number of pending nodes after it, then their ranges; nothing where it can't be seen.
    fn trail(&self, query: Range) -> Option<Vec<u64>>;
}

/// The entries of document 01 on lent words.
pub trait Entries {
    /// How the party is called in a report.
    fn name(&self) -> &'static str;
    /// Hears which calls will follow on these words, each on what the one before leaves.
    fn foresee(&self, _: &[u64], _: &dyn Fn() -> Vec<Call>) {}
    /// Makes a call on the words and leaves them as the call does.
    fn call(&self, words: &mut [u64], call: &Call) -> Given;
    /// The pending nodes after each hit, as `Party::trail` has them.
    fn trail(&self, words: &[u64], query: Range) -> Option<Vec<u64>>;
}

/// A party that keeps a pool for the entries that it calls.
pub struct Pooled {
    entries: Box<dyn Entries>,
    words: Vec<u64>,
}

impl Pooled {
    /// The party, still without a pool.
    pub fn new(entries: Box<dyn Entries>) -> Pooled {
        Pooled { entries, words: Vec::new() }
    }

    /// Makes the only call of a request.
    fn call(&mut self, request: &Request) -> Given {
        let [call] = &calls_of(request)[..] else {
            unreachable!("only size, height and is_empty are asked together");
        };
        self.entries.call(&mut self.words, call)
    }
}

/// The calls by which a party with a pool makes a request.
fn calls_of(request: &Request) -> Vec<Call> {
    match request {
        Request::Direct(Ask::Edit(edit), _) => vec![Call::Edit(*edit)],
        Request::Direct(Ask::Query(span), room) => vec![Call::Query(*span, Run::lent(*room).0)],
        Request::Record(ask, room) => {
            let bytes = encode::record(ask).expect("only asks that have a record are applied");
            vec![Call::Apply(bytes, Run::lent(*room).0)]
        }
        Request::Feed(edits) => vec![Call::Feed(encode::records(edits))],
        Request::Measure => MEASURES.to_vec(),
    }
}

/// Adds a subtree's nodes in preorder.
fn add_shapes(tree: &Tree, shapes: &mut Vec<Shape>) {
    let Some(node) = tree else {
        return;
    };
    let Range { start, end } = node.entry.range;
    let [left, right] = [&node.left, &node.right].map(|child| u64::from(child.is_some()));
    shapes.push([start, end, node.entry.value, node.max, node.height as u64, node.size, left, right]);
    add_shapes(&node.left, shapes);
    add_shapes(&node.right, shapes);
}

/// The nodes of a model's tree in preorder.
pub fn shapes_of(tree: &Tree) -> Vec<Shape> {
    let mut shapes = Vec::new();
    add_shapes(tree, &mut shapes);
    shapes
}

impl Party for Pooled {
    /// The entries' own name.
    fn name(&self) -> &'static str {
        self.entries.name()
    }

    /// Formats words that hold something else before.
    fn format(&mut self, slots: u64) {
        self.begin(slots, &[]);
    }

    /// Formats such words, and tells the entries beforehand what follows.
    fn begin(&mut self, slots: u64, requests: &[Request]) {
        self.words = vec![UNTOUCHED; 4 + 6 * slots as usize];
        let calls = || std::iter::once(Call::Format).chain(requests.iter().flat_map(calls_of)).collect();
        self.entries.foresee(&self.words, &calls);
        assert_eq!(self.entries.call(&mut self.words, &Call::Format).number, 0, "format of {slots} slots");
    }

    /// Makes the calls of the request.
    fn reply(&mut self, request: &Request) -> Reply {
        if *request == Request::Measure {
            let given = MEASURES.map(|call| self.entries.call(&mut self.words, &call));
            let number = given.iter().map(|one| one.number).max().unwrap_or(0);
            return Reply { number, measures: given.map(|one| one.counts[0] as i64), ..Reply::default() };
        }
        let Given { number, counts: [first, second], rows } = self.call(request);
        let reply = Reply { number, run: Run(rows), ..Reply::default() };
        match request {
            Request::Direct(..) | Request::Measure => Reply { hits: first, ..reply },
            Request::Record(..) => Reply { bytes: first, hits: second, ..reply },
            Request::Feed(_) => Reply { records: first, bytes: second, ..reply },
        }
    }

    /// The tree that the words hold, read by the model's soundness check.
    fn shapes(&self) -> Result<Vec<Shape>, String> {
        match held(&self.words) {
            Ok(pool) => Ok(shapes_of(&pool.tree)),
            Err(clause) => Err(format!("the pool is not sound: {clause:?}")),
        }
    }

    /// All words of the pool.
    fn words(&self) -> &[u64] {
        &self.words
    }

    /// What the entries can show.
    fn trail(&self, query: Range) -> Option<Vec<u64>> {
        self.entries.trail(&self.words, query)
    }
}
