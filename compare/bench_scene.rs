//! A load with both sides filled by it, and what is measured of them.

use crate::load::Load;
use crate::measure::{keep, time, Pair};
use crate::plain::bench_plain_check;
use crate::sides::{self, Tree};

/// The words for so many rows.
const ROOM: usize = 3 * 200;

/// The pool and the tree hold all entries of the load; the records are those of the inserts, and of all edits.
pub struct Scene {
    pub load: Load,
    inserts: Vec<u8>,
    edits: Vec<u8>,
    pool: Vec<u64>,
    tree: Tree,
    rows: Vec<u64>,
}

/// A fresh pool of so many slots.
pub fn fresh(slots: usize) -> Vec<u64> {
    let mut pool = vec![0; 4 + 6 * slots];
    sides::bench_library_format(&mut pool);
    pool
}

impl Scene {
    /// Both sides filled, and held to each other: as many entries, and two checks that find the pool sound.
    pub fn new(entries: u64, queries: u64, slots: usize) -> Scene {
        let load = Load::new(entries, queries);
        let (inserts, edits) = (load.insert_records(), load.records());
        let mut pool = fresh(slots);
        sides::bench_library_feed(&mut pool, &inserts);
        let mut tree = Tree::new();
        sides::bench_crate_feed(&mut tree, &load, false);
        assert_eq!(pool[2], tree.size() as u64, "both hold as many entries");
        assert_eq!((sides::bench_library_check(&pool), bench_plain_check(&pool)), (0, 0), "the pool is sound");
        Scene { load, inserts, edits, pool, tree, rows: vec![0; ROOM] }
    }

    /// Holds the rows of all queries, in both forms, through the entry and behind it, to the crate's, and gives the hits
    /// of one on average.
    pub fn compare(&self) -> f64 {
        let forms = [
            sides::bench_library_walk,
            sides::bench_library_query,
            sides::bench_library_records,
            sides::bench_library_query_records,
        ];
        let mut sum = 0;
        for query in self.load.queries.chunks(1) {
            let mut others = [0; ROOM];
            let hits = sides::bench_crate_query(&self.tree, query, &mut others);
            for form in forms {
                let mut rows = [0; ROOM];
                let counted = form(&self.pool, query, &mut rows);
                assert!(hits == counted && rows == others, "the library gives the crate's rows");
            }
            sum += hits;
        }
        sum as f64 / self.load.queries.len() as f64
    }

    /// Holds the two checks to each other where one word of the pool is another: how many of these pools were tried.
    pub fn compare_checks(&self) -> usize {
        let mut pool = self.pool.clone();
        let mut tried = 0;
        for at in 0..pool.len() {
            let word = pool[at];
            for other in [0, 1, word ^ 1, word ^ (1 << 16), word << 16, word ^ (1 << 63), u64::MAX / 6 + 2, u64::MAX] {
                pool[at] = other;
                let numbers = (sides::bench_library_check(&pool), bench_plain_check(&pool));
                assert_eq!(numbers.0, numbers.1, "word {at} as {other}");
                tried += 1;
            }
            pool[at] = word;
        }
        tried
    }

    /// Feeds the inserts, or all edits, to a fresh pool, and makes the same edits on an empty tree.
    pub fn feeds(&self, deletes: bool, repeats: usize) -> Pair {
        let bytes = if deletes { &self.edits } else { &self.inserts };
        let mut pool = self.pool.clone();
        let library = || {
            sides::bench_library_format(&mut pool);
            time(|| sides::bench_library_feed(&mut pool, bytes))
        };
        let original = || {
            let mut tree = Tree::new();
            time(|| sides::bench_crate_feed(&mut tree, &self.load, deletes))
        };
        Pair::take(repeats, library, original)
    }

    /// The words that there are for rows.
    #[cfg(outsiders)]
    pub fn room(&self) -> usize {
        self.rows.len()
    }

    /// All queries on the walk, with rows of its own: the hits of all.
    #[cfg(outsiders)]
    pub fn walk(&self) -> usize {
        sides::bench_library_walk(&self.pool, &self.load.queries, &mut [0; ROOM])
    }

    /// All queries on the walk, and on the crate.
    pub fn walks(&self, repeats: usize) -> Pair {
        let (mut rows, mut others) = (self.rows.clone(), self.rows.clone());
        Pair::take(
            repeats,
            || time(|| sides::bench_library_walk(&self.pool, &self.load.queries, &mut rows)),
            || time(|| sides::bench_crate_query(&self.tree, &self.load.queries, &mut others)),
        )
    }

    /// The first so many queries through the entry, which checks the pool each time, and on the crate.
    pub fn entries(&self, queries: usize, repeats: usize) -> Pair {
        let (mut rows, mut others) = (self.rows.clone(), self.rows.clone());
        let queries = &self.load.queries[..queries];
        Pair::take(
            repeats,
            || time(|| sides::bench_library_query(&self.pool, queries, &mut rows)),
            || time(|| sides::bench_crate_query(&self.tree, queries, &mut others)),
        )
    }

    /// All queries by records, and on the walk, which writes words.
    pub fn records(&self, repeats: usize) -> Pair {
        let (mut rows, mut others) = (self.rows.clone(), self.rows.clone());
        Pair::take(
            repeats,
            || time(|| sides::bench_library_records(&self.pool, &self.load.queries, &mut rows)),
            || time(|| sides::bench_library_walk(&self.pool, &self.load.queries, &mut others)),
        )
    }

    /// The first so many queries through the entry by records, and through the one by words.
    pub fn record_entries(&self, queries: usize, repeats: usize) -> Pair {
        let (mut rows, mut others) = (self.rows.clone(), self.rows.clone());
        let queries = &self.load.queries[..queries];
        Pair::take(
            repeats,
            || time(|| sides::bench_library_query_records(&self.pool, queries, &mut rows)),
            || time(|| sides::bench_library_query(&self.pool, queries, &mut others)),
        )
    }

    /// One check of the pool, and the plain one.
    pub fn checks(&self, repeats: usize) -> Pair {
        Pair::take(
            repeats,
            || time(|| sides::bench_library_check(&self.pool)),
            || time(|| bench_plain_check(&self.pool)),
        )
    }

    /// Runs what is named so many times and no clock, for counts of instructions: a feed no more than twice.
    pub fn run(&mut self, name: &str, times: usize) {
        let mut pools = [fresh(4095), fresh(4095)];
        let mut trees = [Tree::new(), Tree::new()];
        for turn in 0..times {
            match name {
                "library-feed" => keep(sides::bench_library_feed(&mut pools[turn], &self.edits)),
                "library-inserts" => keep(sides::bench_library_feed(&mut pools[turn], &self.inserts)),
                "library-walk" => keep(sides::bench_library_walk(&self.pool, &self.load.queries, &mut self.rows)),
                "library-records" => keep(sides::bench_library_records(&self.pool, &self.load.queries, &mut self.rows)),
                "library-check" => keep(sides::bench_library_check(&self.pool)),
                "crate-feed" => sides::bench_crate_feed(&mut trees[turn], &self.load, true),
                "crate-inserts" => sides::bench_crate_feed(&mut trees[turn], &self.load, false),
                "crate-query" => keep(sides::bench_crate_query(&self.tree, &self.load.queries, &mut self.rows)),
                "plain-check" => keep(bench_plain_check(&self.pool)),
                _ => panic!("there is nothing called {name}"),
            }
        }
        std::mem::forget(trees);
    }
}
