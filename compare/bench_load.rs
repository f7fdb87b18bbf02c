//! The load: random edits as numbers and as records, and queries with some ten hits each.

use crate::random::Random;

/// Positions lie below this.
const SPAN: u64 = 1 << 40;

/// Start and end of a range.
pub type Ends = [u64; 2];

/// What is put in, what is taken out again, and what is asked between.
pub struct Load {
    pub inserts: Vec<Ends>,
    pub deletes: Vec<Ends>,
    pub queries: Vec<Ends>,
}

/// A range whose length is five shares on average, a share being what one entry has of the span.
fn range(random: &mut Random, share: u64) -> Ends {
    let start = random.below(SPAN);
    [start, start + 1 + random.below(10 * share)]
}

impl Load {
    /// So many inserts, as many deletes of the same ranges in another order, and so many queries. With entries and
    /// queries of five shares each, a query hits ten entries on average.
    pub fn new(entries: u64, queries: u64) -> Load {
        let mut random = Random::new(entries);
        let share = SPAN / entries;
        let inserts: Vec<Ends> = (0..entries).map(|_| range(&mut random, share)).collect();
        let mut deletes = inserts.clone();
        for last in (1..deletes.len()).rev() {
            deletes.swap(last, random.below(last as u64 + 1) as usize);
        }
        let queries = (0..queries).map(|_| range(&mut random, share)).collect();
        Load { inserts, deletes, queries }
    }

    /// The inserts as records of kind 3, 25 bytes each; an entry's value is its number.
    pub fn insert_records(&self) -> Vec<u8> {
        let with_value = |(value, ends): (usize, &Ends)| record(3, &[ends[0], ends[1], value as u64]);
        self.inserts.iter().enumerate().flat_map(with_value).collect()
    }

    /// Inserts and deletes as one feed: records of kind 3, then of kind 5, 17 bytes each.
    pub fn records(&self) -> Vec<u8> {
        let mut bytes = self.insert_records();
        bytes.extend(self.deletes.iter().flat_map(|ends| record(5, ends)));
        bytes
    }
}

/// A byte of kind, then 64-bit numbers.
pub fn record(kind: u8, numbers: &[u64]) -> Vec<u8> {
    let body = numbers.iter().flat_map(|number| number.to_le_bytes());
    std::iter::once(kind).chain(body).collect()
}
