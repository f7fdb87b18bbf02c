//! The two sides: the crate, and the library's entries with the two forms of a query behind them. Each measured function
//! has a plain name, so that callgrind can be told to count in it alone.

use crate::load::{Ends, Load};
use meminterval::{Interval, IntervalTree};

pub type Tree = IntervalTree<u64, u64>;

/// As `Hits` of the library.
#[repr(C)]
struct Hits {
    number: u64,
    hits: usize,
}

/// As `Records` of the library, and as `Taken`: a number and two counts.
#[repr(C)]
#[derive(Default)]
struct Records {
    number: u64,
    records: usize,
    taken: usize,
}

/// The words of a row, and of a record that holds one.
const ROW_WORDS: usize = 3;

// `Records` comes back through a pointer before the other arguments, as the C calling rules of x86-64 have it; code
// compiled from the bitcode for another processor takes it in the same place.
extern "C" {
    fn hindraloha_format(pool: *mut u64, len: usize) -> u64;
    fn hindraloha_check(pool: *const u64, len: usize) -> u64;
    fn hindraloha_query(
        pool: *const u64,
        len: usize,
        start: u64,
        end: u64,
        included: u8,
        rows: *mut u64,
        room: usize,
    ) -> Hits;
    fn hindraloha_query_records(
        pool: *const u64,
        len: usize,
        start: u64,
        end: u64,
        included: u8,
        rows: *mut u64,
        room: usize,
    ) -> Hits;
    fn hindraloha_feed(out: *mut Records, pool: *mut u64, len: usize, bytes: *const u8, count: usize) -> *mut Records;
    fn hindraloha_apply(
        out: *mut Records,
        pool: *mut u64,
        len: usize,
        bytes: *const u8,
        count: usize,
        rows: *mut u64,
        room: usize,
    ) -> *mut Records;
    fn bench_walk(
        slots: *const u64,
        len: usize,
        root: u64,
        start: u64,
        end: u64,
        rows: *mut u64,
        room: usize,
    ) -> usize;
    fn bench_records(
        slots: *const u64,
        len: usize,
        root: u64,
        start: u64,
        end: u64,
        rows: *mut u64,
        room: usize,
    ) -> usize;
}

/// One form of a query's entry.
type Entry = unsafe extern "C" fn(*const u64, usize, u64, u64, u8, *mut u64, usize) -> Hits;

/// One form of a query behind its entry: its range is handed on as two numbers.
type Behind = unsafe extern "C" fn(*const u64, usize, u64, u64, u64, *mut u64, usize) -> usize;

/// Formats a pool.
#[no_mangle]
#[inline(never)]
pub fn bench_library_format(pool: &mut [u64]) {
    let number = unsafe { hindraloha_format(pool.as_mut_ptr(), pool.len()) };
    assert_eq!(number, 0, "the pool has a right length");
}

/// One soundness check: its number.
#[no_mangle]
#[inline(never)]
pub fn bench_library_check(pool: &[u64]) -> u64 {
    unsafe { hindraloha_check(pool.as_ptr(), pool.len()) }
}

/// Feeds records to the pool: how many were applied.
#[no_mangle]
#[inline(never)]
pub fn bench_library_feed(pool: &mut [u64], bytes: &[u8]) -> usize {
    let mut fed = Records::default();
    unsafe { hindraloha_feed(&mut fed, pool.as_mut_ptr(), pool.len(), bytes.as_ptr(), bytes.len()) };
    assert!(fed.number == 0 && fed.taken == bytes.len(), "every record is applied");
    fed.records
}

/// Applies one record to the pool, with room for rows: its number.
pub fn library_apply(pool: &mut [u64], bytes: &[u8], rows: &mut [u64]) -> u64 {
    let mut taken = Records::default();
    let (at, room) = (rows.as_mut_ptr(), rows.len());
    unsafe { hindraloha_apply(&mut taken, pool.as_mut_ptr(), pool.len(), bytes.as_ptr(), bytes.len(), at, room) };
    taken.number
}

/// The crate's inserts, then its deletes if so asked, from the numbers that the records hold.
#[no_mangle]
#[inline(never)]
pub fn bench_crate_feed(tree: &mut Tree, load: &Load, deletes: bool) {
    for (value, ends) in load.inserts.iter().enumerate() {
        tree.insert(Interval::new(ends[0], ends[1]), value as u64);
    }
    if deletes {
        for ends in &load.deletes {
            tree.delete(Interval::new(ends[0], ends[1]));
        }
    }
}

/// Queries through an entry, which checks the pool each time and counts its room in so many words: the hits of all.
#[inline(always)]
fn entered(entry: Entry, unit: usize, pool: &[u64], queries: &[Ends], rows: &mut [u64]) -> usize {
    let (at, room) = (rows.as_mut_ptr(), rows.len() / unit);
    let ask = |ends: &Ends| unsafe { entry(pool.as_ptr(), pool.len(), ends[0], ends[1], 0, at, room) };
    queries.iter().map(ask).map(|answer| if answer.number == 0 { answer.hits } else { 0 }).sum()
}

/// Queries behind an entry, where room is counted in so many words: the hits of all.
#[inline(always)]
fn walked(query: Behind, unit: usize, pool: &[u64], queries: &[Ends], rows: &mut [u64]) -> usize {
    let slots = &pool[4..];
    let (at, room) = (rows.as_mut_ptr(), rows.len() / unit);
    let ask = |ends: &Ends| unsafe { query(slots.as_ptr(), slots.len(), pool[0], ends[0], ends[1], at, room) };
    queries.iter().map(ask).sum()
}

/// Queries through the entry that writes rows as words.
#[no_mangle]
#[inline(never)]
pub fn bench_library_query(pool: &[u64], queries: &[Ends], rows: &mut [u64]) -> usize {
    entered(hindraloha_query, 1, pool, queries, rows)
}

/// Queries through the entry that writes rows as records.
#[no_mangle]
#[inline(never)]
pub fn bench_library_query_records(pool: &[u64], queries: &[Ends], rows: &mut [u64]) -> usize {
    entered(hindraloha_query_records, ROW_WORDS, pool, queries, rows)
}

/// Queries on the walk behind the entry that writes words.
#[no_mangle]
#[inline(never)]
pub fn bench_library_walk(pool: &[u64], queries: &[Ends], rows: &mut [u64]) -> usize {
    walked(bench_walk, 1, pool, queries, rows)
}

/// Queries on the walk behind the entry that writes records.
#[no_mangle]
#[inline(never)]
pub fn bench_library_records(pool: &[u64], queries: &[Ends], rows: &mut [u64]) -> usize {
    walked(bench_records, ROW_WORDS, pool, queries, rows)
}

/// Queries on the crate, the same rows written: the hits of all.
#[no_mangle]
#[inline(never)]
pub fn bench_crate_query(tree: &Tree, queries: &[Ends], rows: &mut [u64]) -> usize {
    queries.iter().map(|ends| crate_rows(tree, ends, rows)).sum()
}

/// One query on the crate: writes as many rows as fit, and counts all hits.
fn crate_rows(tree: &Tree, ends: &Ends, rows: &mut [u64]) -> usize {
    let mut hits = 0;
    let mut room = rows.chunks_exact_mut(ROW_WORDS);
    for entry in tree.query(Interval::new(ends[0], ends[1])) {
        if let Some(row) = room.next() {
            row.copy_from_slice(&[entry.interval.start, entry.interval.end, *entry.value]);
        }
        hits += 1;
    }
    hits
}
