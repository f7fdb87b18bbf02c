//! How much stack the entries use: the words below the caller are painted, and after the call it is seen how far down
//! the paint is gone. The pool holds the tree of greatest height that 4,095 slots have room for, at its fewest entries.

use crate::load::record;
use crate::measure::keep;
use crate::scene::fresh;
use crate::sides;
use std::hint::black_box;
use std::ptr::{addr_of, read_volatile, write_volatile};

/// The words that are painted, what with, and how many above them are left to the painting function's own frame.
const PAINTED: usize = 16384;
const PAINT: u64 = 0x5A5A_5A5A_5A5A_5A5A;
const SPARED: usize = 64;

/// The greatest height of a tree in 4,095 slots.
const HEIGHT: i32 = 15;

/// How many bytes below this function's frame a call writes to.
#[inline(never)]
fn depth(call: &mut dyn FnMut()) -> usize {
    let here = 0u64;
    let top = black_box(addr_of!(here) as usize);
    for below in SPARED..PAINTED {
        unsafe { write_volatile((top - 8 * below) as *mut u64, PAINT) };
    }
    call();
    let is_painted = |below: &usize| unsafe { read_volatile((top - 8 * below) as *const u64) == PAINT };
    let lowest = (SPARED..PAINTED).rev().find(|below| !is_painted(below));
    8 * lowest.unwrap_or(SPARED)
}

/// The places of a thinnest tree of so great a height, level by level: inserted in that order they make it.
fn thinnest(height: i32) -> Vec<u64> {
    let mut places = Vec::new();
    let mut level = vec![(height, 0)];
    while !level.is_empty() {
        places.extend(level.iter().map(|(height, first)| first + entries(height - 1)));
        let children =
            |&(height, first): &(i32, u64)| [(height - 1, first), (height - 2, first + entries(height - 1) + 1)];
        level = level.iter().flat_map(children).filter(|(height, _)| *height >= 0).collect();
    }
    places
}

/// The fewest entries of a tree of so great a height.
fn entries(height: i32) -> u64 {
    if height < 0 {
        return 0;
    }
    entries(height - 1) + entries(height - 2) + 1
}

/// How deep one record goes, as a feed or applied, on a copy of the pool: the deeper of the two.
fn deeper(pool: &[u64], bytes: &[u8]) -> usize {
    let (mut fed, mut applied, mut rows) = (pool.to_vec(), pool.to_vec(), vec![0; 30]);
    let feed = depth(&mut || keep(sides::bench_library_feed(&mut fed, bytes)));
    let apply = depth(&mut || keep(sides::library_apply(&mut applied, bytes, &mut rows)));
    feed.max(apply)
}

/// The pool with the thinnest tree of greatest height, and the places of its entries.
fn high_pool() -> (Vec<u64>, Vec<u64>) {
    let places = thinnest(HEIGHT);
    let insert = |place: &u64| record(3, &[10 * place, 10 * place + 10, 0]);
    let mut pool = fresh(4095);
    sides::bench_library_feed(&mut pool, &places.iter().flat_map(insert).collect::<Vec<u8>>());
    let height = pool[4 + 6 * (pool[0] as usize - 1) + 5] & 65535;
    assert_eq!(height, HEIGHT as u64, "the tree has the greatest height");
    (pool, places)
}

/// Prints what check, query, insert and delete use at most, the edits at every place.
fn report() {
    let (pool, places) = high_pool();
    let check = depth(&mut || keep(sides::bench_library_check(&pool)));
    let (whole, mut rows, mut copy) = ([0, u64::MAX], vec![0; 30], pool.clone());
    let asked = record(9, &whole);
    let entered = depth(&mut || keep(sides::bench_library_query(&pool, &[whole], &mut rows)));
    let applied = depth(&mut || keep(sides::library_apply(&mut copy, &asked, &mut rows)));
    let by_records = depth(&mut || keep(sides::bench_library_query_records(&pool, &[whole], &mut rows)));
    let query = entered.max(applied);
    let deepest = |records: &dyn Fn(u64) -> Vec<u8>| places.iter().map(|place| deeper(&pool, &records(*place))).max();
    let insert = deepest(&|place| record(3, &[10 * place + 1, 10 * place + 2, 0])).unwrap_or(0);
    let delete = deepest(&|place| record(5, &[10 * place, 10 * place + 10])).unwrap_or(0);
    println!(
        "bytes of stack at height {HEIGHT}: check {check}, query {query}, query by records {by_records}, insert \
         {insert}, delete {delete}"
    );
}

/// Reports from a thread whose stack is larger than what is painted.
pub fn main() {
    let thread = std::thread::Builder::new().stack_size(1 << 20).spawn(report);
    thread.expect("a thread").join().expect("the report");
}
