//! Two outsiders for the query alone, as Debian packs them: the Rust crate intervaltree, and libiitii in C++. Both are
//! built once from all entries and can't be edited, and their hits come in another order.

use crate::load::{Ends, Load};
use crate::measure::{time, Pair};
use crate::scene::Scene;
use std::ffi::{c_char, CString};

type Flat = intervaltree::IntervalTree<u64, u64>;

/// The tree of libiitii, which only C++ looks into.
#[repr(C)]
struct Implicit {
    hidden: [u8; 0],
}

extern "C" {
    fn bench_iitii_build(rows: *const [u64; 3], count: usize, file: *const c_char) -> *const Implicit;
    fn bench_iitii_query(tree: *const Implicit, ends: *const Ends, count: usize, rows: *mut u64, room: usize) -> usize;
}

/// One query on intervaltree: writes as many rows as fit, and counts all hits.
fn flat_rows(tree: &Flat, ends: &Ends, rows: &mut [u64]) -> usize {
    let mut hits = 0;
    let mut room = rows.chunks_exact_mut(3);
    for element in tree.query(ends[0]..ends[1]) {
        if let Some(row) = room.next() {
            row.copy_from_slice(&[element.range.start, element.range.end, element.value]);
        }
        hits += 1;
    }
    hits
}

/// The entries of a load as rows.
fn all_rows(load: &Load) -> Vec<[u64; 3]> {
    load.inserts.iter().enumerate().map(|(value, ends)| [ends[0], ends[1], value as u64]).collect()
}

/// Measures the walk beside each outsider; the file is what libiitii keeps its rows in.
pub fn measure(scene: &Scene, file: &str, repeats: usize) -> [(&'static str, Pair); 2] {
    let load = &scene.load;
    let entries = all_rows(load);
    let flat: Flat = entries.iter().map(|row| (row[0]..row[1], row[2])).collect();
    let file = CString::new(file).expect("a file's name");
    let implicit = unsafe { bench_iitii_build(entries.as_ptr(), entries.len(), file.as_ptr()) };
    let mut rows = vec![0; scene.room()];
    let (at, room) = (rows.as_mut_ptr(), rows.len() / 3);
    let ask_flat = |rows: &mut [u64]| load.queries.iter().map(|ends| flat_rows(&flat, ends, rows)).sum::<usize>();
    let ask_implicit = || unsafe { bench_iitii_query(implicit, load.queries.as_ptr(), load.queries.len(), at, room) };
    let hits = scene.walk();
    assert_eq!((ask_flat(&mut rows), ask_implicit()), (hits, hits), "both find as many");
    let beside_flat = Pair::take(repeats, || time(|| scene.walk()), || time(|| ask_flat(&mut rows)));
    let beside_implicit = Pair::take(repeats, || time(|| scene.walk()), || time(ask_implicit));
    [("walk, beside intervaltree", beside_flat), ("walk, beside libiitii", beside_implicit)]
}
