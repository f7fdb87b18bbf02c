//! Short sequences written by hand for the recorded list: 01's examples, the ends of the 64-bit numbers, both mirrored
//! rotations at factor 0, and queries on the very edge of what a walk may skip.

use model::{Ask, Edit, Span};

const LAST: u64 = u64::MAX;

/// An insert with the end excluded.
fn insert(start: u64, end: u64, value: u64) -> Ask {
    Ask::Edit(Edit::Insert(Span::excluded(start, end), value))
}

/// An insert with the end included.
fn insert_to(start: u64, last: u64, value: u64) -> Ask {
    Ask::Edit(Edit::Insert(Span::included(start, last), value))
}

/// A delete with the end excluded.
fn delete(start: u64, end: u64) -> Ask {
    Ask::Edit(Edit::Delete(Span::excluded(start, end)))
}

/// A delete with the end included.
fn delete_to(start: u64, last: u64) -> Ask {
    Ask::Edit(Edit::Delete(Span::included(start, last)))
}

/// A query with the end excluded.
fn query(start: u64, end: u64) -> Ask {
    Ask::Query(Span::excluded(start, end))
}

/// A query with the end included.
fn query_to(start: u64, last: u64) -> Ask {
    Ask::Query(Span::included(start, last))
}

/// Inserts n..n+1 with value n for each n.
fn units(starts: &[u64]) -> Vec<Ask> {
    starts.iter().map(|start| insert(*start, start + 1, *start)).collect()
}

/// 01's examples 1, 2 and 7, and edits of an empty tree.
fn small() -> Vec<Vec<Ask>> {
    vec![
        vec![insert(0, 5, 1), insert(5, 9, 2), query(0, 5), query(4, 6), query(5, 5)],
        vec![insert(10, 20, 1), insert(10, 20, 9), insert_to(10, 19, 8), query(0, 99), query_to(19, 19)],
        vec![insert(9, 3, 1), query(0, 20), delete(3, 9), delete(9, 3), delete(9, 3)],
        vec![
            Ask::Edit(Edit::DeleteMin),
            Ask::Edit(Edit::DeleteMax),
            Ask::Edit(Edit::Clear),
            delete(1, 2),
            query(0, LAST),
            insert(4, 4, 1),
            query(0, LAST),
            Ask::Edit(Edit::Clear),
            query(0, LAST),
        ],
    ]
}

/// The first and the last positions, as starts and as ends, stored and asked.
fn extremes() -> Vec<Ask> {
    vec![
        insert(0, LAST, 1),
        insert_to(0, LAST - 1, 2),
        insert(LAST - 1, LAST, 3),
        insert(LAST, LAST, 4),
        insert_to(LAST, LAST - 1, 5),
        insert(LAST, 0, LAST),
        insert(0, 0, 7),
        insert_to(0, 0, 8),
        query(0, LAST),
        query(LAST - 1, LAST),
        query_to(LAST - 1, LAST - 1),
        query_to(0, LAST - 1),
        query(LAST, LAST),
        query(LAST, 0),
        query(0, 0),
        query_to(0, 0),
        delete_to(LAST - 1, LAST - 1),
        query(LAST - 1, LAST),
        delete_to(0, LAST - 1),
        query_to(0, LAST - 1),
        Ask::Edit(Edit::DeleteMax),
        Ask::Edit(Edit::DeleteMin),
        query(0, LAST),
    ]
}

/// 01's examples 3 to 6 and their mirrors: each single and double rotation, and factor 0 on both sides.
fn rotations() -> Vec<Vec<Ask>> {
    let then =
        |starts: &[u64], deleted: u64| [units(starts), vec![delete(deleted, deleted + 1), query(0, 99)]].concat();
    vec![
        then(&[1, 3, 5], 3),
        then(&[5, 3, 1], 3),
        then(&[1, 5, 3], 1),
        then(&[5, 1, 3], 5),
        then(&[20, 10, 40, 30, 50], 10),
        then(&[40, 20, 50, 10, 30], 50),
        then(&[20, 10, 30, 40], 10),
        then(&[30, 20, 40, 10], 40),
        then(&[20, 10, 40, 30], 10),
        then(&[30, 10, 40, 20], 40),
        then(&[50, 30, 70, 20, 40, 60, 80, 10, 35, 55, 65, 75, 85, 52], 50),
    ]
}

/// Queries that touch, or share one position with, an entry, where a walk by ends, or with a wrong edge, goes astray.
fn pruning() -> Vec<Vec<Ask>> {
    let around = |position: u64| {
        let (before, after) = (position - 1, position + 1);
        vec![query(before, position), query(position, after), query(position, position), query(before, after)]
    };
    let far_end_left = vec![insert(10, 11, 1), insert(5, 50, 2), insert(20, 21, 3), query(30, 40)];
    let far_end_right = vec![insert(10, 11, 1), insert(5, 6, 2), insert(20, 90, 3), query(30, 40)];
    let equal_starts =
        vec![insert(10, 12, 1), insert(10, 11, 2), insert(10, 40, 3), insert(10, 10, 4), insert(9, 30, 5)];
    let positions = [5, 6, 10, 11, 20, 21, 49, 50, 51, 89, 90];
    let asked: Vec<Ask> = positions.into_iter().flat_map(around).collect();
    [far_end_left, far_end_right, equal_starts].map(|stored| [stored, asked.clone()].concat()).to_vec()
}

/// All of them, each for a fresh pool.
pub fn all() -> Vec<Vec<Ask>> {
    [small(), vec![extremes()], rotations(), pruning()].concat()
}
