//! The rows of a query.

use crate::ffi::Hit;
use crate::Refusal;
use std::iter::FusedIterator;
use std::mem::size_of;
use std::vec::IntoIter;

/// One stored range that a query overlaps, and its value.
///
/// ```
/// use hindraloha::{Pool, Row};
///
/// let mut pool = Pool::new(1)?;
/// pool.insert(5..=9, 7)?;
/// assert_eq!(pool.query(9..10)?.next(), Some(Row { start: 5, end: 10, value: 7 }));
/// # Ok::<(), hindraloha::Refusal>(())
/// ```
#[derive(Clone, Copy, PartialEq, Eq, Hash, Debug, Default)]
#[repr(C)]
pub struct Row {
    /// The range's first position.
    pub start: u64,
    /// The first position after the range.
    pub end: u64,
    /// The range's value.
    pub value: u64,
}

/// The words of a row.
pub(crate) const ROW_WORDS: usize = 3;

/// The rows that a query has room for at first; only one with more hits asks twice.
pub(crate) const FIRST_ROWS: usize = 64;

const _: () = assert!(size_of::<Row>() == ROW_WORDS * size_of::<u64>() && size_of::<Row>() == size_of::<Hit>());

/// The rows of a query, all of them, in the order in which the tree is visited. It holds no part of the pool.
///
/// ```
/// use hindraloha::Pool;
///
/// let mut pool = Pool::new(3)?;
/// for start in [1, 3, 5] {
///     pool.insert(start..start + 1, start)?;
/// }
/// let rows = pool.query(0..9)?;
/// assert_eq!(rows.len(), 3);
/// assert_eq!(rows.map(|row| row.value).collect::<Vec<u64>>(), [3, 5, 1]);
/// # Ok::<(), hindraloha::Refusal>(())
/// ```
#[derive(Clone, Debug)]
pub struct Rows(IntoIter<Row>);

impl Rows {
    /// Asks with room for some rows, and where there are more hits a second time with room for all.
    pub(crate) fn gathered(
        some: usize,
        mut ask: impl FnMut(&mut [Row]) -> Result<usize, Refusal>,
    ) -> Result<Rows, Refusal> {
        let mut rows = vec![Row::default(); some];
        let mut hits = ask(&mut rows)?;
        if hits > rows.len() {
            rows.resize(hits, Row::default());
            hits = ask(&mut rows)?;
        }
        rows.truncate(hits);
        Ok(Rows(rows.into_iter()))
    }
}

impl Iterator for Rows {
    type Item = Row;

    /// The next row.
    fn next(&mut self) -> Option<Row> {
        self.0.next()
    }

    /// How many rows are left.
    fn size_hint(&self) -> (usize, Option<usize>) {
        self.0.size_hint()
    }
}

impl DoubleEndedIterator for Rows {
    /// The last row that is left.
    fn next_back(&mut self) -> Option<Row> {
        self.0.next_back()
    }
}

impl ExactSizeIterator for Rows {}

impl FusedIterator for Rows {}
