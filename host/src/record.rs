//! Survey records: the bytes that a feed or an apply reads.

use crate::Span;
use std::ops::Range;

/// The kind of the record that asks.
pub(crate) const QUERY: u8 = 9;

/// The most bytes that a record has: its kind and three numbers.
const MOST_BYTES: usize = 25;

/// The bytes of one survey record. Inside the pool positions are micrometres; the kind of the record says which unit its
/// own numbers are in, and the library multiplies.
///
/// ```
/// use hindraloha::{Pool, Record};
///
/// let mut pool = Pool::new(4)?;
/// pool.apply(Record::metres(5..6, 1))?;
/// pool.apply(Record::links(0..200, 2))?;
/// let rows: Vec<u64> = pool.query(5_500_000..5_500_001)?.map(|row| row.value).collect();
/// assert_eq!(rows, [1, 2]);
/// # Ok::<(), hindraloha::Refusal>(())
/// ```
///
/// Records collect into bytes:
///
/// ```
/// use hindraloha::Record;
///
/// let bytes: Vec<u8> = [Record::delete_min(), Record::clear()].into_iter().collect();
/// assert_eq!(bytes, [6, 8]);
/// ```
#[derive(Clone, Copy, PartialEq, Eq, Hash, Debug)]
pub struct Record {
    bytes: [u8; MOST_BYTES],
    length: usize,
}

impl Record {
    /// A record of a kind, still without a body.
    fn of(kind: u8) -> Record {
        let mut bytes = [0; MOST_BYTES];
        bytes[0] = kind;
        Record { bytes, length: 1 }
    }

    /// The record with a number after what it has.
    fn and(mut self, number: &[u8]) -> Record {
        let end = self.length + number.len();
        self.bytes[self.length..end].copy_from_slice(number);
        self.length = end;
        self
    }

    /// The record with 64-bit numbers after what it has.
    fn and_all(self, numbers: &[u64]) -> Record {
        numbers.iter().fold(self, |record, number| record.and(&number.to_le_bytes()))
    }

    /// An insert in a unit of 32-bit positions.
    fn in_units(kind: u8, range: Range<u32>, value: u64) -> Record {
        Record::of(kind).and(&range.start.to_le_bytes()).and(&range.end.to_le_bytes()).and_all(&[value])
    }

    /// Inserts a range in metres, each of 1,000,000 micrometres.
    ///
    /// ```
    /// let record = hindraloha::Record::metres(1..2, 7);
    /// assert_eq!(record.as_bytes(), [1, 1, 0, 0, 0, 2, 0, 0, 0, 7, 0, 0, 0, 0, 0, 0, 0]);
    /// ```
    pub fn metres(range: Range<u32>, value: u64) -> Record {
        Record::in_units(1, range, value)
    }

    /// Inserts a range in links, each of 201,168 micrometres.
    ///
    /// ```
    /// let record = hindraloha::Record::links(1..2, 7);
    /// assert_eq!(record.as_bytes(), [2, 1, 0, 0, 0, 2, 0, 0, 0, 7, 0, 0, 0, 0, 0, 0, 0]);
    /// ```
    pub fn links(range: Range<u32>, value: u64) -> Record {
        Record::in_units(2, range, value)
    }

    /// Inserts a range in micrometres, its end excluded (`a..b`) or included (`a..=b`).
    ///
    /// ```
    /// use hindraloha::Record;
    ///
    /// assert_eq!(Record::micrometres(5..10, 7).as_bytes()[0], 3);
    /// assert_eq!(Record::micrometres(5..=9, 7).as_bytes()[0], 4);
    /// ```
    pub fn micrometres(range: impl Into<Span>, value: u64) -> Record {
        let Span { start, end, included } = range.into();
        Record::of(if included { 4 } else { 3 }).and_all(&[start, end, value])
    }

    /// Deletes a range in micrometres.
    ///
    /// ```
    /// assert_eq!(hindraloha::Record::delete(5..10).as_bytes().len(), 17);
    /// ```
    pub fn delete(range: Range<u64>) -> Record {
        Record::of(5).and_all(&[range.start, range.end])
    }

    /// Deletes the first range in order.
    ///
    /// ```
    /// assert_eq!(hindraloha::Record::delete_min().as_bytes(), [6]);
    /// ```
    pub fn delete_min() -> Record {
        Record::of(6)
    }

    /// Deletes the last range in order.
    ///
    /// ```
    /// assert_eq!(hindraloha::Record::delete_max().as_bytes(), [7]);
    /// ```
    pub fn delete_max() -> Record {
        Record::of(7)
    }

    /// Deletes all ranges.
    ///
    /// ```
    /// assert_eq!(hindraloha::Record::clear().as_bytes(), [8]);
    /// ```
    pub fn clear() -> Record {
        Record::of(8)
    }

    /// Asks which ranges overlap the given one, in micrometres. It can be applied; a feed refuses it.
    ///
    /// ```
    /// assert_eq!(hindraloha::Record::query(5..10).as_bytes()[0], 9);
    /// ```
    pub fn query(range: Range<u64>) -> Record {
        Record::of(QUERY).and_all(&[range.start, range.end])
    }

    /// The record's bytes.
    ///
    /// ```
    /// let record = hindraloha::Record::micrometres(0..1, 2);
    /// assert_eq!(record.as_bytes().len(), 25);
    /// ```
    pub fn as_bytes(&self) -> &[u8] {
        &self.bytes[..self.length]
    }
}

impl AsRef<[u8]> for Record {
    /// The record's bytes.
    fn as_ref(&self) -> &[u8] {
        self.as_bytes()
    }
}

impl Extend<Record> for Vec<u8> {
    /// Adds the records' bytes.
    fn extend<I: IntoIterator<Item = Record>>(&mut self, records: I) {
        records.into_iter().for_each(|record| self.extend_from_slice(record.as_bytes()));
    }
}

impl FromIterator<Record> for Vec<u8> {
    /// The records' bytes, one record after the other.
    fn from_iter<I: IntoIterator<Item = Record>>(records: I) -> Vec<u8> {
        let mut bytes = Vec::new();
        bytes.extend(records);
        bytes
    }
}
