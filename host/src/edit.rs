//! What changes a pool.

use crate::ffi::{self, Answer};
use crate::record::QUERY;
use crate::refusal::outcome;
use crate::rows::{FIRST_ROWS, ROW_WORDS};
use crate::{Fed, FeedStopped, Outcome, Pool, Refusal, Row, Rows, Span};

/// What became of a record that was applied.
///
/// ```
/// use hindraloha::{Outcome, Pool, Record};
///
/// let mut pool = Pool::new(1)?;
/// let applied = pool.apply(Record::metres(1..2, 7))?;
/// assert_eq!((applied.outcome, applied.bytes, applied.rows.len()), (Outcome::Done, 17, 0));
/// # Ok::<(), hindraloha::Refusal>(())
/// ```
#[derive(Clone, Debug)]
pub struct Applied {
    /// Whether something was done.
    pub outcome: Outcome,
    /// The bytes that the record took.
    pub bytes: usize,
    /// The rows of a query; none of other records.
    pub rows: Rows,
}

impl<W: AsRef<[u64]> + AsMut<[u64]>> Pool<W> {
    /// Calls an entry that takes the pool's words alone.
    fn call(&mut self, entry: unsafe extern "C" fn(*mut u64, usize) -> Answer) -> Result<Outcome, Refusal> {
        let words = self.words.as_mut();
        // SAFETY: the pointer and the length are those of a slice that is borrowed to be changed.
        let answer = unsafe { entry(words.as_mut_ptr(), words.len()) };
        outcome(answer.number)
    }

    /// Makes any words a pool with nothing in it.
    ///
    /// ```
    /// use hindraloha::{Pool, Refusal};
    ///
    /// assert!(Pool::format([9; 10])?.is_empty()?);
    /// assert_eq!(Pool::format([9; 15]).unwrap_err(), Refusal::WrongLength);
    /// # Ok::<(), Refusal>(())
    /// ```
    pub fn format(words: W) -> Result<Pool<W>, Refusal> {
        let mut pool = Pool { words };
        pool.call(ffi::hindraloha_format)?;
        Ok(pool)
    }

    /// The pool's words, to be changed by hand, as when a saved pool is read back. Each call checks them.
    ///
    /// ```
    /// use hindraloha::{Pool, Refusal};
    ///
    /// let mut pool = Pool::new(2)?;
    /// pool.words_mut()[0] = 2;
    /// assert_eq!(pool.size(), Err(Refusal::Unsound));
    /// # Ok::<(), Refusal>(())
    /// ```
    pub fn words_mut(&mut self) -> &mut [u64] {
        self.words.as_mut()
    }

    /// Stores a range with a value, unless that very range is there.
    ///
    /// ```
    /// use hindraloha::{Outcome, Pool, Refusal};
    ///
    /// let mut pool = Pool::new(3)?;
    /// assert_eq!(pool.insert(5..10, 7)?, Outcome::Done);
    /// assert_eq!(pool.insert(5..=9, 8)?, Outcome::AlreadyThere);
    /// assert_eq!(pool.insert(5..=u64::MAX, 9), Err(Refusal::LastPositionIncluded));
    /// # Ok::<(), Refusal>(())
    /// ```
    pub fn insert(&mut self, range: impl Into<Span>, value: u64) -> Result<Outcome, Refusal> {
        let (words, Span { start, end, included }) = (self.words.as_mut(), range.into());
        let included = u8::from(included);
        // SAFETY: the pointer and the length are those of a slice that is borrowed to be changed.
        let answer = unsafe { ffi::hindraloha_insert(words.as_mut_ptr(), words.len(), start, end, included, value) };
        outcome(answer.number)
    }

    /// Deletes the range with exactly these ends.
    ///
    /// ```
    /// use hindraloha::{Outcome, Pool};
    ///
    /// let mut pool = Pool::new(3)?;
    /// pool.insert(5..10, 7)?;
    /// assert_eq!(pool.delete(5..9)?, Outcome::Absent);
    /// assert_eq!(pool.delete(5..=9)?, Outcome::Done);
    /// # Ok::<(), hindraloha::Refusal>(())
    /// ```
    pub fn delete(&mut self, range: impl Into<Span>) -> Result<Outcome, Refusal> {
        let (words, Span { start, end, included }) = (self.words.as_mut(), range.into());
        // SAFETY: the pointer and the length are those of a slice that is borrowed to be changed.
        let answer = unsafe { ffi::hindraloha_delete(words.as_mut_ptr(), words.len(), start, end, u8::from(included)) };
        outcome(answer.number)
    }

    /// Deletes the first range in the order of starts, and of ends where starts are equal.
    ///
    /// ```
    /// use hindraloha::{Outcome, Pool};
    ///
    /// let mut pool = Pool::new(3)?;
    /// pool.insert(5..10, 7)?;
    /// assert_eq!(pool.delete_min()?, Outcome::Done);
    /// assert_eq!(pool.delete_min()?, Outcome::Absent);
    /// # Ok::<(), hindraloha::Refusal>(())
    /// ```
    pub fn delete_min(&mut self) -> Result<Outcome, Refusal> {
        self.call(ffi::hindraloha_delete_min)
    }

    /// Deletes the last range in that order.
    ///
    /// ```
    /// let mut pool = hindraloha::Pool::new(3)?;
    /// pool.insert(1..2, 7)?;
    /// pool.insert(3..4, 8)?;
    /// pool.delete_max()?;
    /// assert_eq!(pool.query(0..9)?.next().map(|row| row.value), Some(7));
    /// # Ok::<(), hindraloha::Refusal>(())
    /// ```
    pub fn delete_max(&mut self) -> Result<Outcome, Refusal> {
        self.call(ffi::hindraloha_delete_max)
    }

    /// Deletes all ranges.
    ///
    /// ```
    /// let mut pool = hindraloha::Pool::new(3)?;
    /// pool.insert(1..2, 7)?;
    /// pool.clear()?;
    /// assert!(pool.is_empty()?);
    /// # Ok::<(), hindraloha::Refusal>(())
    /// ```
    pub fn clear(&mut self) -> Result<(), Refusal> {
        self.call(ffi::hindraloha_clear).map(drop)
    }

    /// Applies the record that the bytes begin with; bytes after it are ignored.
    ///
    /// ```
    /// use hindraloha::{Pool, Record, Refusal};
    ///
    /// let mut pool = Pool::new(3)?;
    /// pool.apply(Record::metres(1..3, 7))?;
    /// let applied = pool.apply(Record::query(2_000_000..2_000_001))?;
    /// assert_eq!(applied.rows.map(|row| row.value).collect::<Vec<u64>>(), [7]);
    /// assert_eq!(pool.apply([]).unwrap_err(), Refusal::CutShort);
    /// assert_eq!(pool.apply([0]).unwrap_err(), Refusal::UnknownKind);
    /// # Ok::<(), Refusal>(())
    /// ```
    pub fn apply(&mut self, record: impl AsRef<[u8]>) -> Result<Applied, Refusal> {
        let record = record.as_ref();
        let some = if record.first() == Some(&QUERY) { FIRST_ROWS } else { 0 };
        let (mut done, mut taken) = (Outcome::Done, 0);
        // Only a query has hits, and it changes nothing; so only a query is ever applied twice.
        let rows = Rows::gathered(some, |rows| {
            let hits;
            (done, taken, hits) = self.apply_into(record, rows)?;
            Ok(hits)
        })?;
        Ok(Applied { outcome: done, bytes: taken, rows })
    }

    /// Applies a record with room for some rows; gives the outcome, the bytes taken and the hits, all counted.
    fn apply_into(&mut self, record: &[u8], rows: &mut [Row]) -> Result<(Outcome, usize, usize), Refusal> {
        let words = self.words.as_mut();
        let (first, length) = (rows.as_mut_ptr().cast::<u64>(), ROW_WORDS * rows.len());
        // SAFETY: pointers and lengths are those of three slices that don't overlap, a row being three words; pool and
        // rows are borrowed to be changed.
        let applied = unsafe {
            ffi::hindraloha_apply(words.as_mut_ptr(), words.len(), record.as_ptr(), record.len(), first, length)
        };
        outcome(applied.number).map(|outcome| (outcome, applied.taken, applied.hits))
    }

    /// Applies one record after the other until the bytes end or one is refused. Ranges that are already there, and
    /// deletes of absent ones, don't stop it.
    ///
    /// ```
    /// use hindraloha::{Fed, Pool, Record};
    ///
    /// let mut pool = Pool::new(3)?;
    /// let file: Vec<u8> = [Record::metres(1..3, 7), Record::links(0..9, 8)].into_iter().collect();
    /// assert_eq!(pool.feed(&file), Ok(Fed { records: 2, bytes: 34 }));
    /// assert_eq!(pool.feed([]), Ok(Fed { records: 0, bytes: 0 }));
    /// # Ok::<(), hindraloha::Refusal>(())
    /// ```
    pub fn feed(&mut self, records: impl AsRef<[u8]>) -> Result<Fed, FeedStopped> {
        let (words, bytes) = (self.words.as_mut(), records.as_ref());
        // SAFETY: pointers and lengths are those of two slices that don't overlap; the pool is borrowed to be changed.
        let fed = unsafe { ffi::hindraloha_feed(words.as_mut_ptr(), words.len(), bytes.as_ptr(), bytes.len()) };
        let applied = Fed { records: fed.records, bytes: fed.taken };
        match outcome(fed.number) {
            Ok(_) => Ok(applied),
            Err(refusal) => Err(FeedStopped { refusal, fed: applied }),
        }
    }
}
