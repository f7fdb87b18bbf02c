//! Pools, and what can be asked of one without changing it.

use crate::refusal::outcome;
use crate::rows::FIRST_ROWS;
use crate::{ffi, Refusal, Row, Rows, Span};

/// The most slots of a pool.
const MOST_SLOTS: usize = 4095;

/// A pool over words that it owns (`Vec<u64>`, `Box<[u64]>`, `[u64; N]`) or that are lent to it (`&mut [u64]`, and
/// `&[u64]` for looking only). It has 4 words and 6 for each of its 1 to 4,095 slots, and a slot holds one range.
///
/// Each call checks all words first, so a pool that was damaged is refused and never misread.
///
/// ```
/// use hindraloha::Pool;
///
/// let mut words = [0; 4 + 6 * 2];
/// let mut pool = Pool::format(&mut words[..])?;
/// pool.insert(10..20, 7)?;
/// assert_eq!(words, [1, 2, 1, 0, 10, 20, 7, 20, 0, 65536, 0, 0, 0, 0, 0, 0]);
/// # Ok::<(), hindraloha::Refusal>(())
/// ```
#[derive(Clone, Debug)]
pub struct Pool<W = Vec<u64>> {
    pub(crate) words: W,
}

impl Pool {
    /// A pool with nothing in it, that owns its words.
    ///
    /// ```
    /// use hindraloha::{Pool, Refusal};
    ///
    /// assert!(Pool::new(4_095)?.is_empty()?);
    /// assert_eq!(Pool::new(0).unwrap_err(), Refusal::WrongLength);
    /// assert_eq!(Pool::new(4_096).unwrap_err(), Refusal::WrongLength);
    /// # Ok::<(), Refusal>(())
    /// ```
    pub fn new(slots: usize) -> Result<Pool, Refusal> {
        if slots > MOST_SLOTS {
            return Err(Refusal::WrongLength);
        }
        Pool::format(vec![0; 4 + 6 * slots])
    }
}

impl<W: AsRef<[u64]>> Pool<W> {
    /// The pool that words hold already, whatever it was that they were copied or read from.
    ///
    /// ```
    /// use hindraloha::{Pool, Refusal};
    ///
    /// let mut saved = Pool::new(2)?.into_words();
    /// assert!(Pool::over(&saved)?.is_empty()?);
    /// saved[3] = 1;
    /// assert_eq!(Pool::over(&saved).unwrap_err(), Refusal::Unsound);
    /// # Ok::<(), Refusal>(())
    /// ```
    pub fn over(words: W) -> Result<Pool<W>, Refusal> {
        let pool = Pool { words };
        pool.check()?;
        Ok(pool)
    }

    /// The pool's words.
    ///
    /// ```
    /// assert_eq!(hindraloha::Pool::new(1)?.words(), [0, 1, 0, 0, 0, 0, 0, 0, 0, 0]);
    /// # Ok::<(), hindraloha::Refusal>(())
    /// ```
    pub fn words(&self) -> &[u64] {
        self.words.as_ref()
    }

    /// What the pool was made from, with the words as they are now.
    ///
    /// ```
    /// assert_eq!(hindraloha::Pool::new(1)?.into_words().len(), 10);
    /// # Ok::<(), hindraloha::Refusal>(())
    /// ```
    pub fn into_words(self) -> W {
        self.words
    }

    /// Whether the words are a sound pool.
    ///
    /// ```
    /// hindraloha::Pool::new(3)?.check()?;
    /// # Ok::<(), hindraloha::Refusal>(())
    /// ```
    pub fn check(&self) -> Result<(), Refusal> {
        let words = self.words();
        // SAFETY: the pointer and the length are those of a slice, which the call only reads.
        let answer = unsafe { ffi::hindraloha_check(words.as_ptr(), words.len()) };
        outcome(answer.number).map(drop)
    }

    /// How many ranges are stored.
    ///
    /// ```
    /// let mut pool = hindraloha::Pool::new(3)?;
    /// pool.insert(1..2, 7)?;
    /// assert_eq!(pool.size()?, 1);
    /// # Ok::<(), hindraloha::Refusal>(())
    /// ```
    pub fn size(&self) -> Result<u64, Refusal> {
        let words = self.words();
        // SAFETY: the pointer and the length are those of a slice, which the call only reads.
        let size = unsafe { ffi::hindraloha_size(words.as_ptr(), words.len()) };
        outcome(size.number).map(|_| size.count)
    }

    /// The height of the tree that the ranges are stored in: -1 where there are none, 0 for one.
    ///
    /// ```
    /// let mut pool = hindraloha::Pool::new(3)?;
    /// assert_eq!(pool.height()?, -1);
    /// pool.insert(1..2, 7)?;
    /// assert_eq!(pool.height()?, 0);
    /// # Ok::<(), hindraloha::Refusal>(())
    /// ```
    pub fn height(&self) -> Result<i64, Refusal> {
        let words = self.words();
        // SAFETY: the pointer and the length are those of a slice, which the call only reads.
        let height = unsafe { ffi::hindraloha_height(words.as_ptr(), words.len()) };
        outcome(height.number).map(|_| height.height)
    }

    /// Whether nothing is stored.
    ///
    /// ```
    /// assert!(hindraloha::Pool::new(3)?.is_empty()?);
    /// # Ok::<(), hindraloha::Refusal>(())
    /// ```
    pub fn is_empty(&self) -> Result<bool, Refusal> {
        let words = self.words();
        // SAFETY: the pointer and the length are those of a slice, which the call only reads.
        let empty = unsafe { ffi::hindraloha_is_empty(words.as_ptr(), words.len()) };
        outcome(empty.number).map(|_| empty.count == 1)
    }

    /// The stored ranges that overlap the given one, all of them.
    ///
    /// ```
    /// let mut pool = hindraloha::Pool::new(3)?;
    /// pool.insert(0..5, 1)?;
    /// pool.insert(5..9, 2)?;
    /// assert_eq!(pool.query(0..5)?.len(), 1); // 5..9 only touches it
    /// assert_eq!(pool.query(0..=5)?.len(), 2);
    /// # Ok::<(), hindraloha::Refusal>(())
    /// ```
    pub fn query(&self, range: impl Into<Span>) -> Result<Rows, Refusal> {
        let span = range.into();
        Rows::gathered(FIRST_ROWS, |rows| self.query_into(span, rows))
    }

    /// Writes the first rows of a query to a lent list, as many as fit, and gives the number of hits, all counted. Rows
    /// that are left over stay. It takes no memory.
    ///
    /// ```
    /// use hindraloha::{Pool, Row};
    ///
    /// let mut pool = Pool::new(3)?;
    /// pool.insert(0..5, 1)?;
    /// pool.insert(5..9, 2)?;
    /// let mut first = [Row::default()];
    /// assert_eq!(pool.query_into(4..6, &mut first)?, 2);
    /// assert_eq!(first, [Row { start: 0, end: 5, value: 1 }]);
    /// # Ok::<(), hindraloha::Refusal>(())
    /// ```
    pub fn query_into(&self, range: impl Into<Span>, rows: &mut [Row]) -> Result<usize, Refusal> {
        let (words, Span { start, end, included }) = (self.words(), range.into());
        let (first, length) = (rows.as_mut_ptr().cast::<ffi::Hit>(), rows.len());
        // SAFETY: pointers and lengths are those of two slices that don't overlap, a row having the same fields as a
        // hit; the call reads the pool and writes the rows.
        let found = unsafe {
            ffi::hindraloha_query_records(words.as_ptr(), words.len(), start, end, u8::from(included), first, length)
        };
        outcome(found.number).map(|_| found.hits)
    }

    /// Does the same with a lent run of words, three for each row: start, end and value. Words that are left over stay.
    ///
    /// ```
    /// let mut pool = hindraloha::Pool::new(3)?;
    /// pool.insert(0..5, 1)?;
    /// pool.insert(5..9, 2)?;
    /// let mut first = [77; 5];
    /// assert_eq!(pool.query_words(4..6, &mut first)?, 2);
    /// assert_eq!(first, [0, 5, 1, 77, 77]);
    /// # Ok::<(), hindraloha::Refusal>(())
    /// ```
    pub fn query_words(&self, range: impl Into<Span>, rows: &mut [u64]) -> Result<usize, Refusal> {
        let (words, Span { start, end, included }) = (self.words(), range.into());
        let (first, length) = (rows.as_mut_ptr(), rows.len());
        // SAFETY: pointers and lengths are those of two slices that don't overlap; the call reads the pool and writes
        // the rows.
        let found = unsafe {
            ffi::hindraloha_query(words.as_ptr(), words.len(), start, end, u8::from(included), first, length)
        };
        outcome(found.number).map(|_| found.hits)
    }
}
