//! What a call says: that it was done, that there was nothing to do, or why it was refused.

use std::error::Error;
use std::fmt;

/// What became of an edit that wasn't refused.
///
/// ```
/// use hindraloha::{Outcome, Pool};
///
/// let mut pool = Pool::new(1)?;
/// assert_eq!(pool.insert(1..2, 7)?, Outcome::Done);
/// assert_eq!(pool.insert(1..2, 8)?, Outcome::AlreadyThere);
/// assert_eq!(pool.delete(3..4)?, Outcome::Absent);
/// # Ok::<(), hindraloha::Refusal>(())
/// ```
#[derive(Clone, Copy, PartialEq, Eq, Hash, Debug)]
pub enum Outcome {
    /// 0: the edit is made, or the query answered.
    Done,
    /// 1: the range was there and keeps its value.
    AlreadyThere,
    /// 2: the range wasn't there, or there was nothing to remove.
    Absent,
}

impl Outcome {
    /// The number that the library gave.
    ///
    /// ```
    /// assert_eq!(hindraloha::Outcome::Absent.number(), 2);
    /// ```
    pub fn number(self) -> u64 {
        match self {
            Outcome::Done => 0,
            Outcome::AlreadyThere => 1,
            Outcome::Absent => 2,
        }
    }
}

/// Why a call was refused. A refused call has changed nothing; of a feed the records before the refused one stand.
///
/// ```
/// use hindraloha::{Pool, Refusal};
///
/// let mut pool = Pool::new(1)?;
/// pool.insert(1..2, 7)?;
/// let refused = pool.insert(3..4, 8);
/// assert_eq!(refused, Err(Refusal::Full));
/// assert_eq!(Refusal::Full.to_string(), "no slot of the pool is free (13)");
/// # Ok::<(), Refusal>(())
/// ```
#[derive(Clone, Copy, PartialEq, Eq, Hash, Debug)]
#[non_exhaustive]
pub enum Refusal {
    /// 10: the words aren't 4 + 6 for each of 1 to 4,095 slots.
    WrongLength,
    /// 11: the words aren't those of a pool: damaged, or never formatted.
    Unsound,
    /// 12: the end is included and is 2^64 - 1.
    LastPositionIncluded,
    /// 13: the range is new and no slot is free.
    Full,
    /// 14: a record of no known kind; in a feed also a query.
    UnknownKind,
    /// 15: a record without all of its bytes, or no bytes where a record was to be.
    CutShort,
    /// A number that the library never gives: what is linked isn't the library of this crate.
    Unknown(u64),
}

impl Refusal {
    /// The number that the library gave.
    ///
    /// ```
    /// assert_eq!(hindraloha::Refusal::Unsound.number(), 11);
    /// ```
    pub fn number(self) -> u64 {
        match self {
            Refusal::WrongLength => 10,
            Refusal::Unsound => 11,
            Refusal::LastPositionIncluded => 12,
            Refusal::Full => 13,
            Refusal::UnknownKind => 14,
            Refusal::CutShort => 15,
            Refusal::Unknown(number) => number,
        }
    }
}

impl fmt::Display for Refusal {
    /// The reason in words, and the number.
    fn fmt(&self, out: &mut fmt::Formatter<'_>) -> fmt::Result {
        let reason = match self {
            Refusal::WrongLength => "the pool's length is not that of 1 to 4,095 slots",
            Refusal::Unsound => "the pool is damaged or was never formatted",
            Refusal::LastPositionIncluded => "an included end may not be 2^64 - 1",
            Refusal::Full => "no slot of the pool is free",
            Refusal::UnknownKind => "the record is of no kind that is known here",
            Refusal::CutShort => "the record is cut short",
            Refusal::Unknown(_) => "the linked library is not the one that this crate is for",
        };
        write!(out, "{reason} ({})", self.number())
    }
}

impl Error for Refusal {}

/// What a number means.
pub(crate) fn outcome(number: u64) -> Result<Outcome, Refusal> {
    match number {
        0 => Ok(Outcome::Done),
        1 => Ok(Outcome::AlreadyThere),
        2 => Ok(Outcome::Absent),
        10 => Err(Refusal::WrongLength),
        11 => Err(Refusal::Unsound),
        12 => Err(Refusal::LastPositionIncluded),
        13 => Err(Refusal::Full),
        14 => Err(Refusal::UnknownKind),
        15 => Err(Refusal::CutShort),
        other => Err(Refusal::Unknown(other)),
    }
}

/// How far a feed came.
///
/// ```
/// use hindraloha::{Fed, Pool, Record};
///
/// let mut pool = Pool::new(2)?;
/// assert_eq!(pool.feed(Record::metres(0..5, 7)), Ok(Fed { records: 1, bytes: 17 }));
/// # Ok::<(), hindraloha::Refusal>(())
/// ```
#[derive(Clone, Copy, PartialEq, Eq, Hash, Debug)]
pub struct Fed {
    /// The records that were applied.
    pub records: usize,
    /// The bytes of these records.
    pub bytes: usize,
}

/// A feed that a refused record ended. The records before it stand.
///
/// ```
/// use hindraloha::{Fed, FeedStopped, Pool, Record, Refusal};
///
/// let mut pool = Pool::new(2)?;
/// let bytes: Vec<u8> = [Record::metres(0..5, 7), Record::query(0..5)].into_iter().collect();
/// let stopped = FeedStopped { refusal: Refusal::UnknownKind, fed: Fed { records: 1, bytes: 17 } };
/// assert_eq!(pool.feed(&bytes), Err(stopped));
/// assert_eq!(stopped.to_string(), "the record is of no kind that is known here (14), after 1 record of 17 bytes in all");
/// assert_eq!(pool.size()?, 1);
/// # Ok::<(), Refusal>(())
/// ```
#[derive(Clone, Copy, PartialEq, Eq, Hash, Debug)]
pub struct FeedStopped {
    /// Why the record was refused.
    pub refusal: Refusal,
    /// What was applied before it.
    pub fed: Fed,
}

impl fmt::Display for FeedStopped {
    /// The reason, and how far the feed came.
    fn fmt(&self, out: &mut fmt::Formatter<'_>) -> fmt::Result {
        let Fed { records, bytes } = self.fed;
        let plural = if records == 1 { "" } else { "s" };
        write!(out, "{}, after {records} record{plural} of {bytes} bytes in all", self.refusal)
    }
}

impl Error for FeedStopped {
    /// The refusal.
    fn source(&self) -> Option<&(dyn Error + 'static)> {
        Some(&self.refusal)
    }
}
