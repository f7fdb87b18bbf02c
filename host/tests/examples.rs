//! Document 01's mapped examples through the crate.

use hindraloha::{Fed, FeedStopped, Outcome, Pool, Record, Refusal};
use std::ops::Range;

const LAST: u64 = u64::MAX;

/// A pool with n..n+1 for each n, its value n.
fn units(starts: &[u64]) -> Result<Pool, Refusal> {
    let mut pool = Pool::new(8)?;
    for start in starts {
        pool.insert(*start..start + 1, *start)?;
    }
    Ok(pool)
}

/// The starts that a query lists.
fn listed(pool: &Pool, range: Range<u64>) -> Result<Vec<u64>, Refusal> {
    Ok(pool.query(range)?.map(|row| row.start).collect())
}

/// Examples 1 and 2.
#[test]
fn touching_and_equal() -> Result<(), Refusal> {
    let mut pool = Pool::new(3)?;
    pool.insert(0..5, 0)?;
    pool.insert(5..9, 0)?;
    assert_eq!(listed(&pool, 0..5)?, [0]);
    assert_eq!(listed(&pool, 4..6)?, [0, 5]);
    assert!(listed(&pool, 5..5)?.is_empty());
    assert_eq!(pool.insert(10..20, 1)?, Outcome::Done);
    assert_eq!(pool.insert(10..20, 9)?, Outcome::AlreadyThere);
    assert_eq!(pool.query(10..20)?.next().map(|row| row.value), Some(1));
    Ok(())
}

/// Examples 3 to 6.
#[test]
fn rotations() -> Result<(), Refusal> {
    let mut pool = units(&[1, 3, 5])?;
    assert_eq!((pool.height()?, listed(&pool, 0..9)?), (1, vec![3, 5, 1]));
    assert_eq!(listed(&units(&[1, 5, 3])?, 0..9)?, [3, 5, 1]);
    pool.delete(3..4)?;
    assert_eq!((pool.height()?, listed(&pool, 0..9)?), (1, vec![5, 1]));
    let mut pool = units(&[20, 10, 40, 30, 50])?;
    pool.delete(10..11)?;
    assert_eq!((pool.height()?, listed(&pool, 0..99)?), (2, vec![40, 50, 20, 30]));
    Ok(())
}

/// Examples 7 to 9.
#[test]
#[allow(clippy::reversed_empty_ranges)]
fn inverted_full_and_included() -> Result<(), Refusal> {
    let mut pool = Pool::new(1)?;
    pool.insert(9..3, 0)?;
    assert_eq!((pool.size()?, pool.query(0..20)?.len()), (1, 0));
    assert_eq!(pool.delete(9..3)?, Outcome::Done);
    assert_eq!(pool.insert(1..2, 0)?, Outcome::Done);
    assert_eq!(pool.insert(1..2, 0)?, Outcome::AlreadyThere);
    assert_eq!(pool.insert(3..4, 0), Err(Refusal::Full));
    assert_eq!(pool.delete(1..2)?, Outcome::Done);
    assert_eq!(pool.insert(3..4, 0)?, Outcome::Done);
    let mut pool = Pool::new(2)?;
    pool.insert(5..=9, 0)?;
    assert_eq!(pool.query(9..10)?.next().map(|row| row.end), Some(10));
    assert_eq!(pool.insert(5..=LAST, 0), Err(Refusal::LastPositionIncluded));
    pool.insert(5..=LAST - 1, 0)?;
    assert_eq!(pool.query(LAST - 1..LAST)?.next().map(|row| row.end), Some(LAST));
    Ok(())
}

/// Examples 10 to 12.
#[test]
fn links_words_and_lengths() -> Result<(), Refusal> {
    let mut words = [LAST; 16];
    let mut pool = Pool::format(&mut words[..])?;
    assert_eq!(pool.words(), [0, 1, 0, 0, 0, 0, 0, 0, 2, 0, 0, 0, 0, 0, 0, 0]);
    pool.insert(10..20, 7)?;
    assert_eq!(pool.words(), [1, 2, 1, 0, 10, 20, 7, 20, 0, 65536, 0, 0, 0, 0, 0, 0]);
    pool.apply(Record::links(0..200, 7))?;
    assert_eq!(pool.words()[11], 40_233_600);
    for (length, right) in [(4, false), (15, false), (24_575, false), (10, true), (24_574, true)] {
        assert_eq!(Pool::format(vec![0; length]).is_ok(), right, "length {length}");
    }
    Ok(())
}

/// A feed stops at the first refused record, and what came before it stands.
#[test]
fn feed() -> Result<(), Refusal> {
    let mut pool = Pool::new(1)?;
    let records = [Record::metres(1..2, 7), Record::metres(1..2, 8), Record::delete(5..6), Record::links(1..2, 9)];
    let bytes: Vec<u8> = records.into_iter().collect();
    let fed = Fed { records: 3, bytes: 51 };
    assert_eq!(pool.feed(&bytes), Err(FeedStopped { refusal: Refusal::Full, fed }));
    assert_eq!(pool.query(1_000_000..1_000_001)?.next().map(|row| row.value), Some(7));
    assert_eq!(pool.feed(&bytes[..51]), Ok(fed));
    assert_eq!(pool.feed(&bytes[..50]).map_err(|stopped| stopped.refusal), Err(Refusal::CutShort));
    Ok(())
}
