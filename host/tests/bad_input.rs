//! Words of any length, damaged words and bytes of any kind: each gives a typed error or an empty answer, never a panic,
//! and a refused call leaves every word.

use hindraloha::{Fed, FeedStopped, Pool, Record, Refusal, Row};

const LAST: u64 = u64::MAX;

/// Words that have one less once the first of them is the largest number.
#[derive(Clone)]
struct Shrinking(Vec<u64>);

impl Shrinking {
    /// How many words there are.
    fn length(&self) -> usize {
        self.0.len() - usize::from(self.0[0] == LAST)
    }
}

impl AsRef<[u64]> for Shrinking {
    /// The words that there are.
    fn as_ref(&self) -> &[u64] {
        &self.0[..self.length()]
    }
}

impl AsMut<[u64]> for Shrinking {
    /// The words that there are.
    fn as_mut(&mut self) -> &mut [u64] {
        let length = self.length();
        &mut self.0[..length]
    }
}

/// Why a call was refused.
fn why<T>(result: Result<T, Refusal>) -> Option<Refusal> {
    result.err()
}

/// Every call is refused for this reason and leaves all words.
fn all_refused<W: AsRef<[u64]> + AsMut<[u64]>>(pool: &mut Pool<W>, reason: Refusal) {
    let before = pool.words().to_vec();
    let mut rows = [Row { start: 1, end: 2, value: 3 }; 4];
    let mut row_words = [77; 12];
    let looked = [
        why(pool.check()),
        why(pool.size()),
        why(pool.height()),
        why(pool.is_empty()),
        why(pool.query(0..=LAST)),
        why(pool.query_into(0..9, &mut rows)),
        why(pool.query_words(0..9, &mut row_words)),
        why(Pool::over(pool.words())),
    ];
    let edited = [
        why(pool.insert(0..=LAST, 1)),
        why(pool.delete(0..=LAST)),
        why(pool.delete_min()),
        why(pool.delete_max()),
        why(pool.clear()),
        why(pool.apply([])),
        why(pool.apply(Record::query(0..9))),
        why(pool.feed([]).map_err(|stopped| stopped.refusal)),
    ];
    assert_eq!(looked, [Some(reason); 8]);
    assert_eq!(edited, [Some(reason); 8]);
    let nothing = Fed { records: 0, bytes: 0 };
    assert_eq!(pool.feed(Record::clear()), Err(FeedStopped { refusal: reason, fed: nothing }));
    assert_eq!(pool.words(), before);
    assert_eq!(rows, [Row { start: 1, end: 2, value: 3 }; 4]);
    assert_eq!(row_words, [77; 12]);
}

/// Only 4 + 6c words for 1 to 4,095 slots can be a pool.
#[test]
fn lengths() {
    for length in (0..64).chain(24_560..24_590).chain([100_000]) {
        let right = length >= 10 && length <= 24_574 && (length - 4) % 6 == 0;
        let mut words = vec![LAST; length];
        assert_eq!(Pool::format(&mut words[..]).is_ok(), right, "length {length}");
        assert_eq!(words.iter().all(|word| *word == LAST), !right, "length {length}");
        let expected = if right { None } else { Some(Refusal::WrongLength) };
        assert_eq!(why(Pool::over(&words)), expected, "length {length}");
    }
    assert_eq!(why(Pool::new(usize::MAX)), Some(Refusal::WrongLength));
}

/// A pool that loses a word is refused with 10 by every call.
#[test]
fn shrunk() {
    let mut pool = Pool::format(Shrinking(vec![0; 16])).expect("two slots");
    pool.insert(1..2, 3).expect("a free slot");
    pool.words_mut()[0] = LAST;
    all_refused(&mut pool, Refusal::WrongLength);
}

/// Each single bit that flips in a pool's structure is refused with 11 by every call; a value may be anything.
#[test]
fn flipped_bits() {
    let mut pool = Pool::new(4).expect("four slots");
    for start in [5, 3, 9] {
        pool.insert(start..start + 4, start).expect("a free slot");
    }
    for at in (0..pool.words().len()).filter(|at| *at < 4 || at % 6 != 0) {
        for bit in 0..64 {
            let mut damaged = pool.clone();
            damaged.words_mut()[at] ^= 1 << bit;
            if damaged.check().is_err() {
                all_refused(&mut damaged, Refusal::Unsound);
            } else {
                assert!(at >= 4 && at < 22 && matches!(at % 6, 4 | 5), "word {at}, bit {bit}");
            }
        }
    }
}

/// Every kind with every number of bytes after it.
#[test]
fn bytes() {
    let lengths = [None, Some(16), Some(16), Some(24), Some(24), Some(16), Some(0), Some(0), Some(0), Some(16)];
    for kind in 0..=255_u8 {
        for after_kind in 0..=26 {
            let mut pool = Pool::new(3).expect("three slots");
            pool.insert(1..2, 3).expect("a free slot");
            let bytes = [vec![kind], vec![0; after_kind]].concat();
            let reason = match lengths.get(usize::from(kind)).copied().flatten() {
                None => Some(Refusal::UnknownKind),
                Some(body) if after_kind < body => Some(Refusal::CutShort),
                Some(_) => None,
            };
            let before = pool.clone().into_words();
            assert_eq!(why(pool.apply(&bytes)), reason, "kind {kind} and {after_kind} bytes");
            if reason.is_some() {
                assert_eq!(pool.words(), before, "kind {kind} and {after_kind} bytes");
            }
        }
    }
}

/// A list and a run of words get the same rows, as many as fit; what is left over stays.
#[test]
fn room() {
    let mut pool = Pool::new(20).expect("20 slots");
    for start in 0..20 {
        pool.insert(start..=start + 2, 100 + start).expect("a free slot");
    }
    let all: Vec<Row> = pool.query(5..=9).expect("a sound pool").collect();
    let left_over = Row { start: 77, end: 77, value: 77 };
    for room in 0..all.len() + 3 {
        let mut rows = vec![left_over; room];
        let mut words = vec![77; 3 * room + room % 3];
        assert_eq!(pool.query_into(5..=9, &mut rows), Ok(all.len()));
        assert_eq!(pool.query_words(5..=9, &mut words), Ok(all.len()));
        let expected: Vec<Row> = all.iter().copied().chain([left_over; 3]).take(room).collect();
        assert_eq!(rows, expected);
        let as_words = expected.iter().flat_map(|row| [row.start, row.end, row.value]);
        assert_eq!(words, as_words.chain(std::iter::repeat(77)).take(words.len()).collect::<Vec<u64>>());
    }
}

/// Rows that don't fit are counted; no rows at all are room enough for a count.
#[test]
fn rows() {
    let mut pool = Pool::new(200).expect("200 slots");
    for start in 0..200 {
        pool.insert(start..start + 2, start).expect("a free slot");
    }
    assert_eq!(pool.query_into(0..500, &mut []), Ok(200));
    assert_eq!(pool.query(0..500).expect("a sound pool").len(), 200);
    assert_eq!(pool.apply(Record::query(0..500)).expect("a sound pool").rows.len(), 200);
    let mut values: Vec<u64> = pool.query(0..500).expect("a sound pool").map(|row| row.value).collect();
    values.sort_unstable();
    assert_eq!(values, (0..200).collect::<Vec<u64>>());
    assert_eq!(pool.query(5..5).expect("a sound pool").len(), 0);
    assert_eq!(why(pool.query(0..=LAST)), Some(Refusal::LastPositionIncluded));
}
