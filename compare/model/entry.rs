//! What each entry answers, as functions on words and bytes. The refusals come in the order 10, 11, 14, 15, 12,
//! 1 or 2, 13. A refused call leaves every word as it was.

use super::pool::{slots_of_length, Pool, DONE};
use super::range::Span;
use super::record::{read, Ask, Edit, Read, QUERY_KIND};
use super::sound::{held, Clause};
use super::tree::{self, Side, Turn};
use super::walk;

pub const WRONG_LENGTH: u64 = 10;
pub const UNSOUND: u64 = 11;
pub const LAST_POSITION_INCLUDED: u64 = 12;
pub const UNKNOWN_KIND: u64 = 14;
pub const CUT_SHORT: u64 = 15;

/// "Refusals are the numbers from 10 up; 1 and 2 are none."
pub fn refuses(number: u64) -> bool {
    number >= 10
}

/// A number, and a measure of the tree that is 0 on refusal.
#[derive(Clone, Copy, PartialEq, Eq, Debug)]
pub struct Measured {
    pub number: u64,
    pub measure: i64,
}

/// A query's number, and how many hits there are, all counted.
#[derive(Clone, Copy, PartialEq, Eq, Debug)]
pub struct Queried {
    pub number: u64,
    pub hits: u64,
}

/// An applied record's number, the bytes it took and its hits.
#[derive(Clone, Copy, PartialEq, Eq, Debug)]
pub struct Applied {
    pub number: u64,
    pub bytes: u64,
    pub hits: u64,
}

/// A feed's number, the records applied and their bytes.
#[derive(Clone, Copy, PartialEq, Eq, Debug)]
pub struct Fed {
    pub number: u64,
    pub records: u64,
    pub bytes: u64,
}

/// The pool that the words hold, or the number 10 or 11.
fn opened(words: &[u64]) -> Result<Pool, u64> {
    held(words).map_err(|clause| if clause == Clause::Length { WRONG_LENGTH } else { UNSOUND })
}

/// Makes an edit on a pool, and notes the turns that balancing made.
pub fn perform(pool: &mut Pool, edit: &Edit, turns: &mut Vec<Turn>) -> u64 {
    match edit {
        Edit::Insert(span, value) => match span.range() {
            Some(range) => pool.insert(range, *value, turns),
            None => LAST_POSITION_INCLUDED,
        },
        Edit::Delete(span) => match span.range() {
            Some(range) => pool.delete(range, turns),
            None => LAST_POSITION_INCLUDED,
        },
        Edit::DeleteMin => pool.delete_outermost(Side::Left, turns),
        Edit::DeleteMax => pool.delete_outermost(Side::Right, turns),
        Edit::Clear => pool.clear(),
    }
}

/// Writes start, end and value of the first hits, "as many as fit in a lent run of words; later words stay", and
/// counts all.
fn look_up(pool: &Pool, span: Span, rows: &mut [u64]) -> Queried {
    let Some(range) = span.range() else {
        return Queried { number: LAST_POSITION_INCLUDED, hits: 0 };
    };
    let hits = walk::hits(&pool.tree, range);
    for (hit, row) in hits.iter().zip(rows.chunks_exact_mut(3)) {
        row.copy_from_slice(&[hit.range.start, hit.range.end, hit.value]);
    }
    Queried { number: DONE, hits: hits.len() as u64 }
}

/// Format: a pool of right length becomes a fresh one.
pub fn format(words: &mut [u64]) -> u64 {
    let Some(slots) = slots_of_length(words.len()) else {
        return WRONG_LENGTH;
    };
    words.copy_from_slice(&Pool::formatted(slots).words());
    DONE
}

/// Check: 0, 10 or 11.
pub fn check(words: &[u64]) -> u64 {
    opened(words).err().unwrap_or(DONE)
}

/// Insert, delete, delete-min, delete-max and clear.
pub fn edit(words: &mut [u64], edit: &Edit) -> u64 {
    match opened(words) {
        Err(number) => number,
        Ok(mut pool) => {
            let number = perform(&mut pool, edit, &mut Vec::new());
            words.copy_from_slice(&pool.words());
            number
        }
    }
}

/// A number, and what is measured of a sound pool.
fn measure(words: &[u64], of: fn(&Pool) -> i64) -> Measured {
    match opened(words) {
        Err(number) => Measured { number, measure: 0 },
        Ok(pool) => Measured { number: DONE, measure: of(&pool) },
    }
}

/// Size: how many entries.
pub fn size(words: &[u64]) -> Measured {
    measure(words, |pool| tree::size(&pool.tree) as i64)
}

/// Height: -1 on an empty tree.
pub fn height(words: &[u64]) -> Measured {
    measure(words, |pool| tree::height(&pool.tree))
}

/// `is_empty`: 1 ("yes") on an empty tree.
pub fn is_empty(words: &[u64]) -> Measured {
    measure(words, |pool| i64::from(pool.tree.is_none()))
}

/// Query: the hits and their rows; a refused one writes no row.
pub fn query(words: &[u64], span: Span, rows: &mut [u64]) -> Queried {
    match opened(words) {
        Err(number) => Queried { number, hits: 0 },
        Ok(pool) => look_up(&pool, span, rows),
    }
}

/// Apply one record: its number, "the bytes taken and the hits (both 0 on refusal; hits 0 but for kind 9)".
pub fn apply(words: &mut [u64], bytes: &[u8], rows: &mut [u64]) -> Applied {
    let refused = |number| Applied { number, bytes: 0, hits: 0 };
    if let Err(number) = opened(words) {
        return refused(number);
    }
    let (ask, length) = match read(bytes) {
        Read::UnknownKind => return refused(UNKNOWN_KIND),
        Read::CutShort => return refused(CUT_SHORT),
        Read::Record { ask, length } => (ask, length as u64),
    };
    let Queried { number, hits } = match ask {
        Ask::Query(span) => query(words, span, rows),
        Ask::Edit(made) => Queried { number: edit(words, &made), hits: 0 },
    };
    if refuses(number) {
        refused(number)
    } else {
        Applied { number, bytes: length, hits }
    }
}

/// "A feed checks the pool once, then applies records until the bytes end (0, even with no bytes) or one is refused."
pub fn feed(words: &mut [u64], bytes: &[u8]) -> Fed {
    let mut pool = match opened(words) {
        Err(number) => return Fed { number, records: 0, bytes: 0 },
        Ok(pool) => pool,
    };
    let mut fed = Fed { number: DONE, records: 0, bytes: 0 };
    while fed.bytes < bytes.len() as u64 {
        let (number, length) = feed_one(&mut pool, &bytes[fed.bytes as usize..]);
        if refuses(number) {
            fed.number = number;
            break;
        }
        fed.records += 1;
        fed.bytes += length as u64;
    }
    words.copy_from_slice(&pool.words());
    fed
}

/// One record of a feed: its number and its length. There kind 9 isn't in the table, whole or cut short.
fn feed_one(pool: &mut Pool, bytes: &[u8]) -> (u64, usize) {
    match read(bytes) {
        Read::Record { ask: Ask::Edit(made), length } => (perform(pool, &made, &mut Vec::new()), length),
        Read::CutShort if bytes.first() != Some(&QUERY_KIND) => (CUT_SHORT, 0),
        _ => (UNKNOWN_KIND, 0),
    }
}
