//! Every entry on the same words, one after the other, each on what the one before left: where words are refused, that is
//! all of them on these very words. The first set of entries, the model's, judges; each other set has to give the same
//! numbers and counts and to leave the same words and rows.

use crate::call::{Call, Given, MEASURES};
use crate::party::{Entries, UNTOUCHED};
use model::{Edit, Span};

pub type Sets = Vec<Box<dyn Entries>>;

/// What the entries are asked: a range and a value, bytes for apply and feed, and the words of room for rows.
pub struct Asked<'a> {
    pub span: Span,
    pub value: u64,
    pub bytes: &'a [u8],
    pub room: usize,
}

/// The calls of every entry, those that leave most of a pool first.
fn every_entry(asked: &Asked) -> Vec<Call> {
    let Asked { span, value, bytes, room } = *asked;
    let rows = vec![UNTOUCHED; room];
    let [size, height, is_empty] = MEASURES;
    let edits = [Edit::Insert(span, value), Edit::Delete(span), Edit::DeleteMin, Edit::DeleteMax];
    let looks =
        [Call::Check, size, height, is_empty, Call::Query(span, rows.clone()), Call::Apply(bytes.to_vec(), rows)];
    let last = [Call::Feed(bytes.to_vec()), Call::Edit(Edit::Clear), Call::Format];
    looks.into_iter().chain(edits.map(Call::Edit)).chain(last).collect()
}

/// Makes the calls, and gives what each gave with the words that it left.
fn made(entries: &dyn Entries, words: &[u64], calls: &[Call]) -> Vec<(Given, Vec<u64>)> {
    let mut words = words.to_vec();
    entries.foresee(&words, &|| calls.to_vec());
    let make = |call| (entries.call(&mut words, call), words.clone());
    calls.iter().map(make).collect()
}

/// Makes the calls by every set and compares what they gave and left with the judge's; gives how many were compared.
fn same(sets: &Sets, words: &[u64], calls: &[Call]) -> Result<u64, String> {
    let judged = made(sets[0].as_ref(), words, calls);
    let mut compared = 0;
    for set in &sets[1..] {
        for ((call, ours), theirs) in calls.iter().zip(&judged).zip(made(set.as_ref(), words, calls)) {
            if *ours != theirs {
                return Err(format!("{call:?}:\n  {}: {ours:?}\n  {}: {theirs:?}", sets[0].name(), set.name()));
            }
            compared += 1;
        }
    }
    Ok(compared)
}

/// Every entry on these words.
pub fn entries(sets: &Sets, words: &[u64], asked: &Asked) -> Result<u64, String> {
    same(sets, words, &every_entry(asked))
}

/// Words of this length after a format, where they can be a pool.
fn formatted(sets: &Sets, length: usize) -> Vec<u64> {
    let mut words = vec![UNTOUCHED; length];
    sets[0].call(&mut words, &Call::Format);
    words
}

/// Lengths around those of small and of the largest pools, of words that hold a pool where they can, that are zero, or
/// that are anything.
pub fn lengths(sets: &Sets) -> Result<u64, String> {
    let mut compared = 0;
    for length in (0..=41).chain(24_567..=24_582).chain([30_000]) {
        let asked = Asked { span: Span::excluded(1, 2), value: 3, bytes: &[6], room: length % 8 };
        for words in [vec![0; length], vec![UNTOUCHED; length], formatted(sets, length)] {
            compared += entries(sets, &words, &asked).map_err(|report| format!("length {length}: {report}"))?;
        }
    }
    Ok(compared)
}

/// Every kind of record with 0 to 26 bytes after it, applied and fed to a pool with two ranges in it, with room for 0 to
/// 7 words of rows.
pub fn records(sets: &Sets) -> Result<u64, String> {
    let mut words = formatted(sets, 28);
    for (span, value) in [(Span::excluded(3, 9), 1), (Span::excluded(5, 6), 2)] {
        sets[0].call(&mut words, &Call::Edit(Edit::Insert(span, value)));
    }
    let mut compared = 0;
    for kind in 0..=255 {
        for after_kind in 0..=26 {
            let body = [3, 0, 0, 0, 9, 0, 0, 0].repeat(4);
            let bytes = [&[kind], &body[..after_kind]].concat();
            let calls = [Call::Apply(bytes.clone(), vec![UNTOUCHED; after_kind % 8]), Call::Feed(bytes)];
            for call in calls {
                let report = |left| format!("kind {kind} with {after_kind} bytes after it: {left}");
                compared += same(sets, &words, &[call]).map_err(report)?;
            }
        }
    }
    Ok(compared)
}
