//! Survey records: what a host may ask of a pool, and how it is read from any bytes.

use super::range::Span;

pub const MICROMETRES_PER_METRE: u64 = 1_000_000;
pub const MICROMETRES_PER_LINK: u64 = 201_168;
pub const QUERY_KIND: u8 = 9;

/// One request that changes a pool.
#[derive(Clone, Copy, PartialEq, Eq, Debug)]
pub enum Edit {
    Insert(Span, u64),
    Delete(Span),
    DeleteMin,
    DeleteMax,
    Clear,
}

/// One request to a pool.
#[derive(Clone, Copy, PartialEq, Eq, Debug)]
pub enum Ask {
    Edit(Edit),
    Query(Span),
}

/// What the bytes begin with.
#[derive(Clone, Copy, PartialEq, Eq, Debug)]
pub enum Read {
    UnknownKind,
    CutShort,
    Record { ask: Ask, length: usize },
}

/// "One byte of kind, then a body whose length the kind fixes": that length, for the kinds of the table.
fn body_length(kind: u8) -> Option<usize> {
    match kind {
        1 | 2 | 5 | QUERY_KIND => Some(16),
        3 | 4 => Some(24),
        6..=8 => Some(0),
        _ => None,
    }
}

/// The little-endian number that these bytes are.
fn number(bytes: &[u8]) -> u64 {
    bytes.iter().rev().fold(0, |above, byte| above * 256 + u64::from(*byte))
}

/// The insert of kinds 1 and 2: "start u32, end u32, value u64", both ends multiplied by the kind's factor.
fn insert_scaled(body: &[u8], factor: u64) -> Edit {
    let span = Span::excluded(number(&body[0..4]) * factor, number(&body[4..8]) * factor);
    Edit::Insert(span, number(&body[8..16]))
}

/// What a whole body of a kind asks; none for a kind that isn't in the table.
fn meaning(kind: u8, body: &[u8]) -> Option<Ask> {
    let nth = |at: usize| number(&body[8 * at..8 * at + 8]);
    let edit = match kind {
        1 => insert_scaled(body, MICROMETRES_PER_METRE),
        2 => insert_scaled(body, MICROMETRES_PER_LINK),
        3 => Edit::Insert(Span::excluded(nth(0), nth(1)), nth(2)),
        4 => Edit::Insert(Span::included(nth(0), nth(1)), nth(2)),
        5 => Edit::Delete(Span::excluded(nth(0), nth(1))),
        6 => Edit::DeleteMin,
        7 => Edit::DeleteMax,
        8 => Edit::Clear,
        QUERY_KIND => return Some(Ask::Query(Span::excluded(nth(0), nth(1)))),
        _ => return None,
    };
    Some(Ask::Edit(edit))
}

/// Reads the record that the bytes begin with; bytes after it are ignored.
pub fn read(bytes: &[u8]) -> Read {
    let Some((kind, after_kind)) = bytes.split_first() else {
        return Read::CutShort;
    };
    let Some(length) = body_length(*kind) else {
        return Read::UnknownKind;
    };
    let Some(body) = after_kind.get(..length) else {
        return Read::CutShort;
    };
    match meaning(*kind, body) {
        Some(ask) => Read::Record { ask, length: 1 + length },
        None => Read::UnknownKind,
    }
}
