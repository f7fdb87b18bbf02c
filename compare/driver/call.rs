//! Calls of the entries and what they give, as values.

use model::{Edit, Span};

/// One call of an entry on a pool, with what it lends besides the pool: rows and bytes.
#[derive(Clone, PartialEq, Debug)]
pub enum Call {
    Format,
    Check,
    Edit(Edit),
    Size,
    Height,
    IsEmpty,
    Query(Span, Vec<u64>),
    Apply(Vec<u8>, Vec<u64>),
    Feed(Vec<u8>),
}

/// The calls that measure.
pub const MEASURES: [Call; 3] = [Call::Size, Call::Height, Call::IsEmpty];

impl Call {
    /// The rows that the call lends.
    pub fn rows(&self) -> &[u64] {
        match self {
            Call::Query(_, rows) | Call::Apply(_, rows) => rows,
            _ => &[],
        }
    }

    /// The bytes that the call lends.
    pub fn bytes(&self) -> &[u8] {
        match self {
            Call::Apply(bytes, _) | Call::Feed(bytes) => bytes,
            _ => &[],
        }
    }

    /// Whether the call is lent the pool for reading only.
    pub fn reads(&self) -> bool {
        matches!(self, Call::Check | Call::Size | Call::Height | Call::IsEmpty | Call::Query(..))
    }
}

/// What a call gave, and the rows that it left. The counts are the measure, the hits, the bytes and the hits of an apply,
/// or the records and the bytes of a feed; zeros where the entry has no such count.
#[derive(Clone, PartialEq, Debug)]
pub struct Given {
    pub number: u64,
    pub counts: [u64; 2],
    pub rows: Vec<u64>,
}
