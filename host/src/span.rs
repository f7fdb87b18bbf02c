//! Ranges as the entries take them.

use std::ops::{Range, RangeInclusive};

/// A range whose end is excluded or included, made from `a..b` or `a..=b`. It may be empty or inverted.
///
/// ```
/// use hindraloha::Span;
///
/// assert_eq!(Span::from(5..10), Span { start: 5, end: 10, included: false });
/// assert_eq!(Span::from(5..=9), Span { start: 5, end: 9, included: true });
/// ```
#[derive(Clone, Copy, PartialEq, Eq, Hash, Debug)]
pub struct Span {
    /// The first position.
    pub start: u64,
    /// The first position after the range or, where the end is included, the last one in it.
    pub end: u64,
    /// Whether the end is in the range.
    pub included: bool,
}

impl From<Range<u64>> for Span {
    /// The end is excluded.
    fn from(range: Range<u64>) -> Span {
        Span { start: range.start, end: range.end, included: false }
    }
}

impl From<RangeInclusive<u64>> for Span {
    /// The end is included.
    fn from(range: RangeInclusive<u64>) -> Span {
        Span { start: *range.start(), end: *range.end(), included: true }
    }
}
