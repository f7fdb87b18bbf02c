//! Ranges, "ordered by start, then by end", and the two ways in which a host may name their end.

use std::cmp::Ordering;
use std::fmt;

/// The positions from `start` up to, and without, `end`. It may be empty or inverted.
#[derive(Clone, Copy, PartialEq, Eq, Debug)]
pub struct Range {
    pub start: u64,
    pub end: u64,
}

impl Range {
    /// "Ranges are ordered by start, then by end. Two are equal when both numbers are."
    pub fn order(self, other: Range) -> Ordering {
        self.start.cmp(&other.start).then(self.end.cmp(&other.end))
    }

    /// "Two ranges overlap when the larger start is strictly below the smaller end."
    pub fn overlaps(self, other: Range) -> bool {
        self.start.max(other.start) < self.end.min(other.end)
    }
}

/// A range as a host gives it: its end is excluded, or included and then meant as one less than the stored end.
#[derive(Clone, Copy, PartialEq, Eq)]
pub struct Span {
    pub start: u64,
    pub end: u64,
    pub included: bool,
}

impl fmt::Debug for Span {
    /// As Rust writes it: 5..10, or 5..=9 with the end included.
    fn fmt(&self, out: &mut fmt::Formatter<'_>) -> fmt::Result {
        let dots = if self.included { "..=" } else { ".." };
        write!(out, "{}{dots}{}", self.start, self.end)
    }
}

impl Span {
    /// The span whose end is excluded.
    pub fn excluded(start: u64, end: u64) -> Span {
        Span { start, end, included: false }
    }

    /// The span whose end is included.
    pub fn included(start: u64, last: u64) -> Span {
        Span { start, end: last, included: true }
    }

    /// The range that is meant; none where the "included end is 2^64 - 1", which is answer 12.
    pub fn range(self) -> Option<Range> {
        let end = if self.included { self.end.checked_add(1)? } else { self.end };
        Some(Range { start: self.start, end })
    }
}
