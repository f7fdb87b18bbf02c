//! Random ranges of several kinds, and random edits and queries over them. Edits draw from a fixed list of ranges, so
//! that a range is met again and again, both there and absent.

use crate::random::Random;
use model::{Edit, Range, Span};

#[derive(Clone, Copy, PartialEq, Debug)]
pub enum Flavour {
    /// Six positions: many collisions, empty and inverted ranges.
    Tiny,
    /// Short ranges that overlap their neighbours, in micrometres, metres or links.
    Near(u64),
    /// Any numbers.
    Wide,
    /// The first and the last positions that there are.
    Edges,
    /// Three starts only.
    EqualStarts,
    /// Each range after the one before, or each before it.
    Ascending,
    Descending,
}

pub const FLAVOURS: [Flavour; 9] = [
    Flavour::Tiny,
    Flavour::Near(1),
    Flavour::Near(1_000_000),
    Flavour::Near(201_168),
    Flavour::Wide,
    Flavour::Edges,
    Flavour::EqualStarts,
    Flavour::Ascending,
    Flavour::Descending,
];

/// One of the four first or four last positions.
fn edge(random: &mut Random) -> u64 {
    let distance = random.below(4);
    if random.percent(50) {
        distance
    } else {
        u64::MAX - distance
    }
}

/// The nth of so many ranges of a flavour.
fn range(random: &mut Random, flavour: Flavour, nth: u64, count: u64) -> Range {
    let (start, end) = match flavour {
        Flavour::Tiny => (random.below(6), random.below(6)),
        Flavour::Near(unit) => {
            let start = random.below(3 * count);
            let end = if random.percent(8) { random.below(3 * count) } else { start + random.below(9) };
            (start * unit, end * unit)
        }
        Flavour::Wide => (random.next(), random.next()),
        Flavour::Edges => (edge(random), edge(random)),
        Flavour::EqualStarts => (random.below(3), random.below(4 * count)),
        Flavour::Ascending => (2 * nth, 2 * nth + 1 + random.below(6)),
        Flavour::Descending => (2 * (count - nth), 2 * (count - nth) + 1 + random.below(6)),
    };
    Range { start, end }
}

/// So many ranges of a flavour.
pub fn ranges(random: &mut Random, flavour: Flavour, count: u64) -> Vec<Range> {
    (0..count).map(|nth| range(random, flavour, nth, count)).collect()
}

/// The range with its end excluded or, in a quarter of the cases where that can be said, included.
fn span(random: &mut Random, range: Range) -> Span {
    if range.end > 0 && random.percent(25) {
        Span::included(range.start, range.end - 1)
    } else {
        Span::excluded(range.start, range.end)
    }
}

/// A value, mostly a short one.
fn value(random: &mut Random) -> u64 {
    if random.percent(10) {
        random.next()
    } else {
        random.below(1000)
    }
}

/// The insert of a range.
pub fn insert(random: &mut Random, range: Range) -> Edit {
    Edit::Insert(span(random, range), value(random))
}

/// An edit: an insert in so many of a hundred cases, else mostly the delete of one range.
pub fn edit(random: &mut Random, ranges: &[Range], inserts: u64) -> Edit {
    let range = random.pick(ranges);
    if random.percent(inserts) {
        return insert(random, range);
    }
    match random.below(16) {
        0 | 1 => Edit::DeleteMin,
        2 | 3 => Edit::DeleteMax,
        _ => Edit::Delete(span(random, range)),
    }
}

/// A position at, just before or just after an end of a range.
fn nearby(random: &mut Random, range: Range) -> u64 {
    let position = random.pick(&[range.start, range.end]);
    match random.below(4) {
        0 => position.saturating_sub(1),
        1 => position.saturating_add(1),
        _ => position,
    }
}

/// A query whose ends are near those of one range, and in a fifth of the cases of two.
pub fn query(random: &mut Random, ranges: &[Range]) -> Span {
    let first = random.pick(ranges);
    let second = if random.percent(20) { random.pick(ranges) } else { first };
    let asked = Range { start: nearby(random, first), end: nearby(random, second) };
    span(random, asked)
}
