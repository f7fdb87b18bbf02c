//! Random sequences of requests for pools of 1 to 4,095 slots.

use crate::asks::{self, FLAVOURS};
use crate::encode;
use crate::party::Request;
use crate::random::Random;
use model::{Ask, Edit, Range, Span};

/// A pool's slots and what is asked of it.
pub struct Sequence {
    pub slots: u64,
    pub requests: Vec<Request>,
}

/// A number of slots: small ones more often, as they are the quicker to compare and to fill.
fn slots(random: &mut Random) -> u64 {
    match random.below(200) {
        0 | 1 => 4095,
        2..=7 => 401 + random.below(3694),
        8..=37 => 65 + random.below(336),
        38..=110 => 9 + random.below(56),
        _ => 1 + random.below(8),
    }
}

/// The room that a query lends: mostly enough for every row, at times a few words.
fn room(random: &mut Random, slots: u64) -> usize {
    let words = if random.percent(30) { random.below(12) } else { 3 * slots + 2 };
    words as usize
}

/// The same ask to the last position of all, with the end included, where the ask has an end.
fn to_the_last_position(ask: Ask) -> Ask {
    let stretched = |span: Span| Span::included(span.start, u64::MAX);
    match ask {
        Ask::Edit(Edit::Insert(span, value)) => Ask::Edit(Edit::Insert(stretched(span), value)),
        Ask::Edit(Edit::Delete(span)) => Ask::Edit(Edit::Delete(stretched(span))),
        Ask::Query(span) => Ask::Query(stretched(span)),
        other => other,
    }
}

/// One ask over the ranges, as an entry's call or as a record.
fn ask(random: &mut Random, ranges: &[Range], slots: u64, inserts: u64) -> Request {
    let drawn = match random.below(300) {
        0 => Ask::Edit(Edit::Clear),
        1..=90 => Ask::Query(asks::query(random, ranges)),
        _ => Ask::Edit(asks::edit(random, ranges, inserts)),
    };
    let ask = if random.percent(1) { to_the_last_position(drawn) } else { drawn };
    let room = if matches!(ask, Ask::Query(_)) { room(random, slots) } else { 0 };
    if random.percent(25) && encode::record(&ask).is_some() {
        Request::Record(ask, room)
    } else {
        Request::Direct(ask, room)
    }
}

/// The edits that have a record, out of a few random ones.
fn short_feed(random: &mut Random, ranges: &[Range], inserts: u64) -> Request {
    let drawn: Vec<Edit> = (0..random.below(12)).map(|_| asks::edit(random, ranges, inserts)).collect();
    let recordable = |edit: &Edit| encode::record(&Ask::Edit(*edit)).is_some();
    Request::Feed(drawn.into_iter().filter(recordable).collect())
}

/// A sequence: a feed that fills a part of the pool, or more than all of it, then requests in phases that let it grow,
/// stay or shrink.
pub fn sequence(random: &mut Random) -> Sequence {
    let slots = slots(random);
    let flavour = random.pick(&FLAVOURS);
    let beyond_full = 1 + slots * random.below(8) / 8;
    let ranges = asks::ranges(random, flavour, slots + beyond_full);
    let filled = if random.percent(25) { ranges.len() } else { random.below(slots + 1) as usize };
    let fill = ranges.iter().take(filled).map(|range| asks::insert(random, *range)).collect();
    let mut requests = vec![Request::Feed(fill)];
    for _ in 0..1 + random.below(6) {
        let inserts = random.pick(&[15, 50, 85]);
        for _ in 0..60 {
            requests.push(match random.below(50) {
                0 => Request::Measure,
                1 => short_feed(random, &ranges, inserts),
                _ => ask(random, &ranges, slots, inserts),
            });
        }
    }
    Sequence { slots, requests }
}
