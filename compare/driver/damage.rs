//! Damaged pools and any bytes. The model has to refuse as document 01 orders, to leave every word of what it refuses,
//! and never to panic; every other set of entries has to do what the model does.

use crate::asks::{self, FLAVOURS};
use crate::encode;
use crate::every::{self, Asked, Sets};
use crate::party::UNTOUCHED;
use crate::random::Random;
use model::entry::{self, Applied, Fed, Measured, Queried};
use model::pool::{first_word, SLOT_WORDS};
use model::{held, Ask, Edit, Span};
use std::collections::BTreeMap;

/// The words of a pool of so many slots after random edits.
pub fn pool(random: &mut Random, slots: u64) -> Vec<u64> {
    let flavour = random.pick(&FLAVOURS);
    let ranges = asks::ranges(random, flavour, 2 * slots);
    let edits: Vec<Edit> = (0..random.below(4 * slots)).map(|_| asks::edit(random, &ranges, 60)).collect();
    let mut words = vec![UNTOUCHED; 4 + 6 * slots as usize];
    entry::format(&mut words);
    entry::feed(&mut words, &encode::records(&edits));
    words
}

/// A word that a pool might hold, or any other.
fn word(random: &mut Random, words: &[u64]) -> u64 {
    match random.below(5) {
        0 => random.below(30),
        1 => random.below(30) + 65_536 * random.below(30),
        2 => random.next(),
        _ => random.pick(words),
    }
}

/// Leads one of a slot's two links to another slot, or to none: a cycle, a second parent, a lost slot.
fn lead_astray(random: &mut Random, words: &mut [u64]) {
    let slots = (words.len() / SLOT_WORDS) as u64;
    if let Some(links) = words.get_mut(first_word(1 + random.below(slots.max(1))) + 4) {
        let shift = random.pick(&[0, 16]);
        *links = *links & !(0xFFFF << shift) | random.below(slots + 1) << shift;
    }
}

/// Damages one to three words, or the length.
fn damage(random: &mut Random, words: &mut Vec<u64>) {
    for _ in 0..1 + random.below(3) {
        let [at, other] = [0, 0].map(|_: u64| random.below(words.len() as u64) as usize);
        match random.below(12) {
            0..=3 => words[at] ^= 1 << random.below(64),
            4..=6 => words[at] = word(random, words),
            7 => words.truncate(words.len() - random.below(7).min(at as u64) as usize),
            8 => words.swap(at, other),
            _ => lead_astray(random, words),
        }
    }
}

/// A run of bytes: whole records, cut records, and bytes of any kind.
pub fn bytes(random: &mut Random) -> Vec<u8> {
    let flavour = random.pick(&FLAVOURS);
    let ranges = asks::ranges(random, flavour, 20);
    let edits: Vec<Edit> = (0..random.below(12)).map(|_| asks::edit(random, &ranges, 70)).collect();
    let mut bytes = encode::records(&edits);
    match random.below(4) {
        0 => bytes.truncate(random.below(bytes.len() as u64 + 1) as usize),
        1 => bytes.extend((0..random.below(40)).map(|_| random.below(256) as u8)),
        2 => bytes.extend((0..random.below(40)).map(|_| random.below(11) as u8)),
        _ => (),
    }
    bytes
}

/// Every entry but format refuses such words with the check's number and leaves all words.
fn refused_everywhere(words: &[u64], number: u64) -> bool {
    let mut after = words.to_vec();
    let mut rows = [UNTOUCHED; 9];
    let span = Span::included(0, u64::MAX);
    let edits = [Edit::Insert(span, 1), Edit::Delete(span), Edit::DeleteMin, Edit::DeleteMax, Edit::Clear];
    let edits_refused = edits.iter().all(|edit| entry::edit(&mut after, edit) == number);
    let measures = [entry::size(words), entry::height(words), entry::is_empty(words)];
    let kinds_refused = [&[][..], &[0], &[6], &[9, 0]].into_iter().all(|bytes| {
        entry::apply(&mut after, bytes, &mut rows) == Applied { number, bytes: 0, hits: 0 }
            && entry::feed(&mut after, bytes) == Fed { number, records: 0, bytes: 0 }
    });
    edits_refused
        && kinds_refused
        && measures == [Measured { number, measure: 0 }; 3]
        && entry::query(words, span, &mut rows) == Queried { number, hits: 0 }
        && after == words
        && rows == [UNTOUCHED; 9]
}

/// The feed of the bytes leaves the counts and words of applying record after record; a query among them is refused.
fn feed_is_repeated_apply(words: &[u64], bytes: &[u8]) -> bool {
    let (mut fed_words, mut applied_words) = (words.to_vec(), words.to_vec());
    let fed = entry::feed(&mut fed_words, bytes);
    let mut expected = Fed { number: 0, records: 0, bytes: 0 };
    while expected.number == 0 && expected.bytes < bytes.len() as u64 {
        let rest = &bytes[expected.bytes as usize..];
        let applied = match rest[0] {
            9 => Applied { number: 14, bytes: 0, hits: 0 },
            _ => entry::apply(&mut applied_words, rest, &mut []),
        };
        if entry::refuses(applied.number) {
            expected.number = applied.number;
        } else {
            expected.records += 1;
            expected.bytes += applied.bytes;
        }
    }
    fed == expected && fed_words == applied_words
}

/// A record of each kind.
pub fn record_of_each_kind() -> Vec<Vec<u8>> {
    let metres = Span::excluded(1_000_000, 2_000_000);
    let links = Span::excluded(201_168, 402_336);
    let (excluded, included) = (Span::excluded(3, 9), Span::included(3, 9));
    let inserts = [metres, links, excluded, included].map(|span| Edit::Insert(span, 5));
    let others = [Edit::Delete(excluded), Edit::DeleteMin, Edit::DeleteMax, Edit::Clear];
    let edits = inserts.into_iter().chain(others).map(Ask::Edit);
    edits.chain([Ask::Query(excluded)]).filter_map(|ask| encode::record(&ask)).collect()
}

/// Each record, cut anywhere, is refused with 15, and whole it is not.
fn cuts_refused(words: &[u64], records: &[Vec<u8>]) -> bool {
    let right = |record: &[u8], length: usize| {
        let number = entry::apply(&mut words.to_vec(), &record[..length], &mut []).number;
        (number == 15) == (length < record.len())
    };
    records.iter().all(|record| (0..=record.len()).all(|length| right(record, length)))
}

/// What the check says of damaged words, by the clause that it names, and whether the model's other entries follow it.
fn judged(words: &[u64]) -> (String, bool) {
    let number = entry::check(words);
    match held(words) {
        Ok(pool) => ("sound".to_string(), number == 0 && pool.words() == words),
        Err(clause) => (format!("{clause:?}"), entry::refuses(number) && refused_everywhere(words, number)),
    }
}

/// A pool, what became of it by damage, and what is asked of both.
struct Case {
    whole: Vec<u64>,
    damaged: Vec<u64>,
    bytes: Vec<u8>,
    span: Span,
    room: usize,
}

impl Case {
    /// The next case.
    fn draw(random: &mut Random) -> Case {
        let slots = 1 + random.below(24);
        let whole = pool(random, slots);
        let bytes = bytes(random);
        let mut damaged = whole.clone();
        damage(random, &mut damaged);
        let flavour = random.pick(&FLAVOURS);
        let ranges = asks::ranges(random, flavour, 20);
        Case { whole, damaged, bytes, span: asks::query(random, &ranges), room: random.below(40) as usize }
    }

    /// Every entry of every set on both; gives how many calls were compared with the model's.
    fn compared(&self, sets: &Sets) -> Result<u64, String> {
        let asked = Asked { span: self.span, value: 5, bytes: &self.bytes, room: self.room };
        Ok(every::entries(sets, &self.damaged, &asked)? + every::entries(sets, &self.whole, &asked)?)
    }
}

/// Damages so many pools; counts what the check says of them, and the calls of other sets that were compared.
pub fn run(sets: &Sets, pools: u64, seed: u64) -> Result<String, String> {
    let mut random = Random::new(seed);
    let records = record_of_each_kind();
    let mut found: BTreeMap<String, u64> = BTreeMap::new();
    let mut compared = every::lengths(sets)? + every::records(sets)?;
    for nth in 0..pools {
        let case = Case::draw(&mut random);
        let Case { whole, damaged, bytes, .. } = &case;
        let report =
            |what: &str| format!("seed {seed}, pool {nth}: {damaged:?} from {whole:?}, bytes {bytes:?}: {what}");
        let (what, right) = judged(damaged);
        *found.entry(what).or_default() += 1;
        if !right || !feed_is_repeated_apply(whole, bytes) || !cuts_refused(whole, &records) {
            return Err(report("the model answers wrongly"));
        }
        compared += case.compared(sets).map_err(|difference| report(&difference))?;
    }
    let counts: Vec<String> = found.iter().map(|(what, times)| format!("{what} {times}")).collect();
    let others: Vec<&str> = sets[1..].iter().map(|entries| entries.name()).collect();
    let by_others = if others.is_empty() {
        String::new()
    } else {
        format!("; {compared} calls of the {} as the model's", others.join(", "))
    };
    Ok(format!("damaged {pools} pools (seed {seed}), 0 wrong answers{by_others}; found: {}", counts.join(", ")))
}
