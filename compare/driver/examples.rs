//! Document 01's mapped examples 1 to 12. The first seven are run on every party, 8 and 9 on every party that has a
//! pool, 10 to 12 on the words of such. In them "n" means n..n+1.

use crate::call::Call;
use crate::compare::Parties;
use crate::every::Sets;
use crate::party::{Entries, Party, Request};
use model::{Ask, Edit, Span};
use std::fmt::Debug;

const LAST: u64 = u64::MAX;

/// Counts the facts that were seen to hold, for the case at hand.
#[derive(Default)]
struct Facts {
    case: String,
    held: u64,
}

impl Facts {
    /// A fact: what is got is what 01 says.
    fn same<T: PartialEq + Debug>(&mut self, what: &str, got: T, said: T) -> Result<(), String> {
        if got != said {
            return Err(format!("{}, {what}: got {got:?}, and 01 says {said:?}", self.case));
        }
        self.held += 1;
        Ok(())
    }
}

/// Inserts and gives the number.
fn insert(party: &mut dyn Party, span: Span, value: u64) -> u64 {
    party.reply(&Request::Direct(Ask::Edit(Edit::Insert(span, value)), 0)).number
}

/// Deletes and gives the number.
fn delete(party: &mut dyn Party, start: u64, end: u64) -> u64 {
    party.reply(&Request::Direct(Ask::Edit(Edit::Delete(Span::excluded(start, end))), 0)).number
}

/// Begins a pool of 8 slots with 1 slot wide ranges at these starts.
fn units(party: &mut dyn Party, starts: &[u64]) {
    party.format(8);
    for start in starts {
        insert(party, Span::excluded(*start, start + 1), *start);
    }
}

/// The starts that a query lists.
fn listed(party: &mut dyn Party, start: u64, end: u64) -> Vec<u64> {
    let reply = party.reply(&Request::Direct(Ask::Query(Span::excluded(start, end)), 24));
    reply.run.0.chunks(3).take(reply.hits as usize).map(|row| row[0]).collect()
}

/// Size and height.
fn size_and_height(party: &mut dyn Party) -> [i64; 2] {
    let [size, height, _] = party.reply(&Request::Measure).measures;
    [size, height]
}

/// Cases 1 and 2: touching ranges, and the same range again.
fn touching_and_equal(party: &mut dyn Party, facts: &mut Facts) -> Result<(), String> {
    party.format(2);
    insert(party, Span::excluded(0, 5), 0);
    insert(party, Span::excluded(5, 9), 0);
    facts.same("1, query 0..5", listed(party, 0, 5), vec![0])?;
    facts.same("1, query 4..6", listed(party, 4, 6), vec![0, 5])?;
    facts.same("1, query 5..5", listed(party, 5, 5), vec![])?;
    party.format(2);
    facts.same("2, first", insert(party, Span::excluded(10, 20), 1), 0)?;
    facts.same("2, again", insert(party, Span::excluded(10, 20), 9), 1)?;
    facts.same("2, value", party.shapes()?[0][2], 1)
}

/// Cases 3 to 6: the order of the list and the height after rotations.
fn rotations(party: &mut dyn Party, facts: &mut Facts) -> Result<(), String> {
    units(party, &[1, 3, 5]);
    facts.same("3, height", size_and_height(party), [3, 1])?;
    facts.same("3, list", listed(party, 0, 9), vec![3, 5, 1])?;
    facts.same("5, delete", delete(party, 3, 4), 0)?;
    facts.same("5, list", listed(party, 0, 9), vec![5, 1])?;
    facts.same("5, height", size_and_height(party), [2, 1])?;
    units(party, &[1, 5, 3]);
    facts.same("4, list", listed(party, 0, 9), vec![3, 5, 1])?;
    units(party, &[20, 10, 40, 30, 50]);
    facts.same("6, delete", delete(party, 10, 11), 0)?;
    facts.same("6, list", listed(party, 0, 99), vec![40, 50, 20, 30])?;
    facts.same("6, height", size_and_height(party), [4, 2])
}

/// Case 7: an inverted range is stored and found by no query.
fn inverted(party: &mut dyn Party, facts: &mut Facts) -> Result<(), String> {
    party.format(2);
    insert(party, Span::excluded(9, 3), 0);
    facts.same("7, size", size_and_height(party)[0], 1)?;
    facts.same("7, max", party.shapes()?[0][3], 3)?;
    facts.same("7, query", listed(party, 0, 20), vec![])?;
    facts.same("7, delete", delete(party, 9, 3), 0)
}

/// Cases 8 and 9: a full pool, and the included end.
fn full_and_included(party: &mut dyn Party, facts: &mut Facts) -> Result<(), String> {
    party.format(1);
    facts.same("8, 1..2", insert(party, Span::excluded(1, 2), 0), 0)?;
    facts.same("8, 1..2 again", insert(party, Span::excluded(1, 2), 0), 1)?;
    facts.same("8, 3..4", insert(party, Span::excluded(3, 4), 0), 13)?;
    facts.same("8, delete 1..2", delete(party, 1, 2), 0)?;
    facts.same("8, 3..4 again", insert(party, Span::excluded(3, 4), 0), 0)?;
    party.format(2);
    facts.same("9, 5..=9", insert(party, Span::included(5, 9), 0), 0)?;
    facts.same("9, stored end", party.shapes()?[0][1], 10)?;
    facts.same("9, included 2^64 - 1", insert(party, Span::included(5, LAST), 0), 12)?;
    facts.same("9, included 2^64 - 2", insert(party, Span::included(5, LAST - 1), 0), 0)?;
    facts.same("9, its stored end", party.shapes()?[0][3], LAST)
}

/// Cases 10 to 12: links, words and lengths.
fn words_and_lengths(entries: &dyn Entries, facts: &mut Facts) -> Result<(), String> {
    let mut words = [LAST; 16];
    facts.same("11, format", entries.call(&mut words, &Call::Format).number, 0)?;
    facts.same("11, fresh", words, [0, 1, 0, 0, 0, 0, 0, 0, 2, 0, 0, 0, 0, 0, 0, 0])?;
    entries.call(&mut words, &Call::Edit(Edit::Insert(Span::excluded(10, 20), 7)));
    facts.same("11, after 10..20", words, [1, 2, 1, 0, 10, 20, 7, 20, 0, 65536, 0, 0, 0, 0, 0, 0])?;
    let links = [&[2][..], &0u32.to_le_bytes(), &200u32.to_le_bytes(), &7u64.to_le_bytes()].concat();
    facts.same("10, bytes", entries.call(&mut words, &Call::Apply(links, vec![])).counts, [17, 0])?;
    facts.same("10, end", words[11], 40_233_600)?;
    for (length, number) in [(4, 10), (15, 10), (24_575, 10), (10, 0), (24_574, 0)] {
        facts.same("12, length", entries.call(&mut vec![0; length], &Call::Format).number, number)?;
    }
    Ok(())
}

/// Runs all and says how many facts held.
pub fn run(mut parties: Parties, sets: Sets) -> Result<String, String> {
    let mut facts = Facts::default();
    for party in &mut parties {
        facts.case = format!("examples on {}", party.name());
        touching_and_equal(party.as_mut(), &mut facts)?;
        rotations(party.as_mut(), &mut facts)?;
        inverted(party.as_mut(), &mut facts)?;
        if !party.words().is_empty() {
            full_and_included(party.as_mut(), &mut facts)?;
        }
    }
    for entries in &sets {
        facts.case = format!("examples on {}", entries.name());
        words_and_lengths(entries.as_ref(), &mut facts)?;
    }
    let pooled: Vec<&str> = sets.iter().map(|entries| entries.name()).collect();
    let (all, pooled) = (parties.len(), pooled.join(" and "));
    Ok(format!("examples: 1 to 7 on {all} parties, 8 to 12 on {pooled}, {} facts hold", facts.held))
}
