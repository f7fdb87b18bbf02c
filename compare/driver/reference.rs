//! The reference model as a party.

use crate::call::{Call, Given};
use crate::party::Entries;
use model::entry::{self, Applied, Fed, Measured, Queried};
use model::walk::Walk;
use model::{held, Range};

pub struct Reference;

/// A measure's number, and the measure as a count.
fn measured(Measured { number, measure }: Measured) -> (u64, [u64; 2]) {
    (number, [measure as u64, 0])
}

impl Entries for Reference {
    /// How reports call it.
    fn name(&self) -> &'static str {
        "model"
    }

    /// The model's entry.
    fn call(&self, words: &mut [u64], call: &Call) -> Given {
        let mut rows = call.rows().to_vec();
        let (number, counts) = match call {
            Call::Format => (entry::format(words), [0, 0]),
            Call::Check => (entry::check(words), [0, 0]),
            Call::Edit(edit) => (entry::edit(words, edit), [0, 0]),
            Call::Size => measured(entry::size(words)),
            Call::Height => measured(entry::height(words)),
            Call::IsEmpty => measured(entry::is_empty(words)),
            Call::Query(span, _) => {
                let Queried { number, hits } = entry::query(words, *span, &mut rows);
                (number, [hits, 0])
            }
            Call::Apply(bytes, _) => {
                let Applied { number, bytes, hits } = entry::apply(words, bytes, &mut rows);
                (number, [bytes, hits])
            }
            Call::Feed(bytes) => {
                let Fed { number, records, bytes } = entry::feed(words, bytes);
                (number, [records, bytes])
            }
        };
        Given { number, counts, rows }
    }

    /// The pending nodes of the model's walk, which goes by steps where its query goes by the definition of the hits.
    fn trail(&self, words: &[u64], query: Range) -> Option<Vec<u64>> {
        let pool = held(words).ok()?;
        let mut walk = Walk::new(&pool.tree, query);
        let mut trail = Vec::new();
        while walk.next_hit().is_some() {
            trail.push(walk.pending.len() as u64);
            trail.extend(walk.pending.iter().flat_map(|node| [node.entry.range.start, node.entry.range.end]));
        }
        Some(trail)
    }
}
