//! Runs sequences on all parties. The first party is the judge; each other one has to agree with it in every reply,
//! every node and every pending node, and no refused or idle call may change a word.

use crate::party::{Party, Reply, Request, Shape};
use crate::requests::Sequence;
use crate::slots;
use model::{Ask, Edit, Range};
use std::collections::BTreeMap;

/// How much was compared.
#[derive(Default)]
pub struct Tally {
    pub sequences: u64,
    pub steps: u64,
    pub records: u64,
    pub queries: u64,
    pub rows: u64,
    pub nodes: u64,
    pub largest: u64,
    pub pending_nodes: u64,
    pub answers: BTreeMap<u64, u64>,
}

impl Tally {
    /// The counts in one line; each of them falls when something is no longer compared.
    pub fn line(&self) -> String {
        let Tally { sequences, steps, records, queries, rows, nodes, largest, pending_nodes, answers } = self;
        let given: Vec<String> = answers.iter().map(|(number, times)| format!("{number} {times} times")).collect();
        format!(
            "{steps} steps in {sequences} pools, {records} fed records, {queries} queries, {rows} rows, {nodes} nodes \
             (largest tree {largest}), {pending_nodes} pending nodes, 0 differences; answers: {}",
            given.join(", ")
        )
    }
}

pub type Parties = Vec<Box<dyn Party>>;

/// The judge and a party say the same of something, or the difference is put into words.
fn agree<T: PartialEq + std::fmt::Debug>(what: &str, name: &str, judged: &T, got: &T) -> Result<(), String> {
    if judged == got {
        return Ok(());
    }
    Err(format!("{what}\n  the judge: {judged:?}\n  {name}: {got:?}"))
}

/// The range that a request queries, if it is a query that isn't refused.
fn queried(request: &Request) -> Option<Range> {
    match request {
        Request::Direct(Ask::Query(span), _) | Request::Record(Ask::Query(span), _) => span.range(),
        _ => None,
    }
}

/// The single edit that a request makes, if it makes one.
fn single_edit(request: &Request) -> Option<&Edit> {
    match request {
        Request::Direct(Ask::Edit(edit), _) | Request::Record(Ask::Edit(edit), _) => Some(edit),
        _ => None,
    }
}

/// Whether the request may leave other words than before: an edit answered 0, or a feed, whose earlier records stand.
fn may_change(request: &Request, reply: &Reply) -> bool {
    matches!(request, Request::Feed(_)) || (single_edit(request).is_some() && reply.number == 0)
}

/// Compares the trees node by node, naming only the first node that differs.
fn same_shapes(parties: &Parties) -> Result<Vec<Shape>, String> {
    let judged = parties[0].shapes()?;
    for party in &parties[1..] {
        let got = party.shapes()?;
        agree("number of nodes", party.name(), &judged.len(), &got.len())?;
        for (nth, (ours, theirs)) in judged.iter().zip(&got).enumerate() {
            agree(&format!("node {nth} in preorder"), party.name(), ours, theirs)?;
        }
    }
    Ok(judged)
}

/// Compares the pending nodes after each hit, which are never more than the height and one; gives how many were seen.
fn same_trails(parties: &Parties, query: Range) -> Result<u64, String> {
    let levels = parties[0].shapes()?.first().map_or(0, |root| root[4] + 1);
    let judged = parties[0].trail(query).unwrap_or_default();
    for party in &parties[1..] {
        if let Some(trail) = party.trail(query) {
            agree("pending nodes after each hit", party.name(), &judged, &trail)?;
        }
    }
    let (mut at, mut seen) = (0, 0);
    while at < judged.len() {
        if judged[at] > levels {
            return Err(format!("{} pending nodes in a tree of {levels} levels", judged[at]));
        }
        seen += judged[at];
        at += 1 + 2 * judged[at] as usize;
    }
    Ok(seen)
}

/// The pools' words are those of before.
fn same_words(parties: &Parties, before: &[Vec<u64>]) -> Result<(), String> {
    for (party, words) in parties.iter().zip(before) {
        if party.words() != &words[..] {
            return Err(format!("{}: a call that may change nothing changed a word", party.name()));
        }
    }
    Ok(())
}

/// In every pool one insert or removal kept the other entries' slots.
fn slots_kept(parties: &Parties, before: &[Vec<u64>]) -> Result<(), String> {
    for (party, words) in parties.iter().zip(before).filter(|(_, words)| !words.is_empty()) {
        slots::kept(words, party.words()).map_err(|moved| format!("{}: {moved}", party.name()))?;
    }
    Ok(())
}

/// All parties that keep a pool have the same words in it.
fn equal_pools(parties: &Parties) -> Result<(), String> {
    let mut pools = parties.iter().filter(|party| !party.words().is_empty());
    let Some(first) = pools.next() else {
        return Ok(());
    };
    for other in pools {
        let differing = first.words().iter().zip(other.words()).position(|(ours, theirs)| ours != theirs);
        agree("first word that differs", other.name(), &None, &differing)?;
    }
    Ok(())
}

/// One request to all parties.
fn step(parties: &mut Parties, request: &Request, tally: &mut Tally) -> Result<(), String> {
    let before: Vec<Vec<u64>> = parties.iter().map(|party| party.words().to_vec()).collect();
    let replies: Vec<Reply> = parties.iter_mut().map(|party| party.reply(request)).collect();
    for (party, reply) in parties.iter().zip(&replies).skip(1) {
        agree("reply", party.name(), &replies[0], reply)?;
    }
    let reply = &replies[0];
    if may_change(request, reply) {
        let nodes = same_shapes(parties)?.len() as u64;
        tally.nodes += nodes;
        tally.largest = tally.largest.max(nodes);
        equal_pools(parties)?;
        if single_edit(request).is_some_and(|edit| *edit != Edit::Clear) {
            slots_kept(parties, &before)?;
        }
    } else {
        same_words(parties, &before)?;
    }
    if let Some(range) = queried(request) {
        tally.queries += 1;
        tally.rows += reply.hits;
        tally.pending_nodes += same_trails(parties, range)?;
    }
    tally.steps += 1;
    tally.records += reply.records;
    *tally.answers.entry(reply.number).or_default() += 1;
    Ok(())
}

/// Runs requests on a fresh pool; the place and the words of the first difference, if there is one.
fn run(parties: &mut Parties, slots: u64, requests: &[Request], tally: &mut Tally) -> Result<(), (usize, String)> {
    for party in parties.iter_mut() {
        party.begin(slots, requests);
    }
    for (at, request) in requests.iter().enumerate() {
        step(parties, request, tally).map_err(|difference| (at, difference))?;
    }
    Ok(())
}

/// Drops items, many at a time and then one by one, as long as what is left still fails.
fn fewest<T: Clone>(mut items: Vec<T>, fails: &mut dyn FnMut(&[T]) -> bool) -> Vec<T> {
    let mut chunk = items.len();
    while chunk > 0 {
        let mut at = 0;
        while at < items.len() {
            let after = (at + chunk).min(items.len());
            let fewer = [&items[..at], &items[after..]].concat();
            if fails(&fewer) {
                items = fewer;
            } else {
                at = after;
            }
        }
        chunk /= 2;
    }
    items
}

/// The fewest requests found that still show a difference, and the fewest edits in each feed among them.
fn smallest(parties: &mut Parties, slots: u64, requests: &[Request]) -> Vec<Request> {
    let mut fails = |tried: &[Request]| run(parties, slots, tried, &mut Tally::default()).is_err();
    let mut few = fewest(requests.to_vec(), &mut fails);
    for at in 0..few.len() {
        if let Request::Feed(edits) = few[at].clone() {
            let with = |kept: &[Edit]| [&few[..at], &[Request::Feed(kept.to_vec())], &few[at + 1..]].concat();
            few[at] = Request::Feed(fewest(edits, &mut |kept| fails(&with(kept))));
        }
    }
    few
}

/// Compares one sequence. On a difference the report names the fewest requests found that still show one.
pub fn compare(parties: &mut Parties, sequence: &Sequence, tally: &mut Tally) -> Result<(), String> {
    tally.sequences += 1;
    let Sequence { slots, requests } = sequence;
    let Err((at, _)) = run(parties, *slots, requests, tally) else {
        return Ok(());
    };
    let few = smallest(parties, *slots, &requests[..=at]);
    let listed: Vec<String> = few.iter().map(|request| format!("  {request:?}")).collect();
    let difference = match run(parties, *slots, &few, &mut Tally::default()) {
        Err((_, difference)) => difference,
        Ok(()) => "it did not show again".to_string(),
    };
    Err(format!("difference in a pool of {slots} slots after\n{}\n{difference}", listed.join("\n")))
}
