//! Writes asks as records, from document 01's table.

use model::{Ask, Edit, Span};

/// A kind and its body of 64-bit numbers.
fn with_numbers(kind: u8, numbers: &[u64]) -> Vec<u8> {
    let body = numbers.iter().flat_map(|number| number.to_le_bytes());
    std::iter::once(kind).chain(body).collect()
}

/// The insert in whole units of a kind, where both ends are such and fit.
fn in_units(kind: u8, unit: u64, span: Span, value: u64) -> Option<Vec<u8>> {
    if span.start % unit != 0 || span.end % unit != 0 {
        return None;
    }
    let start = u32::try_from(span.start / unit).ok()?;
    let end = u32::try_from(span.end / unit).ok()?;
    let mut bytes = vec![kind];
    bytes.extend(start.to_le_bytes());
    bytes.extend(end.to_le_bytes());
    bytes.extend(value.to_le_bytes());
    Some(bytes)
}

/// The insert as kind 4 where the end is included, else in metres, in links or in micrometres: the first that can say
/// it.
fn insert(span: Span, value: u64) -> Vec<u8> {
    if span.included {
        return with_numbers(4, &[span.start, span.end, value]);
    }
    in_units(1, 1_000_000, span, value)
        .or_else(|| in_units(2, 201_168, span, value))
        .unwrap_or_else(|| with_numbers(3, &[span.start, span.end, value]))
}

/// The record of an ask; none for a delete or a query with the end included, which no kind can say.
pub fn record(ask: &Ask) -> Option<Vec<u8>> {
    Some(match ask {
        Ask::Edit(Edit::Insert(span, value)) => insert(*span, *value),
        Ask::Edit(Edit::Delete(span)) if !span.included => with_numbers(5, &[span.start, span.end]),
        Ask::Edit(Edit::DeleteMin) => with_numbers(6, &[]),
        Ask::Edit(Edit::DeleteMax) => with_numbers(7, &[]),
        Ask::Edit(Edit::Clear) => with_numbers(8, &[]),
        Ask::Query(span) if !span.included => with_numbers(9, &[span.start, span.end]),
        _ => return None,
    })
}

/// The records of all edits, one after the other; an edit without a record is left out.
pub fn records(edits: &[Edit]) -> Vec<u8> {
    edits.iter().filter_map(|edit| record(&Ask::Edit(*edit))).flatten().collect()
}
