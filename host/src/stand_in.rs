//! The entries by the reference model of the comparison, for tests on machines that the archive isn't made for. Nothing
//! of it is proved, so a release build refuses it.

#[cfg(not(debug_assertions))]
compile_error!("the feature stand-in is for tests: it puts a model in place of the proved library");

#[allow(dead_code, unused_imports)]
#[path = "../../compare/model/lib.rs"]
mod model;

use crate::ffi::{Answer, Count, Height, Hit, Hits, Records, Taken};
use crate::rows::ROW_WORDS;
use model::entry::{self, Applied, Fed, Measured, Queried};
use model::{Edit, Span};
use std::slice::{from_raw_parts, from_raw_parts_mut};

/// The span that an entry's three arguments mean.
fn span(start: u64, end: u64, included: u8) -> Span {
    Span { start, end, included: included != 0 }
}

/// Makes an edit on lent words.
unsafe fn edit(pool: *mut u64, pool_length: usize, edit: Edit) -> Answer {
    Answer { number: entry::edit(from_raw_parts_mut(pool, pool_length), &edit) }
}

/// What is measured of lent words, as a count.
unsafe fn count(pool: *const u64, pool_length: usize, measure: fn(&[u64]) -> Measured) -> Count {
    let Measured { number, measure } = measure(from_raw_parts(pool, pool_length));
    Count { number, count: measure as u64 }
}

/// The model's format.
pub unsafe extern "C" fn hindraloha_format(pool: *mut u64, pool_length: usize) -> Answer {
    Answer { number: entry::format(from_raw_parts_mut(pool, pool_length)) }
}

/// The model's check.
pub unsafe extern "C" fn hindraloha_check(pool: *const u64, pool_length: usize) -> Answer {
    Answer { number: entry::check(from_raw_parts(pool, pool_length)) }
}

/// The model's insert.
pub unsafe extern "C" fn hindraloha_insert(
    pool: *mut u64,
    pool_length: usize,
    start: u64,
    end: u64,
    included: u8,
    value: u64,
) -> Answer {
    edit(pool, pool_length, Edit::Insert(span(start, end, included), value))
}

/// The model's delete.
pub unsafe extern "C" fn hindraloha_delete(
    pool: *mut u64,
    pool_length: usize,
    start: u64,
    end: u64,
    included: u8,
) -> Answer {
    edit(pool, pool_length, Edit::Delete(span(start, end, included)))
}

/// The model's delete-min.
pub unsafe extern "C" fn hindraloha_delete_min(pool: *mut u64, pool_length: usize) -> Answer {
    edit(pool, pool_length, Edit::DeleteMin)
}

/// The model's delete-max.
pub unsafe extern "C" fn hindraloha_delete_max(pool: *mut u64, pool_length: usize) -> Answer {
    edit(pool, pool_length, Edit::DeleteMax)
}

/// The model's clear.
pub unsafe extern "C" fn hindraloha_clear(pool: *mut u64, pool_length: usize) -> Answer {
    edit(pool, pool_length, Edit::Clear)
}

/// The model's size.
pub unsafe extern "C" fn hindraloha_size(pool: *const u64, pool_length: usize) -> Count {
    count(pool, pool_length, entry::size)
}

/// The model's height.
pub unsafe extern "C" fn hindraloha_height(pool: *const u64, pool_length: usize) -> Height {
    let Measured { number, measure } = entry::height(from_raw_parts(pool, pool_length));
    Height { number, height: measure }
}

/// The model's `is_empty`.
pub unsafe extern "C" fn hindraloha_is_empty(pool: *const u64, pool_length: usize) -> Count {
    count(pool, pool_length, entry::is_empty)
}

/// The model's query.
pub unsafe extern "C" fn hindraloha_query(
    pool: *const u64,
    pool_length: usize,
    start: u64,
    end: u64,
    included: u8,
    rows: *mut u64,
    rows_length: usize,
) -> Hits {
    let rows = from_raw_parts_mut(rows, rows_length);
    let Queried { number, hits } = entry::query(from_raw_parts(pool, pool_length), span(start, end, included), rows);
    Hits { number, hits: hits as usize }
}

/// The model's query, with the words of its rows as structs.
pub unsafe extern "C" fn hindraloha_query_records(
    pool: *const u64,
    pool_length: usize,
    start: u64,
    end: u64,
    included: u8,
    rows: *mut Hit,
    rows_length: usize,
) -> Hits {
    hindraloha_query(pool, pool_length, start, end, included, rows.cast::<u64>(), ROW_WORDS * rows_length)
}

/// The model's apply.
pub unsafe extern "C" fn hindraloha_apply(
    pool: *mut u64,
    pool_length: usize,
    bytes: *const u8,
    bytes_length: usize,
    rows: *mut u64,
    rows_length: usize,
) -> Taken {
    let (pool, rows) = (from_raw_parts_mut(pool, pool_length), from_raw_parts_mut(rows, rows_length));
    let Applied { number, bytes, hits } = entry::apply(pool, from_raw_parts(bytes, bytes_length), rows);
    Taken { number, taken: bytes as usize, hits: hits as usize }
}

/// The model's feed.
pub unsafe extern "C" fn hindraloha_feed(
    pool: *mut u64,
    pool_length: usize,
    bytes: *const u8,
    bytes_length: usize,
) -> Records {
    let pool = from_raw_parts_mut(pool, pool_length);
    let Fed { number, records, bytes } = entry::feed(pool, from_raw_parts(bytes, bytes_length));
    Records { number, records: records as usize, taken: bytes as usize }
}
