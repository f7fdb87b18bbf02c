//! The entries as the library has them: the declarations of `include/hindraloha.h` in Rust. Nothing outside this crate
//! sees them. A slice of Rust is never null, also where it is empty, as the entries want it.

/// A number alone.
#[repr(C)]
pub struct Answer {
    pub number: u64,
}

/// A number, and a count that it comes with.
#[repr(C)]
pub struct Count {
    pub number: u64,
    pub count: u64,
}

/// A number, and the height: -1 on an empty tree.
#[repr(C)]
pub struct Height {
    pub number: u64,
    pub height: i64,
}

/// A number, and the hits of a query.
#[repr(C)]
pub struct Hits {
    pub number: u64,
    pub hits: usize,
}

/// A stored range that a query overlaps, and its value.
#[repr(C)]
pub struct Hit {
    pub start: u64,
    pub end: u64,
    pub value: u64,
}

/// A number, the bytes that an applied record took, and its hits.
#[repr(C)]
pub struct Taken {
    pub number: u64,
    pub taken: usize,
    pub hits: usize,
}

/// A number, the records that a feed applied, and their bytes.
#[repr(C)]
pub struct Records {
    pub number: u64,
    pub records: usize,
    pub taken: usize,
}

#[cfg(not(feature = "stand-in"))]
extern "C" {
    pub fn hindraloha_format(pool: *mut u64, pool_length: usize) -> Answer;
    pub fn hindraloha_check(pool: *const u64, pool_length: usize) -> Answer;
    pub fn hindraloha_insert(
        pool: *mut u64,
        pool_length: usize,
        start: u64,
        end: u64,
        included: u8,
        value: u64,
    ) -> Answer;
    pub fn hindraloha_delete(pool: *mut u64, pool_length: usize, start: u64, end: u64, included: u8) -> Answer;
    pub fn hindraloha_delete_min(pool: *mut u64, pool_length: usize) -> Answer;
    pub fn hindraloha_delete_max(pool: *mut u64, pool_length: usize) -> Answer;
    pub fn hindraloha_clear(pool: *mut u64, pool_length: usize) -> Answer;
    pub fn hindraloha_size(pool: *const u64, pool_length: usize) -> Count;
    pub fn hindraloha_height(pool: *const u64, pool_length: usize) -> Height;
    pub fn hindraloha_is_empty(pool: *const u64, pool_length: usize) -> Count;
    pub fn hindraloha_query(
        pool: *const u64,
        pool_length: usize,
        start: u64,
        end: u64,
        included: u8,
        rows: *mut u64,
        rows_length: usize,
    ) -> Hits;
    pub fn hindraloha_query_records(
        pool: *const u64,
        pool_length: usize,
        start: u64,
        end: u64,
        included: u8,
        rows: *mut Hit,
        rows_length: usize,
    ) -> Hits;
    pub fn hindraloha_apply(
        pool: *mut u64,
        pool_length: usize,
        bytes: *const u8,
        bytes_length: usize,
        rows: *mut u64,
        rows_length: usize,
    ) -> Taken;
    pub fn hindraloha_feed(pool: *mut u64, pool_length: usize, bytes: *const u8, bytes_length: usize) -> Records;
}

#[cfg(feature = "stand-in")]
pub use crate::stand_in::*;
