/* hindraloha.h: stretches of track with a value each, kept in memory that the caller lends.
 *
 * An entry takes plain numbers and lent runs of memory, keeps nothing between calls, takes no memory of its own but the
 * stack, and always comes back with a number. `tools/archive` makes the archive, for x86-64.
 *
 *     #include "hindraloha.h"
 *     #include <stdio.h>
 *
 *     int main(void)
 *     {
 *         uint64_t pool[HINDRALOHA_POOL_WORDS(2)];
 *         HindralohaHit rows[2];
 *         hindraloha_format(pool, HINDRALOHA_POOL_WORDS(2));
 *         hindraloha_insert(pool, HINDRALOHA_POOL_WORDS(2), 10, 20, HINDRALOHA_EXCLUDED, 7);
 *         hindraloha_insert(pool, HINDRALOHA_POOL_WORDS(2), 30, 39, HINDRALOHA_INCLUDED, 8);
 *         HindralohaHits found =
 *             hindraloha_query_records(pool, HINDRALOHA_POOL_WORDS(2), 0, 15, HINDRALOHA_EXCLUDED, rows, 2);
 *         for (size_t row = 0; row < found.hits && row < 2; row++)
 *             printf("%ju %ju %ju\n", (uintmax_t)rows[row].start, (uintmax_t)rows[row].end, (uintmax_t)rows[row].value);
 *         return (int)found.number;
 *     }
 *
 * It prints 10 20 7 and ends with status 0.
 *
 * Ranges. A range has a start and an end, both from 0 to 2^64 - 1; which unit they are in is the caller's matter, but in
 * records they are micrometres. `included` 0 (HINDRALOHA_EXCLUDED) means that the end is the first position after the
 * range; any other number means that it is the last one in it, and then one is added to it. Two ranges overlap when the
 * larger start is below the smaller end, so 0..5 and 5..9 do not. Empty and inverted ranges may be stored, and overlap
 * nothing.
 *
 * Lent memory. Runs never overlap each other. A run is given by a pointer and a number of words, bytes or hits. The
 * pointer may not be null, not even where that number is 0, and a pointer to words or hits is aligned for them. A pool
 * may be copied, stored and lent again elsewhere: it holds no addresses.
 *
 * What is left. Each call looks at the whole pool first. A call that is answered with 10 or more is refused: it leaves
 * every word of every run as it was, and its counts are 0, but for a feed, whose earlier records stand. 1 and 2 are no
 * refusals, and they change nothing either.
 */
#ifndef HINDRALOHA_H
#define HINDRALOHA_H

#include <stddef.h>
#include <stdint.h>

#ifdef __cplusplus
extern "C" {
#endif

/* The words of a pool of so many slots, 1 to 4,095: 4 of the header and 6 for each. A slot holds one range. */
#define HINDRALOHA_POOL_WORDS(slots) (4 + 6 * (size_t)(slots))
#define HINDRALOHA_MOST_SLOTS 4095

/* What `included` says of an end. */
#define HINDRALOHA_EXCLUDED 0
#define HINDRALOHA_INCLUDED 1

/* The numbers. Where several hold, the first in the order 10, 11, 14, 15, 12, 1 or 2, 13 is given. */
enum {
    HINDRALOHA_DONE = 0,                    /* none of the others holds; an edit is made */
    HINDRALOHA_ALREADY_THERE = 1,           /* insert: the range is there, and its old value stays */
    HINDRALOHA_ABSENT = 2,                  /* delete: the range isn't there; delete-min, delete-max: nothing is */
    HINDRALOHA_WRONG_LENGTH = 10,           /* the pool's length isn't that of 1 to 4,095 slots */
    HINDRALOHA_UNSOUND = 11,                /* the pool's words are not those of a pool: damaged or never formatted */
    HINDRALOHA_LAST_POSITION_INCLUDED = 12, /* the end is included and is 2^64 - 1 */
    HINDRALOHA_FULL = 13,                   /* insert: the range is new and no slot is free */
    HINDRALOHA_UNKNOWN_KIND = 14,           /* a record of no known kind; in a feed also of kind 9 */
    HINDRALOHA_CUT_SHORT = 15               /* a record without all of its bytes, or no bytes to apply */
};

/* The factors of records in metres and in links: micrometres. */
#define HINDRALOHA_METRE 1000000
#define HINDRALOHA_LINK 201168

/* A number alone. */
typedef struct HindralohaAnswer {
    uint64_t number;
} HindralohaAnswer;

/* A number, and a count that it comes with: 0 on refusal. */
typedef struct HindralohaCount {
    uint64_t number;
    uint64_t count;
} HindralohaCount;

/* A number, and the height: -1 on an empty tree, 0 on refusal. */
typedef struct HindralohaHeight {
    uint64_t number;
    int64_t height;
} HindralohaHeight;

/* A number, and the hits of a query, all counted: 0 on refusal. */
typedef struct HindralohaHits {
    uint64_t number;
    size_t hits;
} HindralohaHits;

/* A stored range that a query overlaps, and its value. */
typedef struct HindralohaHit {
    uint64_t start;
    uint64_t end;
    uint64_t value;
} HindralohaHit;

/* A number, the bytes that an applied record took, and its hits: 0 and 0 on refusal. */
typedef struct HindralohaTaken {
    uint64_t number;
    size_t taken;
    size_t hits;
} HindralohaTaken;

/* A number, the records that a feed applied, and their bytes: 0 and 0 with 10 and 11. */
typedef struct HindralohaRecords {
    uint64_t number;
    size_t records;
    size_t taken;
} HindralohaRecords;

/* Makes any words a pool with nothing in it. 0, or 10. */
HindralohaAnswer hindraloha_format(uint64_t *pool, size_t pool_length);

/* Whether the words are a pool. 0, 10 or 11. */
HindralohaAnswer hindraloha_check(const uint64_t *pool, size_t pool_length);

/* Stores a range with a value. 0, 1, 10, 11, 12 or 13. */
HindralohaAnswer hindraloha_insert(uint64_t *pool, size_t pool_length, uint64_t start, uint64_t end, uint8_t included,
                                   uint64_t value);

/* Removes the range with exactly these ends. 0, 2, 10, 11 or 12. */
HindralohaAnswer hindraloha_delete(uint64_t *pool, size_t pool_length, uint64_t start, uint64_t end, uint8_t included);

/* Removes the first range in the order of starts, and of ends where starts are equal. 0, 2, 10 or 11. */
HindralohaAnswer hindraloha_delete_min(uint64_t *pool, size_t pool_length);

/* Removes the last range in that order. 0, 2, 10 or 11. */
HindralohaAnswer hindraloha_delete_max(uint64_t *pool, size_t pool_length);

/* Removes all ranges and leaves the words that formatting leaves. 0, 10 or 11. */
HindralohaAnswer hindraloha_clear(uint64_t *pool, size_t pool_length);

/* How many ranges are stored. 0, 10 or 11. */
HindralohaCount hindraloha_size(const uint64_t *pool, size_t pool_length);

/* The height of the tree that they are stored in. 0, 10 or 11. */
HindralohaHeight hindraloha_height(const uint64_t *pool, size_t pool_length);

/* 1 where nothing is stored, else 0. 0, 10 or 11. */
HindralohaCount hindraloha_is_empty(const uint64_t *pool, size_t pool_length);

/* Counts the stored ranges that overlap the given one, and writes start, end and value of the first of them to `rows`:
 * as many as fit, three words each, in the order in which the tree is visited (node, right part, left part). The words
 * after the last row stay. 0, 10, 11 or 12. */
HindralohaHits hindraloha_query(const uint64_t *pool, size_t pool_length, uint64_t start, uint64_t end,
                                uint8_t included, uint64_t *rows, size_t rows_length);

/* The same query, which writes the first hits to `rows` as structs: as many as fit, in the same order. `rows_length`
 * counts structs, and those after the last one written stay. 0, 10, 11 or 12. */
HindralohaHits hindraloha_query_records(const uint64_t *pool, size_t pool_length, uint64_t start, uint64_t end,
                                        uint8_t included, HindralohaHit *rows, size_t rows_length);

/* Reads one record and does what it says; bytes after it are ignored. Only a query (kind 9) writes to `rows` and has
 * hits, as `hindraloha_query` does. 0, 1, 2, or any refusal.
 *
 * A record is a byte of kind and a body, its numbers little-endian:
 *
 *     1  insert, metres                      start u32, end u32, value u64
 *     2  insert, links                       start u32, end u32, value u64
 *     3  insert, micrometres                 start u64, end u64, value u64
 *     4  insert, micrometres, end included   start u64, end u64, value u64
 *     5  delete, micrometres                 start u64, end u64
 *     6  delete-min                          nothing
 *     7  delete-max                          nothing
 *     8  clear                               nothing
 *     9  query, micrometres                  start u64, end u64
 */
HindralohaTaken hindraloha_apply(uint64_t *pool, size_t pool_length, const uint8_t *bytes, size_t bytes_length,
                                 uint64_t *rows, size_t rows_length);

/* Applies one record after the other until the bytes end (0, also where there are none) or one is refused, and then gives
 * that one's number. The records before it are counted and stand; it changes nothing itself. Records answered 1 or 2
 * count and don't stop it. A query is refused with 14. 0, 10, 11, 12, 13, 14 or 15. */
HindralohaRecords hindraloha_feed(uint64_t *pool, size_t pool_length, const uint8_t *bytes, size_t bytes_length);

#ifdef __cplusplus
}
#endif

#endif
