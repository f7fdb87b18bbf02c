/* Document 01's examples 8, 9, 11 and 12, rows and a feed, from C. It prints how many facts hold, or the first that doesn't. */
#include "hindraloha.h"
#include <stdio.h>
#include <stdlib.h>
#include <string.h>

#define LAST UINT64_MAX
#define SLOTS(slots) pool, HINDRALOHA_POOL_WORDS(slots)
#define HOLDS(fact) holds(fact, #fact, __LINE__)

static unsigned facts;

/* Counts a fact, or names it and ends. */
static void holds(int fact, const char *words, int line)
{
    if (!fact) {
        fprintf(stderr, "test.c:%d: %s does not hold\n", line, words);
        exit(1);
    }
    facts++;
}

/* Whether a run has these words. */
static int same(const uint64_t *run, const uint64_t *words, size_t length)
{
    return memcmp(run, words, length * sizeof *run) == 0;
}

/* Whether a hit has these three numbers. */
static int is_hit(HindralohaHit hit, uint64_t start, uint64_t end, uint64_t value)
{
    return hit.start == start && hit.end == end && hit.value == value;
}

/* Example 8: a pool of one slot, and that "already there" goes before "full". */
static void full(void)
{
    uint64_t pool[HINDRALOHA_POOL_WORDS(1)];
    hindraloha_format(SLOTS(1));
    HOLDS(hindraloha_insert(SLOTS(1), 1, 2, HINDRALOHA_EXCLUDED, 0).number == HINDRALOHA_DONE);
    HOLDS(hindraloha_insert(SLOTS(1), 1, 2, HINDRALOHA_EXCLUDED, 0).number == HINDRALOHA_ALREADY_THERE);
    HOLDS(hindraloha_insert(SLOTS(1), 3, 4, HINDRALOHA_EXCLUDED, 0).number == HINDRALOHA_FULL);
    HOLDS(hindraloha_delete(SLOTS(1), 3, 4, HINDRALOHA_EXCLUDED).number == HINDRALOHA_ABSENT);
    HOLDS(hindraloha_delete(SLOTS(1), 1, 2, HINDRALOHA_EXCLUDED).number == HINDRALOHA_DONE);
    HOLDS(hindraloha_insert(SLOTS(1), 3, 4, HINDRALOHA_EXCLUDED, 0).number == HINDRALOHA_DONE);
}

/* Example 9: included ends. */
static void included(void)
{
    uint64_t pool[HINDRALOHA_POOL_WORDS(2)], rows[6];
    hindraloha_format(SLOTS(2));
    HOLDS(hindraloha_insert(SLOTS(2), 5, 9, HINDRALOHA_INCLUDED, 0).number == HINDRALOHA_DONE);
    HOLDS(pool[5] == 10);
    HOLDS(hindraloha_insert(SLOTS(2), 5, LAST, HINDRALOHA_INCLUDED, 0).number == HINDRALOHA_LAST_POSITION_INCLUDED);
    HOLDS(hindraloha_delete(SLOTS(2), 5, LAST, 255).number == HINDRALOHA_LAST_POSITION_INCLUDED);
    HOLDS(hindraloha_query(SLOTS(2), 5, LAST, 2, rows, 6).number == HINDRALOHA_LAST_POSITION_INCLUDED);
    HOLDS(hindraloha_insert(SLOTS(2), 5, LAST - 1, HINDRALOHA_INCLUDED, 0).number == HINDRALOHA_DONE);
    HOLDS(pool[11] == LAST);
    HOLDS(hindraloha_query(SLOTS(2), LAST - 1, LAST, HINDRALOHA_EXCLUDED, rows, 6).hits == 1);
    HOLDS(rows[1] == LAST);
}

/* Example 11: the words of a pool, and the tree's measures. */
static void words(void)
{
    static const uint64_t fresh[] = {0, 1, 0, 0, 0, 0, 0, 0, 2, 0, 0, 0, 0, 0, 0, 0};
    static const uint64_t stored[] = {1, 2, 1, 0, 10, 20, 7, 20, 0, 65536, 0, 0, 0, 0, 0, 0};
    uint64_t pool[HINDRALOHA_POOL_WORDS(2)];
    memset(pool, 0xA5, sizeof pool);
    HOLDS(hindraloha_check(SLOTS(2)).number == HINDRALOHA_UNSOUND);
    HOLDS(hindraloha_format(SLOTS(2)).number == HINDRALOHA_DONE);
    HOLDS(same(pool, fresh, 16));
    HOLDS(hindraloha_height(SLOTS(2)).height == -1);
    HOLDS(hindraloha_is_empty(SLOTS(2)).count == 1);
    HOLDS(hindraloha_delete_min(SLOTS(2)).number == HINDRALOHA_ABSENT);
    HOLDS(hindraloha_delete_max(SLOTS(2)).number == HINDRALOHA_ABSENT);
    HOLDS(hindraloha_insert(SLOTS(2), 10, 20, HINDRALOHA_EXCLUDED, 7).number == HINDRALOHA_DONE);
    HOLDS(same(pool, stored, 16));
    HOLDS(hindraloha_size(SLOTS(2)).count == 1);
    HOLDS(hindraloha_height(SLOTS(2)).height == 0);
    HOLDS(hindraloha_is_empty(SLOTS(2)).count == 0);
    HOLDS(hindraloha_clear(SLOTS(2)).number == HINDRALOHA_DONE);
    HOLDS(same(pool, fresh, 16));
}

/* Example 12: lengths. Runs of length 0 are lent as well, by a pointer that isn't null. */
static void lengths(void)
{
    static const size_t wrong[] = {0, 4, 15, 24575}, right[] = {10, 24574};
    static uint64_t pool[24575];
    uint64_t rows[1];
    HindralohaHit hits[1];
    uint8_t bytes[1] = {8};
    for (size_t nth = 0; nth < 4; nth++) {
        memset(pool, 0xA5, sizeof pool);
        HOLDS(hindraloha_format(pool, wrong[nth]).number == HINDRALOHA_WRONG_LENGTH);
        HOLDS(hindraloha_check(pool, wrong[nth]).number == HINDRALOHA_WRONG_LENGTH);
        HOLDS(hindraloha_query(pool, wrong[nth], 0, 9, HINDRALOHA_EXCLUDED, rows, 0).number == HINDRALOHA_WRONG_LENGTH);
        HOLDS(hindraloha_query_records(pool, wrong[nth], 0, 9, HINDRALOHA_EXCLUDED, hits, 0).number ==
              HINDRALOHA_WRONG_LENGTH);
        HOLDS(hindraloha_apply(pool, wrong[nth], bytes, 1, rows, 0).number == HINDRALOHA_WRONG_LENGTH);
        HOLDS(hindraloha_feed(pool, wrong[nth], bytes, 0).number == HINDRALOHA_WRONG_LENGTH);
        HOLDS(pool[0] == 0xA5A5A5A5A5A5A5A5 && memcmp(pool, pool + 1, sizeof pool - sizeof *pool) == 0);
    }
    for (size_t nth = 0; nth < 2; nth++)
        HOLDS(hindraloha_format(pool, right[nth]).number == HINDRALOHA_DONE);
}

/* Makes a pool of three slots with 0..5 and 5..9 in it. */
static void fill_touching(uint64_t *pool)
{
    hindraloha_format(SLOTS(3));
    hindraloha_insert(SLOTS(3), 0, 5, HINDRALOHA_EXCLUDED, 1);
    hindraloha_insert(SLOTS(3), 5, 9, HINDRALOHA_EXCLUDED, 2);
}

/* Rows: all hits are counted, and only whole rows are written. */
static void rows(void)
{
    static const uint64_t first[] = {0, 5, 1, 77, 77, 77};
    uint64_t pool[HINDRALOHA_POOL_WORDS(3)];
    fill_touching(pool);
    for (size_t room = 0; room < 6; room++) {
        uint64_t run[] = {77, 77, 77, 77, 77, 77};
        HOLDS(hindraloha_query(SLOTS(3), 4, 6, HINDRALOHA_EXCLUDED, run, room).hits == 2);
        HOLDS(same(run, room < 3 ? first + 3 : first, 3) && same(run + 3, first + 3, 3));
    }
}

/* Rows as structs: with an end excluded and included, and with room for none, for some and for more than there are. */
static void structs(void)
{
    uint64_t pool[HINDRALOHA_POOL_WORDS(3)];
    fill_touching(pool);
    for (size_t room = 0; room <= 3; room++) {
        HindralohaHit run[] = {{77, 77, 77}, {77, 77, 77}, {77, 77, 77}};
        HindralohaHits found = hindraloha_query_records(SLOTS(3), 4, 6, HINDRALOHA_EXCLUDED, run, room);
        HOLDS(found.number == HINDRALOHA_DONE && found.hits == 2);
        HOLDS(room > 0 ? is_hit(run[0], 0, 5, 1) : is_hit(run[0], 77, 77, 77));
        HOLDS(room > 1 ? is_hit(run[1], 5, 9, 2) : is_hit(run[1], 77, 77, 77));
        HOLDS(is_hit(run[2], 77, 77, 77));
        HOLDS(hindraloha_query_records(SLOTS(3), 0, 5, HINDRALOHA_EXCLUDED, run, room).hits == 1);
        HOLDS(hindraloha_query_records(SLOTS(3), 0, 5, HINDRALOHA_INCLUDED, run, room).hits == 2);
        HOLDS(hindraloha_query_records(SLOTS(3), 9, 9, HINDRALOHA_INCLUDED, run, room).hits == 0);
    }
}

/* A refused query by structs has no hits and leaves them all. */
static void structs_refused(void)
{
    uint64_t pool[HINDRALOHA_POOL_WORDS(3)];
    HindralohaHit run[] = {{77, 77, 77}};
    fill_touching(pool);
    HindralohaHits found = hindraloha_query_records(SLOTS(3), 0, LAST, 255, run, 1);
    HOLDS(found.number == HINDRALOHA_LAST_POSITION_INCLUDED && found.hits == 0);
    found = hindraloha_query_records(SLOTS(2), 0, 9, HINDRALOHA_EXCLUDED, run, 1);
    HOLDS(found.number == HINDRALOHA_UNSOUND && found.hits == 0);
    found = hindraloha_query_records(pool, HINDRALOHA_POOL_WORDS(3) - 1, 0, LAST, HINDRALOHA_INCLUDED, run, 1);
    HOLDS(found.number == HINDRALOHA_WRONG_LENGTH && found.hits == 0);
    HOLDS(is_hit(run[0], 77, 77, 77));
}

/* A feed: records before the refused one stand, and the counts say how far it came. */
static void feed(void)
{
    static const uint8_t bytes[] = {
        1, 1, 0, 0, 0, 2, 0, 0, 0, 7, 0, 0, 0, 0, 0, 0, 0, /* insert 1 to 2 metres */
        2, 0, 0, 0, 0, 200, 0, 0, 0, 8, 0, 0, 0, 0, 0, 0, 0, /* insert 0 to 200 links */
        6, /* delete-min */
        9, 0, 0, 0, 0, 0, 0, 0, 0, 128, 132, 30, 0, 0, 0, 0, 0, /* query 0 to 2 metres */
    };
    uint64_t pool[HINDRALOHA_POOL_WORDS(2)], run[3];
    hindraloha_format(SLOTS(2));
    HindralohaRecords fed = hindraloha_feed(SLOTS(2), bytes, 34);
    HOLDS(fed.number == HINDRALOHA_DONE && fed.records == 2 && fed.taken == 34);
    HOLDS(pool[4] == HINDRALOHA_METRE && pool[11] == 200 * (uint64_t)HINDRALOHA_LINK && pool[11] == 40233600);
    fed = hindraloha_feed(SLOTS(2), bytes, sizeof bytes);
    HOLDS(fed.number == HINDRALOHA_UNKNOWN_KIND && fed.records == 3 && fed.taken == 35);
    fed = hindraloha_feed(SLOTS(2), bytes, 16);
    HOLDS(fed.number == HINDRALOHA_CUT_SHORT && fed.records == 0 && fed.taken == 0);
    HindralohaTaken query = hindraloha_apply(SLOTS(2), bytes + 35, 17, run, 3);
    HOLDS(query.number == HINDRALOHA_DONE && query.taken == 17 && query.hits == 1 && run[2] == 7);
    HOLDS(hindraloha_apply(SLOTS(2), bytes, 0, run, 0).number == HINDRALOHA_CUT_SHORT);
    HOLDS(hindraloha_apply(SLOTS(2), bytes + 2, 1, run, 0).number == HINDRALOHA_UNKNOWN_KIND);
}

/* Runs all and prints the count. */
int main(void)
{
    full();
    included();
    words();
    lengths();
    rows();
    structs();
    structs_refused();
    feed();
    printf("C: examples 8, 9, 11 and 12, rows as words and as structs, and a feed, %u facts hold\n", facts);
    return 0;
}
