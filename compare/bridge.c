/* Calls the library for a program that can't link it, as its machine is another one. Frames of calls come from standard
 * input, and what each call gave and left goes to standard output. Numbers are 64 bits wide, the lowest byte first.
 *
 * A frame is its length in bytes, the number of words of a pool, these words, and calls, each on the pool as the one
 * before left it. All of a frame is read before its first call is made. A call is the seven numbers of `Call`, then the
 * words of the rows and the bytes that it lends; structs for rows are lent as their words, three of each. What comes back
 * of it is the three numbers of `Left`, then the words of the pool, the words of the rows and the bytes as they are after
 * it.
 *
 * Each run that is lent ends where memory begins that can't be touched, and marked bytes stand before it. */
#define _DEFAULT_SOURCE
#include "hindraloha.h"
#include <stdio.h>
#include <stdlib.h>
#include <string.h>
#include <sys/mman.h>

enum { ROOM = 1 << 20, FENCE = 1 << 16, MARKED = 64, MARK = 0xA5 };

typedef struct Call {
    uint64_t entry, rows_length, bytes_length, start, end, included, value;
} Call;

typedef struct Left {
    uint64_t number, first, second;
} Left;

/* Says what is wrong with the calls or the library, and ends. */
static void stop(const char *what)
{
    fprintf(stderr, "bridge: %s\n", what);
    exit(1);
}

/* The end of a fresh run: memory to lend lies before it, and fences lie after it and before that memory. */
static uint8_t *fenced(void)
{
    uint8_t *all = mmap(NULL, FENCE + ROOM + FENCE, PROT_NONE, MAP_PRIVATE | MAP_ANONYMOUS, -1, 0);
    if (all == MAP_FAILED || mprotect(all + FENCE, ROOM, PROT_READ | PROT_WRITE) != 0)
        stop("no memory");
    return all + FENCE + ROOM;
}

/* Lays a run before its end, marks the bytes before it, and gives the run. */
static uint8_t *lend(uint8_t *end, const uint8_t *from, size_t bytes)
{
    if (bytes > ROOM - MARKED)
        stop("a run is too long");
    memset(end - bytes - MARKED, MARK, MARKED);
    return memcpy(end - bytes, from, bytes);
}

/* Writes a run as it is after the call; the marks before it have to stand. */
static void give_back(const uint8_t *run, size_t bytes)
{
    for (size_t at = 1; at <= MARKED; at++)
        if (run[-(ptrdiff_t)at] != MARK)
            stop("a call wrote before a run that it was lent");
    fwrite(run, 1, bytes, stdout);
}

/* A number alone. */
static Left answer(HindralohaAnswer given)
{
    return (Left){given.number, 0, 0};
}

/* A number and a count. */
static Left count(HindralohaCount given)
{
    return (Left){given.number, given.count, 0};
}

/* A number and a height. */
static Left height(HindralohaHeight given)
{
    return (Left){given.number, (uint64_t)given.height, 0};
}

/* A number and hits. */
static Left hits(HindralohaHits given)
{
    return (Left){given.number, given.hits, 0};
}

/* A number, bytes and hits. */
static Left taken(HindralohaTaken given)
{
    return (Left){given.number, given.taken, given.hits};
}

/* A number, records and bytes. */
static Left records(HindralohaRecords given)
{
    return (Left){given.number, given.records, given.taken};
}

/* Makes a call; entries count from 0 in the header's order. */
static Left make(const Call *call, uint64_t *pool, size_t length, uint64_t *rows, const uint8_t *bytes)
{
    uint8_t included = (uint8_t)call->included;
    switch (call->entry) {
    case 0: return answer(hindraloha_format(pool, length));
    case 1: return answer(hindraloha_check(pool, length));
    case 2: return answer(hindraloha_insert(pool, length, call->start, call->end, included, call->value));
    case 3: return answer(hindraloha_delete(pool, length, call->start, call->end, included));
    case 4: return answer(hindraloha_delete_min(pool, length));
    case 5: return answer(hindraloha_delete_max(pool, length));
    case 6: return answer(hindraloha_clear(pool, length));
    case 7: return count(hindraloha_size(pool, length));
    case 8: return height(hindraloha_height(pool, length));
    case 9: return count(hindraloha_is_empty(pool, length));
    case 10: return hits(hindraloha_query(pool, length, call->start, call->end, included, rows, call->rows_length));
    case 11: return hits(hindraloha_query_records(pool, length, call->start, call->end, included,
                                                  (HindralohaHit *)rows, call->rows_length / 3));
    case 12: return taken(hindraloha_apply(pool, length, bytes, call->bytes_length, rows, call->rows_length));
    case 13: return records(hindraloha_feed(pool, length, bytes, call->bytes_length));
    default: stop("a call of no entry");
    }
    return (Left){0, 0, 0};
}

/* Makes the call at the front of a frame's calls, writes what it left, and gives the call's length. */
static size_t serve(const uint8_t *calls, uint8_t *pool, size_t pool_length, uint8_t *rows_end, uint8_t *bytes_end)
{
    Call call;
    memcpy(&call, calls, sizeof call);
    size_t rows_bytes = 8 * call.rows_length;
    uint8_t *rows = lend(rows_end, calls + sizeof call, rows_bytes);
    uint8_t *bytes = lend(bytes_end, calls + sizeof call + rows_bytes, call.bytes_length);
    Left left = make(&call, (uint64_t *)pool, pool_length, (uint64_t *)rows, bytes);
    fwrite(&left, sizeof left, 1, stdout);
    give_back(pool, 8 * pool_length);
    give_back(rows, rows_bytes);
    give_back(bytes, call.bytes_length);
    return sizeof call + rows_bytes + call.bytes_length;
}

/* Reads the frame of this length into memory that has to be freed. */
static uint8_t *read_frame(uint64_t length)
{
    uint8_t *frame = malloc(length);
    if (frame == NULL || fread(frame, 1, length, stdin) != length)
        stop("a frame is cut short");
    return frame;
}

/* Serves frames until the input ends. */
int main(void)
{
    uint8_t *pool_end = fenced(), *rows_end = fenced(), *bytes_end = fenced();
    uint64_t length, pool_length;
    while (fread(&length, sizeof length, 1, stdin) == 1) {
        uint8_t *frame = read_frame(length);
        memcpy(&pool_length, frame, sizeof pool_length);
        uint8_t *pool = lend(pool_end, frame + sizeof pool_length, 8 * pool_length);
        for (size_t at = sizeof pool_length + 8 * pool_length; at < length;)
            at += serve(frame + at, pool, pool_length, rows_end, bytes_end);
        fflush(stdout);
        free(frame);
    }
    return 0;
}
