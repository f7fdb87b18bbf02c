/* The two entries that answer more than two numbers, for a machine whose C gives such an answer back in another way than
 * that of x86-64: there the caller says by a first argument where the answer goes, and so does the library's bitcode. */
#include "hindraloha.h"

HindralohaTaken *placed_apply(HindralohaTaken *answer, uint64_t *pool, size_t pool_length, const uint8_t *bytes,
                              size_t bytes_length, uint64_t *rows, size_t rows_length);
HindralohaRecords *placed_feed(HindralohaRecords *answer, uint64_t *pool, size_t pool_length, const uint8_t *bytes,
                               size_t bytes_length);

/* hindraloha_apply, as the header has it. */
HindralohaTaken hindraloha_apply(uint64_t *pool, size_t pool_length, const uint8_t *bytes, size_t bytes_length,
                                 uint64_t *rows, size_t rows_length)
{
    HindralohaTaken answer;
    return *placed_apply(&answer, pool, pool_length, bytes, bytes_length, rows, rows_length);
}

/* hindraloha_feed, as the header has it. */
HindralohaRecords hindraloha_feed(uint64_t *pool, size_t pool_length, const uint8_t *bytes, size_t bytes_length)
{
    HindralohaRecords answer;
    return *placed_feed(&answer, pool, pool_length, bytes, bytes_length);
}
