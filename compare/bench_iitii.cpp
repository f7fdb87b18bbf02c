// Debian's libiitii as an outsider for the query: its implicit interval tree, behind two functions for the benchmark.
#include <omp.h>

#include <cstddef>
#include <cstdint>

#include "iitii.h"

// A row as the benchmark writes it.
struct Row {
    uint64_t start, end, value;
};

// The start of a row.
static uint64_t start_of(const Row& row) {
    return row.start;
}

// The end of a row.
static uint64_t end_of(const Row& row) {
    return row.end;
}

using Tree = iitii::iit<uint64_t, Row, start_of, end_of>;

// A tree of so many rows. It keeps them in the file, which it removes when it goes.
extern "C" Tree* bench_iitii_build(const Row* rows, size_t count, const char* file) {
    omp_set_num_threads(1);
    return new Tree(Tree::builder(file, rows, rows + count).build());
}

// Queries, each given by its start and its end, whose rows are written as many as fit: the hits of all.
extern "C" size_t bench_iitii_query(const Tree* tree, const uint64_t* ends, size_t count, Row* rows, size_t room) {
    static std::vector<Row> found;
    size_t hits = 0;
    for (size_t nth = 0; nth < count; nth++) {
        tree->overlap(ends[2 * nth], ends[2 * nth + 1], found);
        std::copy_n(found.begin(), std::min(found.size(), room), rows);
        hits += found.size();
    }
    return hits;
}
