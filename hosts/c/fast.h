/* fast.h: the calls of the knot check that are timed, in C, as a second comparator for the benchmarks. It is no part of the library. Each has the
 * parameters, the answers and the refusals of its namesake in include/pickledune.h, and leaves the same bytes and words. */
#ifndef FAST_H
#define FAST_H

#include <stddef.h>
#include <stdint.h>

uint32_t fast_read_table(const uint8_t *table, size_t table_bytes, size_t *n, size_t *m);

uint32_t fast_start(const uint8_t *table, size_t table_bytes, size_t start, size_t edition, int32_t *area, size_t words);

uint32_t fast_pick(
    int32_t *area, size_t words, size_t from, size_t to, size_t place, uint32_t *kind, int32_t *count, int32_t *second);

uint32_t fast_run_on(int32_t *area, size_t words, uint32_t k, uint32_t *over, uint32_t *made);

uint32_t fast_run_shuffled(int32_t *area, size_t words, uint32_t k, uint32_t seed, uint32_t *over, uint32_t *made);

#endif
