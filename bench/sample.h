/*
 * sample.h: the inputs of the benchmark: mostly quotes inside the corridor, some pressing, some ticks, and a
 * shift in each of a few stretches.
 */
#ifndef BENCH_SAMPLE_H
#define BENCH_SAMPLE_H

#include <stdbool.h>
#include <stddef.h>
#include <stdint.h>

#ifndef EVENTS
#define EVENTS 2000000
#endif

/* Writes a table of so many contracts; the answer is its length. */
size_t sample_table(uint8_t *bytes, uint32_t contract_count);

/* Writes a table of so many contracts whose exponents are all whole thousandths, or none of them but the first, which is 0. */
size_t sample_opening(uint8_t *bytes, uint32_t contract_count, bool whole);

/* Writes EVENTS events, the same for the same number of contracts. */
void sample_events(uint8_t *bytes, uint32_t contract_count);

#endif
