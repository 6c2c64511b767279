/*
 * generate.h: seeded whole inputs (a table and its events, as the program reads them), good and damaged.
 * The same seed and number give the same bytes on every machine.
 */
#ifndef GENERATE_H
#define GENERATE_H

#include "corridor.h"

enum {
    MOST_EVENTS = 400,
    LONGEST_INPUT = LONGEST_TABLE + (MOST_EVENTS + 1) * EVENT_BYTES,
    EVENTS_OF_LONG_INPUT = 7000,
    LONGEST_LONG_INPUT = LONGEST_TABLE + EVENTS_OF_LONG_INPUT * EVENT_BYTES
};

/* Fills the buffer with the numbered input of a seed and gives its length. */
size_t generate_input(uint64_t seed, uint64_t number, uint8_t input[LONGEST_INPUT]);

/* The same with a good table and several times the events that either program reads at once. Most are ticks that
   change nothing, and seconds and shifts are left for the last events too, so that holds and shifts come about all
   along. */
size_t generate_long_input(uint64_t seed, uint64_t number, uint8_t input[LONGEST_LONG_INPUT]);

#endif
