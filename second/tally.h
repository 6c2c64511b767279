/*
 * tally.h: counts what inputs bring about in the engine, so that one can see whether a comparison on them
 * means anything.
 */
#ifndef TALLY_H
#define TALLY_H

#include "edges.h"
#include "input.h"
#include "thousandths.h"

enum {
    /* The fields of a contract that refusal 5 can name, and those of them that a later one follows. */
    FIELDS_AT_FAULT = CONTRACT_FIELDS - 1,
    FIELDS_BEFORE_ANOTHER = FIELDS_AT_FAULT - 1,
    /* The pairs of refusals that one event can be up for. */
    REFUSAL_PAIRS = 19,
    /* The parts, of the same length, that the thousandths from 1 on are counted in. */
    THOUSANDTH_PARTS = 10
};

/* What is counted. The refusals stand first, at their own numbers. */
typedef enum {
    TALLY_FIRST = REFUSED_LENGTH_OR_OFFSETS,
    TALLY_OPENED = REFUSED_PRICE_RANGE + 1,
    TALLY_NO_SHIFTS_ALLOWED,
    TALLY_EVENTS,
    TALLY_SHIFTS_UP,
    TALLY_SHIFTS_DOWN,
    TALLY_TWO_SHIFTS_IN_A_SECOND,
    TALLY_SEVERAL_LINES_DUE,
    TALLY_SEVERAL_SHIFTS,
    TALLY_MOST_SHIFTS_AT_ONCE,
    TALLY_SHIFT_AT_EVENT,
    TALLY_TICK_BEFORE_DUE,
    TALLY_TICK_AT_DUE,
    TALLY_TICK_AFTER_DUE,
    TALLY_FROZEN_AT_OPENING,
    TALLY_FROZEN_IN_SHIFT,
    TALLY_DUE_AT_SESSION_END,
    TALLY_ALL_SHIFTS_USED,
    TALLY_LOWER_BELOW_ZERO,
    TALLY_ZERO_INSIDE,
    TALLY_BEYOND_32_BITS,
    TALLY_CUT_EVENT,
    /* From here on what the signs of market bounds bring about. Lines whose two factors are alike do not count. */
    TALLY_UPPER_MARKET_NEGATIVE,
    TALLY_LOWER_MARKET_NOT_NEGATIVE,
    TALLY_UPPER_ACROSS_ZERO,
    TALLY_LOWER_ACROSS_ZERO,
    TALLY_FLOORED_MARKET_NEGATIVE,
    TALLY_OTHER_BY_PRICE,
    /* From here on what contracts near zero bring about, and other ones less often. */
    TALLY_MARKET_AROUND_ZERO,
    TALLY_WIDE_AROUND_ZERO,
    TALLY_MARKET_AT_ZERO,
    TALLY_MARKET_BESIDE_ZERO,
    TALLY_UPPER_ACROSS_FROM_MINUS_ONE,
    TALLY_LOWER_ACROSS_FROM_ONE,
    TALLY_REFUSED_BY_PRICE,
    TALLY_REFUSED_AROUND_ZERO,
    /* From here on lines by their exponents: at whole thousandths, each of the end ones by itself and all others in parts;
       and where rate x days is one less or one more than at a thousandth. */
    TALLY_END_THOUSANDTH,
    TALLY_THOUSANDTHS = TALLY_END_THOUSANDTH + END_THOUSANDTHS,
    TALLY_BELOW_THOUSANDTH = TALLY_THOUSANDTHS + THOUSANDTH_PARTS,
    TALLY_ABOVE_THOUSANDTH,
    /* From here on what the up factor has beyond its series brings about (outer.h). Lines at exponent 0, where it has nothing,
       are those at thousandth 0. */
    TALLY_LEAST_EXPONENT,
    TALLY_OUTER_NOTHING,
    TALLY_OUTER_UPPER,
    TALLY_OUTER_LOWER,
    TALLY_OUTER_SMALL_UPPER,
    TALLY_OUTER_SMALL_LOWER,
    TALLY_OUTER_LIMITS,
    TALLY_OUTER_AFTER_SHIFT,
    TALLY_OUTER_UPPER_MOVE,
    TALLY_OUTER_LOWER_MOVE,
    TALLY_OUTER_SMALL_MOVE,
    TALLY_OUTER_OPENED,
    TALLY_OUTER_REFUSED,
    /* Of each edge that a table was refused with 5 for the first bad value there, or opened with the last good one. */
    TALLY_FIRST_BAD,
    TALLY_LAST_GOOD = TALLY_FIRST_BAD + EDGES,
    /* From here on what refusals have to tell apart: tables refused with 5, of each field that it alone was at fault, and that
       a later one of its line was too; events that were up for two refusals, by pairs. */
    TALLY_FIRST_FAULT = TALLY_LAST_GOOD + EDGES,
    TALLY_FIELD_ALONE = TALLY_FIRST_FAULT,
    TALLY_FIELD_NOT_ALONE = TALLY_FIELD_ALONE + FIELDS_AT_FAULT,
    TALLY_PAIR = TALLY_FIELD_NOT_ALONE + FIELDS_BEFORE_ANOTHER,
    /* From here on what free events bring about where they are added to the input (thickened.h). */
    TALLY_TICKS_ADDED = TALLY_PAIR + REFUSAL_PAIRS,
    TALLY_QUOTES_REPEATED,
    TALLY_HELD_QUOTES_REPEATED,
    TALLY_EMPTY_BOOKS_REPEATED,
    TALLY_REPEATED_AT_SHIFT,
    TALLY_ADDED_REPORTS_SHIFT,
    TALLY_ADDED_BEFORE_ACCEPTED,
    TALLY_ADDED_AFTER_REFUSED,
    TALLY_OTHER_REFUSAL,
    TALLY_COUNTS
} TallyCount;

/* How often one input brought each thing about. */
typedef struct { uint64_t times[TALLY_COUNTS]; } Tally;

/* Over many inputs: how many brought it about, and how often in all. */
typedef struct {
    uint64_t inputs[TALLY_COUNTS];
    uint64_t times[TALLY_COUNTS];
} TallyTotal;

Tally tally_input(const Input *input);
void tally_add(TallyTotal *total, const Tally *one);

/* Prints all counts from the first on. */
void tally_print(const TallyTotal *total, TallyCount first);

/* How many of the counts from the first on were brought about by enough inputs: by the share of the generated ones that
   tally.c demands, and where it demands none by the least number given. The others are told. */
int tally_enough(const TallyTotal *total, TallyCount first, uint64_t generated, uint64_t least_inputs);

#endif
