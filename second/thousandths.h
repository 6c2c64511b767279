/*
 * thousandths.h: keys that lead to an exponent of whole thousandths, or to one of the two next to it. They hardly ever
 * come up by themselves: rate x days x 1,000 / 365, rounded down, is k thousandths only where rate x days is 365,000 k.
 */
#ifndef THOUSANDTHS_H
#define THOUSANDTHS_H

#include "draft.h"
#include "random.h"

enum {
    /* The cap on exponents. */
    LAST_THOUSANDTH = 500,
    END_THOUSANDTHS = 4
};

/* The ends of the range and those one from them, which are drawn more often than others. */
extern const int64_t END_THOUSANDTH[END_THOUSANDTHS];

/* At a thousandth, or at the next exponent below or above it that any rate and days have. Mostly their product is one
   less or one more then; where no rate and days in range have that product, it is the next one that some have. */
typedef enum { NEXT_BELOW = -1, AT_THOUSANDTH = 0, NEXT_ABOVE = 1 } Beside;

/* Whether there is such an exponent: none is below 0, and none in range above the last thousandth. */
bool thousandths_has(int64_t thousandth, Beside beside);

/* A key with that exponent at its own days: of all such keys the first one from the given days on, or else the first of
   all. There must be such an exponent (thousandths_has), and the given days are in the range of keys, 1 to 3650. */
Key thousandths_key(int64_t thousandth, Beside beside, Days from);

/* Draws the keys of a table anew, as many as it has, each with such an exponent at its days. */
void thousandths_draw_keys(Random *random, TableDraft *draft);

#endif
