/*
 * outer.h: what the up factor has beyond its series, in bounds: those that a line would have by the series alone, and market
 * bounds at which it makes a step of difference. Near zero these are rare: 20 billionths of 100,000 steps are a 500th of a
 * step.
 */
#ifndef OUTER_H
#define OUTER_H

#include "corridor.h"

/* Whether the line's exponent is above 0, so that its up factor is not the series alone. */
bool outer_has(const Line *line);

/* The interest bounds of the line's market bounds as they stand, with the factors that the series alone would give. */
Bounds outer_bounds_by_series(const Line *line);

enum {
    /* How far from zero a market bound is small, in steps. */
    MOST_SMALL_DISTANCE = 300000,
    /* From almost any distance on there is one among so many, but not from everywhere near zero. */
    DISTANCES_TRIED = 20000
};

/* How far from zero a market bound lies whose interest bound is another by the series alone: the first such distance from the
   given one on, or, where none of those tried is such, 0. It takes the line's up factor, as an upper one above zero does and a
   lower one below it, or else its down factor. */
int64_t outer_telling_distance(const Line *line, bool takes_up_factor, int64_t from);

#endif
