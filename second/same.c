/*
 * same.c: comparisons of the engine's own types. Fields are named one by one, since the bytes between them say nothing.
 */
#include "same.h"

#include <string.h>

bool same_shifts(const Shift *one, const Shift *other, uint32_t count)
{
    bool same = true;
    for (uint32_t i = 0; same && i < count; i++) {
        same = one[i].second.seconds == other[i].second.seconds && one[i].side == other[i].side && one[i].id == other[i].id;
    }
    return same;
}

static bool same_bounds(Bounds one, Bounds other)
{
    return one.lower.steps == other.lower.steps && one.upper.steps == other.upper.steps;
}

bool same_shifted(const Line *one, const Line *other)
{
    bool same = one->centre.steps == other->centre.steps && one->lower_frozen == other->lower_frozen
        && same_bounds(one->limits, other->limits) && same_bounds(one->interest, other->interest);
    for (int level = 0; level < LEVELS; level++) {
        same = same && one->half_width[level].steps == other->half_width[level].steps;
    }
    return same;
}

static bool same_book(const Line *one, const Line *other)
{
    return one->has_bid == other->has_bid && one->has_ask == other->has_ask && one->bid.steps == other->bid.steps
        && one->ask.steps == other->ask.steps;
}

static bool same_terms(const Line *one, const Line *other)
{
    return one->id == other->id && one->permits_negative == other->permits_negative && one->watched == other->watched
        && one->half_move.steps == other->half_move.steps
        && one->up_factor.billionths == other->up_factor.billionths
        && one->down_factor.billionths == other->down_factor.billionths;
}

static bool same_head(const Session *one, const Session *other)
{
    return one->clock.seconds == other->clock.seconds && one->session_end.seconds == other->session_end.seconds
        && one->hold.seconds == other->hold.seconds && one->near_share.millionths == other->near_share.millionths
        && one->most_shifts == other->most_shifts && one->shifts_made == other->shifts_made
        && one->line_count == other->line_count
        && memcmp(one->line_in_slot, other->line_in_slot, sizeof one->line_in_slot) == 0;
}

static bool same_holds(const Session *one, const Session *other, uint32_t index)
{
    return one->due[SIDE_UP][index].seconds == other->due[SIDE_UP][index].seconds
        && one->due[SIDE_DOWN][index].seconds == other->due[SIDE_DOWN][index].seconds;
}

/* No part of what stands, and so not compared: earliest_due, a bound which may be too early after a hold has ended; and the
   places past the last line. */
bool same_session(const Session *one, const Session *other)
{
    bool same = same_head(one, other);
    for (uint32_t i = 0; same && i < one->line_count; i++) {
        const Line *line = &one->lines[i];
        const Line *other_line = &other->lines[i];
        same = same_terms(line, other_line) && same_shifted(line, other_line) && same_book(line, other_line)
            && same_holds(one, other, i);
    }
    return same;
}
