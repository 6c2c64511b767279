/*
 * outer.c: works out bounds once more with the series alone, and looks for distances one after another.
 */
#include "outer.h"

static const int64_t BILLION = 1000000000;

bool outer_has(const Line *line)
{
    return line->up_factor.billionths > BILLION;
}

/* The up factor that the series alone would be. */
static Billionths series_of(const Line *line)
{
    return (Billionths){line->up_factor.billionths - (outer_has(line) ? OUTER_BILLIONTHS : 0)};
}

Bounds outer_bounds_by_series(const Line *line)
{
    int64_t upper_market = line->centre.steps + line->half_width[0].steps;
    int64_t lower_market = line->centre.steps - line->half_width[0].steps;
    int64_t up = series_of(line).billionths;
    int64_t down = corridor_down_factor(series_of(line)).billionths;
    return (Bounds){
        .lower = {floor_division(lower_market * (lower_market < 0 ? up : down), BILLION)},
        .upper = {ceiling_division(upper_market * (upper_market < 0 ? down : up), BILLION)},
    };
}

/* Above zero an upper bound takes the up factor and is rounded up, and a lower one takes the down factor and is rounded down.
   Below zero it is the same with the sides changed and the other sign. */
static bool tells(const Line *line, bool takes_up_factor, int64_t distance)
{
    int64_t series = series_of(line).billionths;
    int64_t down_by_series = corridor_down_factor(series_of(line)).billionths;
    if (takes_up_factor) {
        return ceiling_division(distance * line->up_factor.billionths, BILLION)
            != ceiling_division(distance * series, BILLION);
    }
    return floor_division(distance * line->down_factor.billionths, BILLION)
        != floor_division(distance * down_by_series, BILLION);
}

int64_t outer_telling_distance(const Line *line, bool takes_up_factor, int64_t from)
{
    for (int64_t distance = from; distance < from + DISTANCES_TRIED; distance++) {
        if (tells(line, takes_up_factor, distance)) {
            return distance;
        }
    }
    return 0;
}
