/*
 * figures_outer.c: what the up factor has beyond its series, and what comes of it: factors held to the exact sum of the terms,
 * the first bounds that move, and limits, refusals, pressure and a floor that hang on it. METHOD 6 and DECISIONS D3.
 */
#include "figures.h"

#include "checks.h"
#include "sample.h"

#include <string.h>

static const int64_t BILLION = 1000000000;
static const int64_t EXPONENT_CAP = 500000000;

/*
 * The terms, and the 20 that all but the first exponent add:
 *
 *             1   10^9 +           1                                                                 + 20
 *             2   10^9 +           2                                                                 + 20
 *       999,999   10^9 +     999,999 +         499                                                   + 20
 *     1,000,000   10^9 +   1,000,000 +         500                                                   + 20
 *     1,000,001   10^9 +   1,000,001 +         500                                                   + 20
 *   438,701,363   10^9 + 438,701,363 +  96,229,442 + 14,071,995 + 1,543,350 + 135,413 +  9,900 +   620 + 33 + 1 + 20
 *   496,130,644   10^9 + 496,130,644 + 123,072,807 + 20,353,396 + 2,524,485 + 250,494 + 20,712 + 1,467 + 90 + 4 + 20
 *   500,000,000   10^9 + 500,000,000 + 125,000,000 + 20,833,333 + 2,604,166 + 260,416 + 21,701 + 1,550 + 96 + 5 + 20
 */
static void figures_of_outer_factors(void)
{
    static const struct { const char *name; int64_t exponent, series, up_factor, down_factor; } factors[] = {
        {"factors at exponent 0", 0, 1000000000, 1000000000, 1000000000},
        {"factors at exponent 1", 1, 1000000001, 1000000021, 999999979},
        {"factors at exponent 2", 2, 1000000002, 1000000022, 999999978},
        {"factors at exponent 999,999", 999999, 1001000498, 1001000518, 999000482},
        {"factors at exponent 1,000,000", 1000000, 1001000500, 1001000520, 999000480},
        {"factors at exponent 1,000,001", 1000001, 1001000501, 1001000521, 999000479},
        {"factors at exponent 438,701,363", 438701363, 1550692117, 1550692137, 644873328},
        {"factors at exponent 496,130,644", 496130644, 1642354099, 1642354119, 608882084},
        {"factors at the cap", 500000000, 1648721267, 1648721287, 606530653},
    };
    for (size_t i = 0; i < sizeof factors / sizeof factors[0]; i++) {
        Billionths exponent = {factors[i].exponent};
        Billionths up = corridor_up_factor(exponent);
        check_number(factors[i].name, corridor_series(exponent).billionths, factors[i].series);
        check_number(factors[i].name, up.billionths, factors[i].up_factor);
        check_number(factors[i].name, corridor_down_factor(up).billionths, factors[i].down_factor);
    }
    check_number("least exponent above 0", corridor_exponent((Millionths){1}, (Days){1}).billionths, 2);
}

/* ---- Held to the exact sum ---- */

/* Wide enough for a term in units of 10^-27, 10^27 of them at most, times an exponent. */
__extension__ typedef unsigned __int128 Wide;

/* A billionth in such units. */
static const uint64_t UNITS_OF_BILLIONTH = 1000000000000000000;

/* Each of the twelve terms after the first is rounded down by less than one unit, and passes on at most half of what the one
   before it lost, so that it is less than two units short: all of them together are less than this. */
static const uint64_t UNITS_LOST = 24;

/* The sum of the thirteen terms in exact fractions is not below this, and less than UNITS_LOST above it. */
static Wide least_exact_sum(Billionths exponent)
{
    const uint64_t billion = 1000000000;
    Wide term = (Wide)UNITS_OF_BILLIONTH * billion;
    Wide sum = term;
    for (uint64_t k = 1; k <= 12; k++) {
        term = term * (uint64_t)exponent.billionths / (k * billion);
        sum += term;
    }
    return sum;
}

static Wide in_units(Billionths factor)
{
    return (Wide)UNITS_OF_BILLIONTH * (uint64_t)factor.billionths;
}

/* How far the series falls short of the exact sum, in tenths of a billionth, to the nearest. */
static int64_t shortfall(Billionths exponent)
{
    const uint64_t tenth = UNITS_OF_BILLIONTH / 10;
    return (int64_t)((least_exact_sum(exponent) - in_units(corridor_series(exponent)) + tenth / 2) / tenth);
}

/* Of exponents that were looked at: how many, what was wrong with their up factors, and what the series alone leaves. */
typedef struct {
    int tried;
    int below;
    int too_far_above;
    int series_below;
    int64_t most_short;
    int64_t where_most_short;
} Seen;

/* The exact sum is only known to lie between two numbers. What is right has to be right for both. */
static void look_at(Seen *seen, int64_t billionths)
{
    Billionths exponent = {billionths};
    Wide least = least_exact_sum(exponent);
    Wide most = billionths == 0 ? least : least + UNITS_LOST;
    Wide up = in_units(corridor_up_factor(exponent));
    int64_t tenths = shortfall(exponent);
    seen->tried++;
    seen->below += up < most;
    seen->too_far_above += up > least + in_units((Billionths){20});
    seen->series_below += in_units(corridor_series(exponent)) < least;
    if (tenths > seen->most_short) {
        seen->most_short = tenths;
        seen->where_most_short = billionths;
    }
}

/* All whole thousandths and one billionth beside them, 1,501; exponent 2; two at which the series falls far short, the second
   one farther than at any other exponent up to the cap, all of which were once gone through; and every 9,973rd, 50,135 of
   them. The series alone is below the exact sum at each but 0. */
static void figures_of_exact_sums(void)
{
    Seen seen = {0};
    for (int64_t thousandth = 0; thousandth <= EXPONENT_CAP; thousandth += 1000000) {
        for (int64_t exponent = thousandth - 1; exponent <= thousandth + 1; exponent++) {
            if (0 <= exponent && exponent <= EXPONENT_CAP) {
                look_at(&seen, exponent);
            }
        }
    }
    look_at(&seen, 2);
    look_at(&seen, 438701363);
    look_at(&seen, 496130644);
    for (int64_t exponent = 9973; exponent <= EXPONENT_CAP; exponent += 9973) {
        look_at(&seen, exponent);
    }
    check_number("exponents held to the exact sum", seen.tried, 51639);
    check_number("up factors below the exact sum", seen.below, 0);
    check_number("up factors over 20 billionths above it", seen.too_far_above, 0);
    check_number("series below it", seen.series_below, 51638);
    check_number("greatest shortfall of a series, in tenths", seen.most_short, 85);
    check_number("the exponent where it is", seen.where_most_short, 496130644);
    check_number("shortfall at 438,701,363, in tenths", shortfall((Billionths){438701363}), 72);
    check_number("shortfall at 0", shortfall((Billionths){0}), 0);
    check_number("up factor at 0 is the exact sum",
                 in_units(corridor_up_factor((Billionths){0})) == least_exact_sum((Billionths){0}), true);
}

/* ---- The first bounds that move ---- */

/* METHOD 8, with the factors that come of this up factor. */
static int64_t upper_interest(int64_t market, Billionths up_factor)
{
    Billionths factor = market < 0 ? corridor_down_factor(up_factor) : up_factor;
    return ceiling_division(market * factor.billionths, BILLION);
}

static int64_t lower_interest(int64_t market, Billionths up_factor)
{
    Billionths factor = market < 0 ? up_factor : corridor_down_factor(up_factor);
    return floor_division(market * factor.billionths, BILLION);
}

/*
 * At exponent 10^8, of all market bounds on a side of zero the nearest to it whose interest bound is another than with the
 * series alone. All nearer ones are as they were, those of paper 01's figures among them.
 *
 *   26,823 x 1.105170916 = 29,643.9994..    x 1.105170936 = 29,644.00001..
 *   29,644 x 0.904837419 = 26,823.0004..    x 0.904837403 = 26,822.99997..
 */
static void figures_of_first_bounds(void)
{
    static const struct {
        const char *name;
        int64_t (*interest)(int64_t market, Billionths up_factor);
        int64_t side, distance, by_series, bound;
    } firsts[] = {
        {"first upper bound above zero", upper_interest, 1, 26823, 29644, 29645},
        {"first lower bound above zero", lower_interest, 1, 29644, 26823, 26822},
        {"first upper bound below zero", upper_interest, -1, 29644, -26823, -26822},
        {"first lower bound below zero", lower_interest, -1, 26823, -29644, -29645},
    };
    Billionths exponent = {100000000};
    Billionths series = corridor_series(exponent);
    Billionths up = corridor_up_factor(exponent);
    for (size_t i = 0; i < sizeof firsts / sizeof firsts[0]; i++) {
        int64_t market = firsts[i].side * firsts[i].distance;
        int moved = 0;
        for (int64_t nearer = 1; nearer < firsts[i].distance; nearer++) {
            int64_t nearer_market = firsts[i].side * nearer;
            moved += firsts[i].interest(nearer_market, up) != firsts[i].interest(nearer_market, series);
        }
        check_number(firsts[i].name, moved, 0);
        check_number(firsts[i].name, firsts[i].interest(market, series), firsts[i].by_series);
        check_number(firsts[i].name, firsts[i].interest(market, up), firsts[i].bound);
    }
}

/*
 * The same in tables, at these bounds and a step nearer to zero. The market bounds are P plus and minus 1,823 in the first two
 * and 1,356 in the others; half the corridor is 0.45 of what lies between the interest bounds, rounded down.
 *
 *        P   upper times factor             lower times factor             half
 *   25,000   26,823 x up = 29,644.00001..   23,177 x down = 20,971.4..     3,903 of 8,674
 *   24,999   26,822 x up = 29,642.8..       23,176 x down = 20,970.5..     3,902 of 8,673
 *   31,000   32,356 x up = 35,758.9..       29,644 x down = 26,822.99..    4,021 of 8,937
 *   30,999   32,355 x up = 35,757.8..       29,643 x down = 26,822.09..    4,021 of 8,936
 *
 * By the series alone the first line would be 7 21098 28902 20971 29644, and the third one 7 26979 35021 26823 35759.
 */
static void figures_of_first_lines(void)
{
    static const struct { const char *name; int32_t price; uint32_t half_width; const char *answer; } lines[] = {
        {"upper market bound 26,823", 25000, 1823, "7 21097 28903 20971 29645\n"},
        {"upper market bound 26,822", 24999, 1823, "7 21097 28901 20970 29643\n"},
        {"lower market bound 29,644", 31000, 1356, "7 26979 35021 26822 35759\n"},
        {"lower market bound 29,643", 30999, 1356, "7 26978 35020 26822 35758\n"},
        {"lower market bound -26,823", -25000, 1823, "7 -28903 -21097 -29645 -20971\n"},
        {"lower market bound -26,822", -24999, 1823, "7 -28901 -21097 -29643 -20970\n"},
        {"upper market bound -29,644", -31000, 1356, "7 -35021 -26979 -35759 -26822\n"},
        {"upper market bound -29,643", -30999, 1356, "7 -35020 -26978 -35758 -26822\n"},
    };
    for (size_t i = 0; i < sizeof lines / sizeof lines[0]; i++) {
        TableDraft draft
            = sample_with_growth(lines[i].price, lines[i].half_width, 900000, FLAG_WATCHED | FLAG_PERMITS_NEGATIVE);
        check_program(lines[i].name, &draft, 0, lines[i].answer, NULL, 0);
    }
}

/* ---- The least exponents ---- */

/* One contract of price 100,000,000 and this half-width, with a rate and days. */
static TableDraft sample_of_large(uint32_t half_width, uint32_t rate, uint32_t days)
{
    const uint32_t large[] = {100000000, half_width, 1, 1000000, 1000000, 1000000};
    TableDraft draft = sample_with_keys(1, rate, 0, 0, days);
    memcpy(draft.contracts[0], large, sizeof large);
    return draft;
}

/*
 * At exponent 0, by the rate or by the days, the interest bounds are the market bounds; 20 billionths of 150,000,000 would be
 * three steps. At 2 an interest bound lies 22 billionths of its market bound out, to the next whole step. These are a whole
 * number of steps between two neighbouring bounds, so that 21 or 23 billionths give another answer at one of them:
 *
 *   181,818,181 x 22 =   3,999,999,982 billionths      90,909,090 x 22 = 1,999,999,980
 *   181,818,182 x 22 =   4,000,000,004                 90,909,091 x 22 = 2,000,000,002
 *
 * The other bounds are 18,181,819 and 18,181,818, a step out each, and 109,090,910 and 109,090,909, three steps out (2.4..).
 * The limits lie a quarter of what is between the interest bounds, rounded down, from P.
 */
static void figures_of_least_exponents(void)
{
    static const struct { const char *name; uint32_t half_width, rate, days; const char *answer; } lines[] = {
        {"exponent 0, rate 0", 50000000, 0, 3650, "7 75000000 125000000 50000000 150000000\n"},
        {"exponent 0, days 0", 50000000, 1000000, 0, "7 75000000 125000000 50000000 150000000\n"},
        {"exponent 2, upper market bound 181,818,181", 81818181, 1, 1, "7 59090909 140909091 18181818 181818185\n"},
        {"exponent 2, upper market bound 181,818,182", 81818182, 1, 1, "7 59090908 140909092 18181817 181818187\n"},
        {"exponent 2, lower market bound 90,909,090", 9090910, 1, 1, "7 95454544 104545456 90909088 109090913\n"},
        {"exponent 2, lower market bound 90,909,091", 9090909, 1, 1, "7 95454544 104545456 90909088 109090912\n"},
    };
    for (size_t i = 0; i < sizeof lines / sizeof lines[0]; i++) {
        TableDraft draft = sample_of_large(lines[i].half_width, lines[i].rate, lines[i].days);
        check_program(lines[i].name, &draft, 0, lines[i].answer, NULL, 0);
    }
}

/* ---- What hangs on a step ---- */

/* Price 25,000: bounds 20,971 and 29,645, by the series 29,644. Half may be 4,029. With shares from 929,214 to 929,320 it is
   4,030 of 8,674 and was 4,029 of 8,673: refused for the step. Price 31,000: bounds 26,822, by the series 26,823, and 35,759.
   Half is 4,178 with shares up to 935,213, which the step allows; from 935,095 on it was too much. */
static void figures_of_refused_limits(void)
{
    TableDraft draft = sample_with_growth(25000, 1823, 929213, FLAG_WATCHED);
    check_program("lower limit on its bound, upper bound a step out", &draft, 0, "7 20971 29029 20971 29645\n", NULL, 0);
    draft.contracts[0][CONTRACT_WIDTH_SHARE] = 929214;
    check_table_refused("lower limit beyond its bound by the upper one's step", &draft, REFUSED_LIMITS, 1);
    draft.contracts[0][CONTRACT_WIDTH_SHARE] = 929320;
    check_table_refused("the last share refused for it", &draft, REFUSED_LIMITS, 1);
    draft = sample_with_growth(31000, 1356, 935095, FLAG_WATCHED);
    check_program("the first share allowed for it", &draft, 0, "7 26822 35178 26822 35759\n", NULL, 0);
    draft.contracts[0][CONTRACT_WIDTH_SHARE] = 935213;
    check_program("lower limit on its bound by its own step", &draft, 0, "7 26822 35178 26822 35759\n", NULL, 0);
    draft.contracts[0][CONTRACT_WIDTH_SHARE] = 935214;
    check_table_refused("lower limit beyond its bound all the same", &draft, REFUSED_LIMITS, 1);
}

/*
 * A bid or an ask at the border of pressure, where the limit is another for the step.
 *
 *   P 25,000, share 900,000       limits 21,097 and 28,903, by the series 21,098 and 28,902; the zone is 390.3, or 390.2
 *   P 25,323, half-width 1,000    upper market bounds 26,323, 26,823, upper bounds 29,092, 29,645 (29,644), upper limits
 *                                 27,094, 27,647 (27,646); then the zone is 204.75 (204.7)
 *   P 25,000, half-width 1,823    upper market bounds 26,823, 27,733, upper bounds 29,645 (29,644), 30,650, upper limits
 *                                 27,168, 28,173 (28,174), so that it rises by less; then the zone is 267.05 (267.1)
 *   P 31,000, half-width 1,356    lower market bounds 29,644, 28,966, lower bounds 26,822 (26,823), 26,209, lower limits
 *                                 28,766, 28,153 (28,152); then the zone is 254.05 (254.1)
 */
static void figures_of_pressure_at_a_step(void)
{
    TableDraft draft = sample_with_growth(25000, 1823, 900000, FLAG_WATCHED);
    const char *opening = "7 21097 28903 20971 29645\n";
    /* A shift up carries the upper bound from 29,645 to 30,650, so that the limit rises by 1,005. */
    check_program("bid 28,512 does not press", &draft, 0, opening, EVENTS(draft_bid(10, 7, 28512), draft_tick(1000)));
    check_program("bid 28,513 presses", &draft, 0, "70 U 7\n7 21097 29908 20971 30650\n",
                  EVENTS(draft_bid(10, 7, 28513), draft_tick(1000)));
    check_program("ask 21,488 does not press", &draft, 0, opening, EVENTS(draft_ask(10, 7, 21488), draft_tick(1000)));
    check_session("ask 21,487 presses", &draft, "70 D 7\n", EVENTS(draft_ask(10, 7, 21487), draft_tick(1000)));

    /* By the series the first bid would call once more. */
    draft = sample_with_growth(25323, 1000, 500000, FLAG_WATCHED);
    check_program("a shift to 26,823, bid 27,442", &draft, 0, "70 U 7\n7 23552 27647 22008 29645\n",
                  EVENTS(draft_bid(10, 7, 27442), draft_tick(1000)));
    check_program("a shift to 26,823, bid 27,443", &draft, 0, "70 U 7\n130 U 7\n7 23552 28199 22008 30197\n",
                  EVENTS(draft_bid(10, 7, 27443), draft_tick(1000)));

    /* By the series neither bid would, and neither ask. */
    draft = sample_with_growth(25000, 1823, 500000, FLAG_WATCHED);
    check_program("a shift from 26,823, bid 27,905", &draft, 0, "70 U 7\n7 22832 28173 20971 30650\n",
                  EVENTS(draft_bid(10, 7, 27905), draft_tick(1000)));
    check_program("a shift from 26,823, bid 27,906", &draft, 0, "70 U 7\n130 U 7\n7 22832 29179 20971 31656\n",
                  EVENTS(draft_bid(10, 7, 27906), draft_tick(1000)));
    draft = sample_with_growth(31000, 1356, 500000, FLAG_WATCHED);
    check_program("a shift from 29,644, ask 28,408", &draft, 0, "70 D 7\n7 28153 33234 26209 35759\n",
                  EVENTS(draft_ask(10, 7, 28408), draft_tick(1000)));
    check_program("a shift from 29,644, ask 28,407", &draft, 0, "70 D 7\n130 D 7\n7 27540 33234 25596 35759\n",
                  EVENTS(draft_ask(10, 7, 28407), draft_tick(1000)));
}

/* Price 5,177, half-width 30,000, half-move 1,000: a shift down carries the lower market bound from -24,823 to -26,823, and the
   lower bound from -27,434 to -29,645. The lower limit, 2,211, falls by 2,211 to 0, is lifted and frozen, and the ask calls no
   more. By the series it would fall by 2,210 to exactly 1, and the ask would call once more. */
static void figures_of_floor_at_a_step(void)
{
    TableDraft draft = sample_with_growth(5177, 30000, 89458, FLAG_WATCHED);
    draft.header[HEADER_SHIFT_SHARE] = 66667;
    check_program("not frozen yet", &draft, 0, "7 2211 8143 -27434 38877\n",
                  EVENTS(draft_ask(10, 7, -100), draft_tick(69)));
    check_program("frozen for the step", &draft, 0, "70 D 7\n7 1 8143 -29645 38877\n",
                  EVENTS(draft_ask(10, 7, -100), draft_tick(1000)));
    draft.contracts[0][CONTRACT_FLAGS] |= FLAG_PERMITS_NEGATIVE;
    check_program("no floor for the step", &draft, 0, "70 D 7\n130 D 7\n7 -2210 8143 -31855 38877\n",
                  EVENTS(draft_ask(10, 7, -4000), draft_tick(1000)));
}

void outer_figures(void)
{
    figures_of_outer_factors();
    figures_of_exact_sums();
    figures_of_first_bounds();
    figures_of_first_lines();
    figures_of_least_exponents();
    figures_of_refused_limits();
    figures_of_pressure_at_a_step();
    figures_of_floor_at_a_step();
}
