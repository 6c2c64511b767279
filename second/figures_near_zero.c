/*
 * figures_near_zero.c: bounds and limits with market bounds on either side of zero, at opening and as shifts carry them
 * across. METHOD 8 and DECISIONS D2.
 */
#include "figures.h"

#include "checks.h"
#include "sample.h"

/* METHOD 8.1: with growth a bound follows its market bound times the factor, so it does not move by twice the
   half-move. The market bounds 90 and -110 become 140 and -160, so that neither takes another factor than at opening,
   while the centre goes to 15 and back to -10. */
static void figures_of_shifts_with_growth(void)
{
    TableDraft draft = sample_with_growth(-10, 100, 500000, FLAG_WATCHED | FLAG_PERMITS_NEGATIVE);
    Course course = started(&draft);
    check_events("up around zero", &course, "61 U 7\n", EVENTS(draft_bid(1, 7, 45), draft_tick(61)));
    check_number("a positive centre", course.session.lines[0].centre.steps, 15);
    check_interest("bounds after up", &course, 7, -122, 155);
    check_limits("limits after up", &course, 7, -65, 100);
    check_events("up and down around zero", &course, "122 D 7\n", EVENTS(draft_ask(62, 7, -65), draft_tick(122)));
    check_number("a negative centre", course.session.lines[0].centre.steps, -10);
    check_interest("bounds after up and down", &course, 7, -177, 155);
    check_limits("limits after up and down", &course, 7, -120, 100);
}

/* Price -10, half-width 100, bounds 100 and -122. Half is floor(950,000 x 222 / 2,000,000) = 105. By the sign of the
   price the bounds would be 82 and -122, half 96 and the upper limit 86: refused. */
static void readings_of_limits_near_zero(void)
{
    TableDraft draft = sample_with_growth(-10, 100, 950000, FLAG_WATCHED | FLAG_PERMITS_NEGATIVE);
    check_program("D2 share 950,000", &draft, 0, "7 -115 95 -122 100\n", NULL, 0);
    /* Half is 110, just under 111: the upper limit lies on its bound. With the whole share half is 111. */
    draft.contracts[0][CONTRACT_WIDTH_SHARE] = 999999;
    check_program("D2 share 999,999", &draft, 0, "7 -120 100 -122 100\n", NULL, 0);
    draft.contracts[0][CONTRACT_WIDTH_SHARE] = 1000000;
    check_table_refused("D2 upper limit 101", &draft, REFUSED_LIMITS, 1);
}

/*
 * Half-width 100 at exponent 10^8, where the up factor is 1.105170936 and the down factor 0.904837403. The upper
 * market bound takes the up factor from 0 on and below 0 the down factor, the lower one the other of them, so that
 * interest always leads outward. Half the corridor is a quarter of what lies between the bounds, rounded down.
 *
 *      P   upper times factor          lower times factor           half
 *      0    100 x up   =  110.5..      -100 x up   = -110.5..       55 of 222
 *     10    110 x up   =  121.5..       -90 x up   =  -99.4..       55 of 222
 *    -99      1 x up   =    1.1..      -199 x up   = -219.9..       55 of 222
 *   -100      0                        -200 x up   = -221.0..       55 of 222
 *   -101     -1 x down =   -0.9..      -201 x up   = -222.1..       55 of 223
 *   -150    -50 x down =  -45.2..      -250 x up   = -276.2..       58 of 232
 *
 * and for 99, 100, 101 and 150 the same with the sides changed. At a market bound of 0 either factor gives 0, at opening
 * and after any shift, so that no answer tells whether it was counted as negative.
 */
static void figures_near_zero(void)
{
    static const struct { const char *name; int32_t price; const char *answer; } openings[] = {
        {"near zero, P 0", 0, "7 -55 55 -111 111\n"},
        {"near zero, P 10", 10, "7 -45 65 -100 122\n"},
        {"near zero, P -99", -99, "7 -154 -44 -220 2\n"},
        {"near zero, P -100", -100, "7 -155 -45 -222 0\n"},
        {"near zero, P -101", -101, "7 -156 -46 -223 0\n"},
        {"near zero, P -150", -150, "7 -208 -92 -277 -45\n"},
        {"near zero, P 99", 99, "7 44 154 -2 220\n"},
        {"near zero, P 100", 100, "7 45 155 0 222\n"},
        {"near zero, P 101", 101, "7 46 156 0 223\n"},
        {"near zero, P 150", 150, "7 92 208 45 277\n"},
    };
    for (size_t i = 0; i < sizeof openings / sizeof openings[0]; i++) {
        TableDraft draft = sample_with_growth(openings[i].price, 100, 500000, FLAG_WATCHED | FLAG_PERMITS_NEGATIVE);
        check_program(openings[i].name, &draft, 0, openings[i].answer, NULL, 0);
    }
    /* Without negative prices the same bounds, and the lower limit is lifted. */
    TableDraft draft = sample_with_growth(10, 100, 500000, FLAG_WATCHED);
    check_program("near zero, lifted", &draft, 0, "7 1 65 -100 122\n", NULL, 0);
    /* The whole width fits, since the bounds lie as far above P as below it. */
    draft = sample_with_growth(0, 100, 1000000, FLAG_WATCHED | FLAG_PERMITS_NEGATIVE);
    check_program("around zero, limits on the bounds", &draft, 0, "7 -111 111 -111 111\n", NULL, 0);
}

/* A contract as above, which up to 16 shifts may carry. A shift moves a market bound by twice the half-move. */
static TableDraft sample_near_zero(int32_t settlement, uint32_t half_move, uint32_t flags)
{
    TableDraft draft = sample_with_growth(settlement, 100, 500000, flags);
    draft.header[HEADER_MOST_SHIFTS] = 16;
    draft.header[HEADER_SHIFT_SHARE] = 20000 * half_move;
    return draft;
}

/*
 * Price -150: an up shift leaves the lower bound at -277, and carries the upper market bound across zero, where it takes
 * the other factor.
 *
 *   half-move 50   upper market bound  -50,  50        upper bound  -45, 56          upper limit  -92,   9
 *   half-move 25                       -50,   0,  50                -45,  0, 56                   -92, -47,  9
 *
 * With the down factor kept, 50 would give 46 and the limit -1. With limits 9 and -208 the zone is 10.85, so that a bid
 * at distance 10 presses and one at distance 11 does not; both would press at a limit of -1.
 */
static void figures_across_zero_upward(void)
{
    const uint32_t flags = FLAG_WATCHED | FLAG_PERMITS_NEGATIVE;
    TableDraft draft = sample_near_zero(-150, 50, flags);
    check_program("upward, before the shift", &draft, 0, "7 -208 -92 -277 -45\n",
                  EVENTS(draft_bid(10, 7, -92), draft_tick(69)));
    check_program("upward, across zero at once", &draft, 0, "70 U 7\n7 -208 9 -277 56\n",
                  EVENTS(draft_bid(10, 7, -92), draft_tick(70)));
    draft = sample_near_zero(-150, 25, flags);
    check_program("upward, at zero", &draft, 0, "70 U 7\n7 -208 -47 -277 0\n",
                  EVENTS(draft_bid(10, 7, -2), draft_tick(70)));
    check_program("upward, across zero by way of 0", &draft, 0, "70 U 7\n130 U 7\n7 -208 9 -277 56\n",
                  EVENTS(draft_bid(10, 7, -2), draft_tick(1000)));
    /* The third shift carries 50 to 100: 110.5.. up to 111, and the limit rises by 55. */
    check_program("upward, on above zero", &draft, 0, "70 U 7\n130 U 7\n190 U 7\n7 -208 64 -277 111\n",
                  EVENTS(draft_bid(10, 7, -1), draft_tick(1000)));
    /* From -1 to 1: the bound goes from 0 to 2. By one factor it would go from 0 to 1, or from -1 to 2. */
    draft = sample_near_zero(-101, 1, flags);
    check_program("upward, from -1 to 1", &draft, 0, "70 U 7\n7 -156 -44 -223 2\n",
                  EVENTS(draft_bid(10, 7, -46), draft_tick(70)));
    /* From 0 to 50. */
    draft = sample_near_zero(-100, 25, flags);
    check_program("upward, from 0", &draft, 0, "70 U 7\n7 -155 11 -222 56\n",
                  EVENTS(draft_bid(10, 7, -45), draft_tick(70)));
}

/* The same with the sides changed, for price 150: the upper bound stays 277, and the lower one goes from 45 to -56. */
static void figures_across_zero_downward(void)
{
    const uint32_t flags = FLAG_WATCHED | FLAG_PERMITS_NEGATIVE;
    TableDraft draft = sample_near_zero(150, 50, flags);
    check_program("downward, before the shift", &draft, 0, "7 92 208 45 277\n",
                  EVENTS(draft_ask(10, 7, 92), draft_tick(69)));
    check_program("downward, across zero at once", &draft, 0, "70 D 7\n7 -9 208 -56 277\n",
                  EVENTS(draft_ask(10, 7, 92), draft_tick(70)));
    draft = sample_near_zero(150, 25, flags);
    check_program("downward, at zero", &draft, 0, "70 D 7\n7 47 208 0 277\n",
                  EVENTS(draft_ask(10, 7, 2), draft_tick(70)));
    check_program("downward, across zero by way of 0", &draft, 0, "70 D 7\n130 D 7\n7 -9 208 -56 277\n",
                  EVENTS(draft_ask(10, 7, 2), draft_tick(1000)));
    check_program("downward, on below zero", &draft, 0, "70 D 7\n130 D 7\n190 D 7\n7 -64 208 -111 277\n",
                  EVENTS(draft_ask(10, 7, 1), draft_tick(1000)));
    draft = sample_near_zero(101, 1, flags);
    check_program("downward, from 1 to -1", &draft, 0, "70 D 7\n7 44 156 -2 223\n",
                  EVENTS(draft_ask(10, 7, 46), draft_tick(70)));
    draft = sample_near_zero(100, 25, flags);
    check_program("downward, from 0", &draft, 0, "70 D 7\n7 -11 155 -56 222\n",
                  EVENTS(draft_ask(10, 7, 45), draft_tick(70)));

    /* Without negative prices the limit falls from 92 to 47, and then by 56: below 1, lifted and frozen, so that the ask
       calls no more. With the down factor kept it would fall by 46 to exactly 1, and the ask would call once more. */
    draft = sample_near_zero(150, 25, FLAG_WATCHED);
    check_program("downward, frozen by the bound's own sign", &draft, 0, "70 D 7\n130 D 7\n7 1 208 -56 277\n",
                  EVENTS(draft_ask(10, 7, -100), draft_tick(1000)));
    /* Half is floor(450,451 x 222 / 2,000,000) = 50, and the lower bound goes from 0 to -56: 50 - 56 is lifted, while
       50 - 46 would not be. */
    draft = sample_near_zero(100, 25, FLAG_WATCHED);
    draft.contracts[0][CONTRACT_WIDTH_SHARE] = 450451;
    check_program("downward, frozen from 0", &draft, 0, "70 D 7\n7 1 150 -56 222\n",
                  EVENTS(draft_ask(10, 7, 50), draft_tick(1000)));
}

/*
 * Prices -1,000, -150, 0, 150 and 1,000 in one table, half-width 100 and half-move 50. Only contract 8, at 0, is watched.
 * It calls one shift up and one down, and these act on all lines: each upper market bound rises by 100, each lower one
 * falls by 100.
 *
 *        upper market bound   upper bound   lower market bound   lower bound
 *    6     -900,  -800        -814,  -723     -1,100, -1,200     -1,216, -1,327
 *    7      -50,    50         -45,    56       -250,   -350       -277,   -387
 *    8      100,   200         111,   222       -100,   -200       -111,   -222
 *    9      250,   350         277,   387         50,    -50         45,    -56
 *   10    1,100, 1,200       1,216, 1,327        900,    800        814,    723
 *
 * Each limit moves as far as its bound does.
 */
static void figures_of_all_signs(void)
{
    static const int32_t prices[] = {-1000, -150, 0, 150, 1000};
    TableDraft draft = sample_near_zero(prices[0], 50, FLAG_PERMITS_NEGATIVE);
    draft.contracts[0][CONTRACT_ID] = 6;
    for (uint32_t i = 1; i < 5; i++) {
        add_contract(&draft, 6 + i)[CONTRACT_SETTLEMENT] = (uint32_t)prices[i];
    }
    draft.contracts[2][CONTRACT_FLAGS] |= FLAG_WATCHED;
    check_program("all signs", &draft, 0,
                  "6 -1100 -900 -1216 -814\n7 -208 -92 -277 -45\n8 -55 55 -111 111\n"
                  "9 92 208 45 277\n10 900 1100 814 1216\n",
                  NULL, 0);
    check_program("all signs, up", &draft, 0,
                  "70 U 8\n6 -1100 -809 -1216 -723\n7 -208 9 -277 56\n8 -55 166 -111 222\n"
                  "9 92 318 45 387\n10 900 1211 814 1327\n",
                  EVENTS(draft_bid(10, 8, 55), draft_tick(70)));
    check_program("all signs, up and down", &draft, 0,
                  "70 U 8\n140 D 8\n6 -1211 -809 -1327 -723\n7 -318 9 -387 56\n8 -166 166 -222 222\n"
                  "9 -9 318 -56 387\n10 809 1211 723 1327\n",
                  EVENTS(draft_bid(10, 8, 55), draft_tick(70), draft_ask(80, 8, -55), draft_tick(140)));
}

void near_zero_figures(void)
{
    figures_of_shifts_with_growth();
    readings_of_limits_near_zero();
    figures_near_zero();
    figures_across_zero_upward();
    figures_across_zero_downward();
    figures_of_all_signs();
}
