/*
 * figures_opening.c: the numbers that a session opens with: divisions, rates, factors, half-widths, bounds and limits, and the
 * caps on them. METHOD 25 and DECISIONS A1 and A2.
 */
#include "figures.h"

#include "checks.h"
#include "sample.h"

#include <string.h>

static void figures_of_divisions(void)
{
    check_number("floor 7/2", floor_division(7, 2), 3);
    check_number("floor -7/2", floor_division(-7, 2), -4);
    check_number("floor -8/2", floor_division(-8, 2), -4);
    check_number("floor -1/2", floor_division(-1, 2), -1);
    check_number("floor 0/2", floor_division(0, 2), 0);
    check_number("ceiling 7/2", ceiling_division(7, 2), 4);
    check_number("ceiling -7/2", ceiling_division(-7, 2), -3);
    check_number("ceiling 8/2", ceiling_division(8, 2), 4);
    check_number("ceiling 1/2", ceiling_division(1, 2), 1);
    check_number("ceiling -1/2", ceiling_division(-1, 2), 0);
}

static void figures_of_rates(void)
{
    Keys falling = {2, {{{30}, {100000}}, {{90}, {70001}}}};
    check_number("rate at 31 days", corridor_rate(&falling, (Days){31}).millionths, 99500);
    check_number("rate at 30 days", corridor_rate(&falling, (Days){30}).millionths, 100000);
    check_number("rate at 10 days", corridor_rate(&falling, (Days){10}).millionths, 100000);
    check_number("rate at 0 days", corridor_rate(&falling, (Days){0}).millionths, 100000);
    check_number("rate at 90 days", corridor_rate(&falling, (Days){90}).millionths, 70001);
    check_number("rate at 91 days", corridor_rate(&falling, (Days){91}).millionths, 70001);

    Keys rising = {3, {{{10}, {0}}, {{13}, {10}}, {{20}, {17}}}};
    check_number("rising rate at 12 days", corridor_rate(&rising, (Days){12}).millionths, 6);
    check_number("rate at the middle key", corridor_rate(&rising, (Days){13}).millionths, 10);
    check_number("rate after the middle key", corridor_rate(&rising, (Days){14}).millionths, 11);
}

static void figures_of_factors(void)
{
    check_number("y at 92,500, 45 days", corridor_exponent((Millionths){92500}, (Days){45}).billionths, 11404109);
    check_number("y at 100,000, 365 days", corridor_exponent((Millionths){100000}, (Days){365}).billionths, 100000000);
    check_number("y beyond 32 bits", corridor_exponent((Millionths){1000000}, (Days){3650}).billionths, 10000000000);
    Billionths up = corridor_up_factor((Billionths){100000000});
    check_number("up factor", up.billionths, 1105170936);
    check_number("down factor", corridor_down_factor(up).billionths, 904837403);
    /* 10^9 + 11,404,109 + 65,026 + 247, and 20. */
    Billionths up_at_45_days = corridor_up_factor((Billionths){11404109});
    check_number("up factor at 92,500, 45 days", up_at_45_days.billionths, 1011469402);
    check_number("down factor at 92,500, 45 days", corridor_down_factor(up_at_45_days).billionths, 988660653);
    check_number("up factor at 0", corridor_up_factor((Billionths){0}).billionths, 1000000000);
    check_number("down factor at 0", corridor_down_factor((Billionths){1000000000}).billionths, 1000000000);
}

static void figures_of_bounds(void)
{
    TableDraft draft = sample_with_growth(1000, 100, 500000, FLAG_WATCHED);
    Course course = started(&draft);
    check_interest("bounds at 1,000", &course, 7, 814, 1216);
    check_limits("limits at 1,000", &course, 7, 900, 1100);
    check_number("centre", course.session.lines[0].centre.steps, 1000);
    check_number("half-width 1", course.session.lines[0].half_width[0].steps, 100);
    check_number("half-width 2", course.session.lines[0].half_width[1].steps, 200);
    check_number("half-width 3", course.session.lines[0].half_width[2].steps, 300);

    draft.contracts[0][CONTRACT_WIDTH_SHARE] = 1000000;
    check_table_refused("lower limit 799", &draft, REFUSED_LIMITS, 1);

    draft = sample_with_growth(-1000, 100, 500000, FLAG_WATCHED | FLAG_PERMITS_NEGATIVE);
    course = started(&draft);
    check_interest("bounds at -1,000", &course, 7, -1216, -814);
    check_limits("limits at -1,000", &course, 7, -1100, -900);
    draft.contracts[0][CONTRACT_WIDTH_SHARE] = 1000000;
    check_table_refused("upper limit -799", &draft, REFUSED_LIMITS, 1);

    draft = sample();
    draft.contracts[0][CONTRACT_WIDTH_SHARE] = 1000000;
    course = started(&draft);
    check_limits("limits equal to the bounds", &course, 7, 900, 1100);

    draft = sample_with_growth(-10, 100, 500000, FLAG_WATCHED | FLAG_PERMITS_NEGATIVE);
    course = started(&draft);
    check_interest("bounds at -10", &course, 7, -122, 100);
    check_limits("limits at -10", &course, 7, -65, 45);
}

static void figures_of_normal_price(void)
{
    TableDraft draft = sample();
    draft.contracts[0][CONTRACT_SPOT] = (uint32_t)-2001;
    draft.contracts[0][CONTRACT_RATE_2] = 100001;
    Course course = started(&draft);
    check_number("size of a negative spot, rounded up", course.session.lines[0].half_width[0].steps, 201);
    check_number("ceiling at level 2", course.session.lines[0].half_width[1].steps, 201);
    draft.contracts[0][CONTRACT_LEAST_PRICE] = 5000;
    course = started(&draft);
    check_number("least price", course.session.lines[0].half_width[0].steps, 500);
}

static void readings_of_caps(void)
{
    TableDraft draft = sample();
    draft.header[HEADER_SHIFT_SHARE] = 1;
    check_table_refused("A1 half-move 0", &draft, REFUSED_HALF_MOVE, 1);
    draft.header[HEADER_SHIFT_SHARE] = 19999;
    check_table_refused("A1 half-move just under 1", &draft, REFUSED_HALF_MOVE, 1);
    draft.header[HEADER_SHIFT_SHARE] = 20000;
    check_table_opens("A1 half-move 1", &draft);

    draft = sample();
    draft.keys[0][KEY_RATE] = 50000;
    draft.contracts[0][CONTRACT_DAYS_LEFT] = 3650;
    check_table_opens("A1 exponent at the cap", &draft);
    draft.keys[0][KEY_RATE] = 50001;
    check_table_refused("A1 exponent over the cap", &draft, REFUSED_EXPONENT, 1);

    /* Market bounds 40 and -20: 44.2.. and -22.1.., so 45 and -23. Half is 34, so the lower limit is -24, beyond its
       bound. From share 970,589 up to 999,999 half is 33 and the lower limit lies on its bound; below that half is 32. */
    draft = sample_with_growth(10, 30, 1000000, FLAG_WATCHED);
    check_table_refused("A2 9 before the floor", &draft, REFUSED_LIMITS, 1);
    draft.contracts[0][CONTRACT_WIDTH_SHARE] = 970589;
    check_program("A2 -23, on its bound, is lifted", &draft, 0, "7 1 43 -23 45\n", NULL, 0);
    draft.contracts[0][CONTRACT_WIDTH_SHARE] = 970588;
    check_program("A2 -22 is lifted", &draft, 0, "7 1 42 -23 45\n", NULL, 0);
}

static void check_levels(const char *name, const Line *line, const Levels *levels)
{
    check_number(name, line->centre.steps, levels->centre);
    for (int level = 0; level < LEVELS; level++) {
        check_number(name, line->half_width[level].steps, levels->half_width[level]);
    }
}

static void figures_of_levels(void)
{
    for (size_t i = 0; i < LEVEL_FIGURES; i++) {
        const LevelFigure *figure = &LEVEL_FIGURE[i];
        TableDraft draft = sample_of_levels(figure);
        Course course = started(&draft);
        check_levels(figure->name, &course.session.lines[0], &figure->opened);
        const EventDraft events[] = {figure->quote, draft_tick(70)};
        give(&course, &events[0]);
        give(&course, &events[1]);
        check_levels(figure->name, &course.session.lines[0], &figure->shifted);
        check_program(figure->name, &draft, 0, figure->answer, events, 2);
    }
}

/* For every number of days, the highest rate whose exponent is not above the cap, and the rate after that one.
   rate x days x 1,000 / 365 is under 500,000,001 exactly where rate x days is at most 182,500,000. */
static void figures_of_cap_by_days(void)
{
    int wrong = 0;
    for (uint32_t days = 1; days <= 3650; days++) {
        uint32_t rate = 182500000 / days < 1000000 ? 182500000 / days : 1000000;
        TableDraft draft = sample_with_keys(days, rate, 0, 0, days);
        wrong += table_text(&draft).text[0] == 'T';
        draft.keys[0][KEY_RATE] = rate + 1;
        wrong += strcmp(table_text(&draft).text, rate == 1000000 ? "T 4 1\n" : "T 7 1\n") != 0;
    }
    check_shown("both sides of the cap, for all days", wrong, 0);
}

/*
 * The exponent is rate x days x 1,000 / 365 rounded down: the product alone decides, between keys as at one.
 *
 *   249,658 x   731 = 182,499,998   499,999,994, the nearest under the cap
 *    50,000 x 3,650 = 182,500,000   500,000,000, the cap itself, as with 20 other pairs
 *   106,043 x 1,721 = 182,500,003   500,000,008, the nearest above: the two products between have no such factors
 */
static void figures_of_cap(void)
{
    check_number("y nearest under", corridor_exponent((Millionths){249658}, (Days){731}).billionths, 499999994);
    check_number("y at the cap", corridor_exponent((Millionths){50000}, (Days){3650}).billionths, 500000000);
    check_number("y nearest above", corridor_exponent((Millionths){106043}, (Days){1721}).billionths, 500000008);
    /* 10^9 + 500,000,000 + 125,000,000 + 20,833,333 + 2,604,166 + 260,416 + 21,701 + 1,550 + 96 + 5, and 20. */
    Billionths up = corridor_up_factor((Billionths){500000000});
    check_number("up factor at the cap", up.billionths, 1648721287);
    check_number("down factor at the cap", corridor_down_factor(up).billionths, 606530653);

    /* Half-width 50,000,000: 150,000,000 x up is 247,308,193.05, 50,000,000 x down is 30,326,532.65; the limits lie
       a quarter of 216,981,662, rounded down, from P. A negative price has the same below zero, upper for lower. */
    TableDraft draft = sample_with_keys(3650, 50000, 0, 0, 3650);
    const uint32_t large[] = {100000000, 100000000, 1, 500000, 500000, 500000};
    memcpy(draft.contracts[0], large, sizeof large);
    check_program("at the cap", &draft, 0, "7 45754585 154245415 30326532 247308194\n", NULL, 0);
    draft.contracts[0][CONTRACT_SETTLEMENT] = (uint32_t)-100000000;
    draft.contracts[0][CONTRACT_FLAGS] |= FLAG_PERMITS_NEGATIVE;
    check_program("at the cap below zero", &draft, 0, "7 -154245415 -45754585 -247308194 -30326532\n", NULL, 0);
    /* Around zero both bounds take the up factor: 50,000,000 x up is 82,436,064.35. */
    draft.contracts[0][CONTRACT_SETTLEMENT] = 0;
    check_program("at the cap around zero", &draft, 0, "7 -41218032 41218032 -82436065 82436065\n", NULL, 0);

    /* Contract 7 at the cap, and on line 2 contract 8 above it; with a day less its product is 182,393,960. */
    draft = sample_with_keys(1721, 106043, 3650, 50000, 3650);
    add_contract(&draft, 8)[CONTRACT_DAYS_LEFT] = 1721;
    check_table_refused("above the cap on line 2", &draft, REFUSED_EXPONENT, 2);
    draft.contracts[1][CONTRACT_DAYS_LEFT] = 1720;
    check_program("a day less", &draft, 0, "7 683 1317 545 1814\n8 683 1317 546 1814\n", NULL, 0);
}

/* The last four lie half-way between two keys on a falling curve, where a rate is rounded down and not toward the first
   key's. */
static void figures_beside_cap(void)
{
    static const struct {
        const char *name;
        uint32_t days, rate, second_days, second_rate, days_left;
        const char *answer;
    } tables[] = {
        {"nearest under the cap", 731, 249658, 0, 0, 731, "7 683 1317 545 1814\n"},
        {"nearest above the cap", 1721, 106043, 0, 0, 1721, "T 7 1\n"},
        {"58,400 between keys, the cap", 3124, 58401, 3126, 58400, 3125, "7 683 1317 545 1814\n"},
        {"58,401 between keys", 3124, 58401, 3126, 58401, 3125, "T 7 1\n"},
        {"106,042 between keys", 1720, 106044, 1722, 106041, 1721, "7 683 1317 545 1814\n"},
        {"106,043 between keys, the nearest above", 1720, 106044, 1722, 106042, 1721, "T 7 1\n"},
    };
    for (size_t i = 0; i < sizeof tables / sizeof tables[0]; i++) {
        TableDraft draft = sample_with_keys(tables[i].days, tables[i].rate, tables[i].second_days,
                                            tables[i].second_rate, tables[i].days_left);
        check_program(tables[i].name, &draft, 0, tables[i].answer, NULL, 0);
    }
}

void opening_figures(void)
{
    figures_of_divisions();
    figures_of_rates();
    figures_of_factors();
    figures_of_bounds();
    figures_of_normal_price();
    readings_of_caps();
    figures_of_levels();
    figures_of_cap_by_days();
    figures_of_cap();
    figures_beside_cap();
}
