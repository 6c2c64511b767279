/*
 * figures_sessions.c: pressure, holds and shifts over a session, and the floor. METHOD 25 and DECISIONS A3, A11, A13, A14, B
 * and D.
 */
#include "figures.h"

#include "checks.h"
#include "sample.h"

#include <string.h>

static void figures_of_pressure(void)
{
    TableDraft draft = sample();
    check_session("bid 1051, above the limit", &draft, "70 U 7\n", EVENTS(draft_bid(10, 7, 1051), draft_tick(70)));
    check_session("ask 955 does not press", &draft, "", EVENTS(draft_ask(10, 7, 955), draft_tick(1000)));
    check_session("ask 954 presses", &draft, "70 D 7\n", EVENTS(draft_ask(10, 7, 954), draft_tick(70)));
    check_session("ask 949, below the limit", &draft, "70 D 7\n", EVENTS(draft_ask(10, 7, 949), draft_tick(70)));
    check_session("a pressing quote keeps the hold", &draft, "70 U 7\n",
                  EVENTS(draft_bid(10, 7, 1046), draft_bid(50, 7, 1049), draft_quote(60, 7, 1047, 1060),
                         draft_tick(70)));
    check_session("from one side to the other", &draft, "110 D 7\n",
                  EVENTS(draft_bid(10, 7, 1046), draft_ask(50, 7, 951), draft_tick(110)));
    draft.contracts[0][CONTRACT_FLAGS] = 0;
    check_session("not under watch", &draft, "", EVENTS(draft_bid(10, 7, 1100), draft_tick(1000)));
}

/* Each quote is the limit itself: distance 0, zone 5. The watch alone tells the answers apart. */
static void figures_of_watch(void)
{
    TableDraft watched = sample();
    TableDraft unwatched = sample();
    unwatched.contracts[0][CONTRACT_FLAGS] = 0;
    check_program("bid at the limit, watched", &watched, 0, "70 U 7\n7 950 1100 900 1150\n",
                  EVENTS(draft_bid(10, 7, 1050), draft_tick(69), draft_tick(1000)));
    check_program("bid at the limit, unwatched", &unwatched, 0, "7 950 1050 900 1100\n",
                  EVENTS(draft_bid(10, 7, 1050), draft_tick(69), draft_tick(1000)));
    check_program("ask at the limit, watched", &watched, 0, "70 D 7\n7 900 1050 850 1100\n",
                  EVENTS(draft_ask(10, 7, 950), draft_tick(69), draft_tick(1000)));
    check_program("ask at the limit, unwatched", &unwatched, 0, "7 950 1050 900 1100\n",
                  EVENTS(draft_ask(10, 7, 950), draft_tick(69), draft_tick(1000)));

    /* Unwatched, contract 7 calls nothing, and is shifted by contract 8 all the same. Watched, it is the first to
       call, and after its shift neither bid is near the limit. */
    TableDraft two = sample_of_two();
    check_program("both watched", &two, 0, "70 U 7\n7 950 1100 900 1150\n8 950 1100 900 1150\n",
                  EVENTS(draft_bid(10, 7, 1050), draft_bid(40, 8, 1050), draft_tick(1000)));
    two.contracts[0][CONTRACT_FLAGS] = 0;
    check_program("one unwatched", &two, 0, "100 U 8\n7 950 1100 900 1150\n8 950 1100 900 1150\n",
                  EVENTS(draft_bid(10, 7, 1050), draft_bid(40, 8, 1050), draft_tick(1000)));
}

/* After two up shifts and one down: centre, half-widths, bounds and limits by hand from METHOD 16. */
static void figures_of_shifts(void)
{
    TableDraft draft = sample_of_two();
    draft.contracts[1][CONTRACT_FLAGS] = 0;
    Course course = started(&draft);
    check_events("up, up, down", &course, "70 U 7\n160 U 7\n260 D 7\n",
                 EVENTS(draft_bid(10, 7, 1046), draft_bid(100, 7, 1093), draft_ask(200, 7, 955), draft_tick(260)));
    for (uint32_t i = 0; i < 2; i++) {
        const Line *line = &course.session.lines[i];
        check_number("centre after three shifts", line->centre.steps, 1025);
        check_number("half-width 1 after three shifts", line->half_width[0].steps, 175);
        check_number("half-width 2 after three shifts", line->half_width[1].steps, 275);
        check_interest("bounds after three shifts", &course, line->id, 850, 1200);
        check_limits("limits after three shifts", &course, line->id, 900, 1150);
    }
}

static void figures_of_floor(void)
{
    TableDraft draft = sample_near_floor();
    Course course = started(&draft);
    const Line *line = &course.session.lines[0];
    check_limits("limits at 30", &course, 7, 3, 57);
    check_number("half-move", line->half_move.steps, 7);
    check_number("not frozen", line->lower_frozen, false);
    check_events("down to the floor", &course, "61 D 7\n", EVENTS(draft_ask(1, 7, 5), draft_tick(61)));
    check_number("centre after down", line->centre.steps, 23);
    check_number("half-width after down", line->half_width[0].steps, 37);
    check_number("half-width 3 after down", line->half_width[2].steps, 97);
    check_interest("bounds after down", &course, 7, -14, 60);
    check_limits("limits after down", &course, 7, 1, 57);
    check_number("frozen", line->lower_frozen, true);
}

static void readings_of_freezing(void)
{
    TableDraft draft = sample_near_floor();
    draft.contracts[0][CONTRACT_WIDTH_SHARE] = 966667;
    Course course = started(&draft);
    check_limits("A3 lower limit exactly 1", &course, 7, 1, 59);
    check_number("A3 not frozen", course.session.lines[0].lower_frozen, false);
    check_events("A3 it may call", &course, "61 D 7\n", EVENTS(draft_ask(1, 7, 1), draft_tick(1000)));
    check_limits("A3 stays at 1", &course, 7, 1, 59);
    check_number("A3 now frozen", course.session.lines[0].lower_frozen, true);

    draft = sample_near_floor();
    draft.contracts[0][CONTRACT_SETTLEMENT] = 10;
    course = started(&draft);
    check_limits("A13 frozen at opening", &course, 7, 1, 37);
    check_interest("A13 bounds", &course, 7, -20, 40);
    check_number("A13 frozen", course.session.lines[0].lower_frozen, true);
    check_events("A13 no hold below", &course, "", EVENTS(draft_ask(1, 7, -5), draft_tick(1000)));

    draft.contracts[0][CONTRACT_FLAGS] |= FLAG_PERMITS_NEGATIVE;
    course = started(&draft);
    check_limits("negatives permitted: no floor", &course, 7, -17, 37);
}

/* Contract 7 stands at the floor; contract 8 calls the down shifts. */
static void readings_of_frozen_lines(void)
{
    TableDraft draft = sample_of_two();
    TableDraft floor = sample_near_floor();
    memcpy(draft.contracts[0], floor.contracts[0], sizeof floor.contracts[0]);
    Course course = started(&draft);
    check_events("B11 two down shifts", &course, "70 D 8\n130 D 8\n",
                 EVENTS(draft_ask(10, 8, 900), draft_ask(11, 7, 1), draft_tick(130)));
    check_limits("B11 the limit stays at 1", &course, 7, 1, 57);
    check_interest("B11 the bounds move", &course, 7, -28, 60);
    check_number("B11 the centre moves", course.session.lines[0].centre.steps, 16);
    check_number("B11 no hold below", course.session.due[SIDE_DOWN][0].seconds, NEVER.seconds);
    /* Upper 57, lower 1: the zone is 2.8, so 55 presses and 54 does not. */
    check_events("B11 54 does not press", &course, "",
                 EVENTS(draft_empty(130, 8), draft_bid(130, 7, 54), draft_tick(200)));
    check_events("B11 55 presses", &course, "260 U 7\n", EVENTS(draft_bid(200, 7, 55), draft_tick(260)));
}

/* Price 30, half-width 30, half-move 7, level 1 bounds 0 and 60: a shift moves one bound by 14. Asks are at the
   lower limit or beyond it, and where no shift is called for one is still left. */
static void figures_of_frozen_quotes(void)
{
    TableDraft draft = sample_near_floor();
    const char *calls_once = "61 D 7\n7 1 59 -14 60\n";
    /* Half the corridor is 966,667 x 60 / 2,000,000 rounded down, 29: lower limit 1, not frozen, until its own shift. */
    draft.contracts[0][CONTRACT_WIDTH_SHARE] = 966667;
    check_program("ask at limit 1, not frozen", &draft, 0, calls_once, EVENTS(draft_ask(1, 7, 1), draft_tick(61)));
    check_program("ask at limit 1, frozen by a shift", &draft, 0, calls_once,
                  EVENTS(draft_ask(1, 7, 1), draft_tick(61), draft_tick(1000)));
    /* It is 30: lower limit 0, lifted to 1. */
    draft.contracts[0][CONTRACT_WIDTH_SHARE] = 1000000;
    check_program("ask at limit 1, frozen at opening", &draft, 0, "7 1 60 0 60\n",
                  EVENTS(draft_ask(1, 7, 1), draft_tick(61), draft_tick(1000)));
    check_program("bid at the upper limit, lower one frozen", &draft, 0, "61 U 7\n7 1 74 0 74\n",
                  EVENTS(draft_bid(1, 7, 60), draft_tick(61), draft_tick(1000)));
    draft.contracts[0][CONTRACT_FLAGS] |= FLAG_PERMITS_NEGATIVE;
    check_program("the same ask, no floor", &draft, 0, "61 D 7\n7 -14 60 -14 60\n",
                  EVENTS(draft_ask(1, 7, 1), draft_tick(61), draft_tick(1000)));

    /* Limits 3 and 57. The ask is beyond the limit after every shift, and calls the second one only where none froze it. */
    draft = sample_near_floor();
    check_program("ask -100, frozen by a shift", &draft, 0, "61 D 7\n7 1 57 -14 60\n",
                  EVENTS(draft_ask(1, 7, -100), draft_tick(1000)));
    draft.contracts[0][CONTRACT_FLAGS] |= FLAG_PERMITS_NEGATIVE;
    check_program("ask -100, no floor", &draft, 0, "61 D 7\n121 D 7\n7 -25 57 -28 60\n",
                  EVENTS(draft_ask(1, 7, -100), draft_tick(1000)));
}

/* The widest contract 7 is carried by contract 8, whose limits no quote is too small to press. Sixteen shifts carry a market
   bound of 200,000,000 to 1,800,000,000: times 1.648721287 that is 2,967,698,316.6. */
static void readings_of_widths(void)
{
    TableDraft draft = sample_of_two();
    draft.header[HEADER_SHIFT_SHARE] = 1000000;
    draft.keys[0][KEY_RATE] = 50000;
    draft.contracts[1][CONTRACT_FLAGS] |= FLAG_PERMITS_NEGATIVE;
    const uint32_t largest[CONTRACT_FIELDS] = {100000000, 100000000, 1, 1000000, 1000000, 1000000, 500000, 3650, 7, 3};
    memcpy(draft.contracts[0], largest, sizeof largest);
    Course course = started(&draft);
    check_events("A11 all shifts up", &course, every_minute(60, 16, "U 8").text,
                 EVENTS(draft_bid(0, 8, 2000000000), draft_tick(1000)));
    check_shown("A11 widest bound", closing_of(&course, 7).numbers[3], 2967698317);

    draft.contracts[0][CONTRACT_SETTLEMENT] = (uint32_t)-100000000;
    course = started(&draft);
    check_events("A11 all shifts down", &course, every_minute(60, 16, "D 8").text,
                 EVENTS(draft_ask(0, 8, -2000000000), draft_tick(1000)));
    check_shown("A11 lowest bound", closing_of(&course, 7).numbers[2], -2967698317);

    /* From 0 sixteen shifts carry a market bound 1,600,000,000 away: times 1.648721287 that is 2,637,954,059.2. */
    course = started(&draft);
    check_events("A11 all shifts up, below zero", &course, every_minute(60, 16, "U 8").text,
                 EVENTS(draft_bid(0, 8, 2000000000), draft_tick(1000)));
    check_shown("A11 widest bound of the lowest price", closing_of(&course, 7).numbers[3], 2637954060);
    draft.contracts[0][CONTRACT_SETTLEMENT] = 100000000;
    course = started(&draft);
    check_events("A11 all shifts down, above zero", &course, every_minute(60, 16, "D 8").text,
                 EVENTS(draft_ask(0, 8, -2000000000), draft_tick(1000)));
    check_shown("A11 lowest bound of the highest price", closing_of(&course, 7).numbers[2], -2637954060);
}

static void readings_of_zero_width(void)
{
    TableDraft draft = sample();
    draft.contracts[0][CONTRACT_WIDTH_SHARE] = 0;
    Course course = started(&draft);
    check_limits("A14 limits", &course, 7, 1000, 1000);
    check_session("A14 at the limit", &draft, "", EVENTS(draft_quote(1, 7, 1000, 1000), draft_tick(1000)));
    check_session("A14 above", &draft, "61 U 7\n", EVENTS(draft_bid(1, 7, 1001), draft_tick(61)));
    check_session("A14 below", &draft, "61 D 7\n", EVENTS(draft_ask(1, 7, 999), draft_tick(61)));
}

static void readings_of_one_second(void)
{
    TableDraft draft = sample_of_two();
    check_session("B1 same side, same second", &draft, "70 U 7\n130 U 7\n",
                  EVENTS(draft_bid(10, 8, 1200), draft_bid(10, 7, 1200), draft_tick(130)));
    check_session("B2 a younger hold of the side", &draft, "70 U 7\n130 U 8\n",
                  EVENTS(draft_bid(10, 7, 1060), draft_bid(40, 8, 1400), draft_tick(130)));
    check_session("B3 both sides, same second", &draft, "70 U 8\n70 D 7\n",
                  EVENTS(draft_bid(10, 8, 1200), draft_ask(10, 7, 900), draft_tick(70)));
    check_session("the other side's hold goes on", &draft, "70 U 8\n100 D 7\n",
                  EVENTS(draft_bid(10, 8, 1051), draft_ask(40, 7, 951), draft_tick(110)));
    check_session("the earliest hold, not the lowest line", &draft, "70 U 8\n",
                  EVENTS(draft_bid(10, 7, 1046), draft_bid(10, 8, 1046), draft_bid(30, 7, 1000), draft_bid(30, 7, 1046),
                         draft_tick(70)));
    draft.header[HEADER_MOST_SHIFTS] = 1;
    check_session("B3 with most 1", &draft, "70 U 8\n",
                  EVENTS(draft_bid(10, 8, 1200), draft_ask(10, 7, 900), draft_tick(1000)));
    draft.contracts[0][CONTRACT_ID] = 8;
    draft.contracts[1][CONTRACT_ID] = 7;
    check_session("lines, not ids, give the order", &draft, "70 U 8\n",
                  EVENTS(draft_bid(10, 7, 1200), draft_bid(10, 8, 1200), draft_tick(70)));
}

static void readings_of_gaps(void)
{
    TableDraft draft = sample_of_two();
    check_session("B4 several shifts in a gap", &draft, "70 U 7\n130 U 7\n190 U 7\n",
                  EVENTS(draft_bid(10, 7, 2000000000), draft_tick(200)));
    check_session("B4 the earlier side first", &draft, "69 D 8\n70 U 7\n129 D 8\n130 U 7\n",
                  EVENTS(draft_ask(9, 8, -2000000000), draft_bid(10, 7, 2000000000), draft_tick(130)));
    check_session("B5 due at session end", &draft, "",
                  EVENTS(draft_bid(940, 7, 1046), draft_tick(999), draft_tick(1000)));
    check_session("B5 one second before", &draft, "999 U 7\n", EVENTS(draft_bid(939, 7, 1046), draft_tick(1000)));
    draft.header[HEADER_SESSION_END] = 960;
    check_session("B5 fifteen shifts", &draft, every_minute(70, 15, "U 7").text,
                  EVENTS(draft_bid(10, 7, 2000000000), draft_tick(960)));
    draft.header[HEADER_SESSION_END] = 1100;
    check_session("sixteen shifts and no more", &draft, every_minute(70, 16, "U 7").text,
                  EVENTS(draft_bid(10, 7, 2000000000), draft_tick(1100)));
}

static void readings_of_holds(void)
{
    TableDraft draft = sample_of_two();
    check_session("B6 empty at the due second", &draft, "70 U 7\n",
                  EVENTS(draft_bid(10, 7, 1046), draft_empty(70, 7), draft_tick(1000)));
    check_session("empty one second earlier", &draft, "",
                  EVENTS(draft_bid(10, 7, 1046), draft_empty(69, 7), draft_tick(1000)));
    check_session("B7 new pressure on the other side", &draft, "70 U 7\n130 D 8\n",
                  EVENTS(draft_bid(10, 7, 1046), draft_ask(20, 8, 956), draft_tick(129), draft_tick(130)));
    check_session("B7 without the shift", &draft, "", EVENTS(draft_ask(20, 8, 956), draft_tick(1000)));
    check_session("B9 ended and started at 30", &draft, "90 U 7\n",
                  EVENTS(draft_bid(10, 7, 1046), draft_empty(30, 7), draft_bid(30, 7, 1046), draft_tick(89),
                         draft_tick(90)));
    check_session("B10 a served second is not served again", &draft, "70 U 7\n",
                  EVENTS(draft_bid(10, 7, 1046), draft_tick(70), draft_tick(70)));
}

static void readings_of_most_shifts(void)
{
    TableDraft draft = sample_of_two();
    draft.header[HEADER_MOST_SHIFTS] = 1;
    Course course = started(&draft);
    check_events("B8 holds vanish", &course, "70 U 7\n",
                 EVENTS(draft_bid(10, 7, 2000000000), draft_ask(20, 8, 900), draft_tick(70)));
    for (int side = SIDE_UP; side <= SIDE_DOWN; side++) {
        for (int i = 0; i < 2; i++) {
            check_number("B8 no hold exists", course.session.due[side][i].seconds, NEVER.seconds);
        }
    }
    check_events("B8 no hold starts", &course, "", EVENTS(draft_bid(80, 8, 1500), draft_tick(1000)));
    draft.header[HEADER_MOST_SHIFTS] = 0;
    check_session("B8 most 0", &draft, "", EVENTS(draft_bid(10, 7, 1200), draft_ask(10, 8, 900), draft_tick(1000)));
}

/* A tick or a repeated quote changes nothing, unless it comes last or is later than the next event. */
static void readings_of_free_events(void)
{
    TableDraft draft = sample();
    draft.header[HEADER_MOST_SHIFTS] = 16;
    const char *expected = "70 U 7\n7 950 1100 900 1150\n";
    check_program("D8 quotes alone", &draft, 0, expected, EVENTS(draft_bid(10, 7, 1046), draft_empty(90, 7)));
    check_program("D8 with ticks and repeated quotes", &draft, 0, expected,
                  EVENTS(draft_empty(5, 7), draft_bid(10, 7, 1046), draft_tick(30), draft_bid(40, 7, 1046),
                         draft_bid(70, 7, 1046), draft_tick(80), draft_empty(90, 7)));

    Course course = started(&draft);
    check_events("D8 no event after the bid", &course, "", EVENTS(draft_bid(10, 7, 1046)));
    check_events("D8 a tick as the last event", &course, "70 U 7\n", EVENTS(draft_tick(70)));
    check_events("D8 a late bid after the tick", &course, "R 11\n",
                 EVENTS(draft_bid(50, 7, 1000), draft_empty(90, 7)));
    check_session("D8 the same bid without the tick", &draft, "",
                  EVENTS(draft_bid(10, 7, 1046), draft_bid(50, 7, 1000), draft_empty(90, 7)));
}

/* The last line of each would be missing if the second quote with bid 1046 were taken for a repeat. */
static void readings_of_repeats(void)
{
    TableDraft draft = sample_of_two();
    check_session("D11 the same bid for contract 8", &draft, "100 U 8\n",
                  EVENTS(draft_bid(10, 7, 1046), draft_bid(40, 8, 1046), draft_empty(50, 7), draft_tick(100)));
    /* Near share one half: the zone is 50, then 75, 100, 125, and the ask lies 110 above the lower limit. */
    draft.header[HEADER_NEAR_SHARE] = 500000;
    check_session("D11 an ask beside the same bid", &draft, "70 U 7\n130 U 7\n190 U 8\n250 D 7\n",
                  EVENTS(draft_bid(10, 7, 1046), draft_bid(10, 8, 1060), draft_quote(20, 7, 1046, 1060),
                         draft_tick(250)));
}

void session_figures(void)
{
    figures_of_pressure();
    figures_of_watch();
    figures_of_shifts();
    figures_of_floor();
    readings_of_freezing();
    readings_of_frozen_lines();
    figures_of_frozen_quotes();
    readings_of_widths();
    readings_of_zero_width();
    readings_of_one_second();
    readings_of_gaps();
    readings_of_holds();
    readings_of_most_shifts();
    readings_of_free_events();
    readings_of_repeats();
}
