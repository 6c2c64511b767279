/*
 * figures_program.c: whole inputs as the program takes them, their text and their rows, and the questions to a session.
 * METHOD 25 and DECISIONS A8, A10 and A12.
 */
#include "figures.h"

#include "checks.h"
#include "engine.h"
#include "rows.h"
#include "sample.h"

#include <string.h>

static void figures_of_sample(void)
{
    TableDraft draft = sample();
    uint8_t bytes[LONGEST_TABLE];
    check_number("sample length", (int64_t)draft_write_table(&draft, bytes), (int64_t)sizeof SAMPLE_TABLE);
    check_number("sample bytes", memcmp(bytes, SAMPLE_TABLE, sizeof SAMPLE_TABLE), 0);
    check_program("sample", &draft, 0, "70 U 7\n160 U 7\n7 950 1150 900 1200\n",
                  EVENTS(draft_bid(10, 7, 1046), draft_tick(69), draft_tick(70), draft_bid(100, 7, 1093),
                         draft_empty(200, 7), draft_bid(210, 7, 1150), draft_tick(1000)));
    check_session("1045 does not press", &draft, "", EVENTS(draft_bid(10, 7, 1045), draft_tick(1000)));
    check_session("tick at 69 serves nothing", &draft, "", EVENTS(draft_bid(10, 7, 1046), draft_tick(69)));
    check_session("session end", &draft, "R 10\nR 10\n",
                  EVENTS(draft_tick(1000), draft_tick(1000), draft_tick(1001), draft_empty(UINT32_MAX, 7)));
}

static void readings_of_program(void)
{
    TableDraft draft = sample();
    check_program("A8 dues after the last event", &draft, 0, "7 950 1050 900 1100\n", EVENTS(draft_bid(10, 7, 1046)));
    check_program("A8 refusals in place", &draft, 0, "R 11\n70 U 7\nR 10\n7 950 1100 900 1150\n",
                  EVENTS(draft_bid(10, 7, 1046), draft_tick(9), draft_tick(70), draft_tick(1001)));
    check_program("A8 no events", &draft, 0, "7 950 1050 900 1100\n", NULL, 0);
    check_program("A12 one byte after the table", &draft, 1, "R 12\n7 950 1050 900 1100\n", NULL, 0);
    check_program("A8 cut last event", &draft, 19, "70 U 7\nR 12\n7 950 1100 900 1150\n",
                  EVENTS(draft_bid(10, 7, 1046), draft_tick(70)));
    check_text("A8 39 bytes", whole_text(SAMPLE_TABLE, 39).text, "T 1 0\n");
    check_text("A8 header only", whole_text(SAMPLE_TABLE, 40).text, "T 1 0\n");
    check_text("A8 one byte short", whole_text(SAMPLE_TABLE, sizeof SAMPLE_TABLE - 1).text, "T 1 0\n");

    draft.header[HEADER_CONTRACTS_OFFSET] = 68;
    check_program("A12 wrong offset", &draft, 0, "T 1 0\n", EVENTS(draft_tick(1)));
    draft = sample();
    draft.contracts[0][CONTRACT_FLAGS] = 4;
    check_program("refused table, nothing more", &draft, 0, "T 5 1 10\n", EVENTS(draft_tick(1), draft_tick(0)));
    uint8_t header[HEADER_BYTES];
    memcpy(header, SAMPLE_TABLE, sizeof header);
    header[7] = 0x80;
    check_text("wild count", whole_text(header, sizeof header).text, "T 3 0\n");
}

/* More events than the program reads at once: one that calls a shift lies beyond the first chunks. */
static void figures_of_long_input(void)
{
    enum { TICKS = 10000 };
    static uint8_t bytes[sizeof SAMPLE_TABLE + (TICKS + 2) * EVENT_BYTES + 1];
    size_t length = sizeof SAMPLE_TABLE;
    memcpy(bytes, SAMPLE_TABLE, length);
    EventDraft bid = draft_bid(10, 7, 1046);
    length += draft_write_event(&bid, bytes + length);
    for (uint32_t i = 0; i < TICKS; i++) {
        EventDraft tick = draft_tick(11);
        length += draft_write_event(&tick, bytes + length);
    }
    EventDraft last = draft_tick(70);
    length += draft_write_event(&last, bytes + length);
    check_text("long input", whole_text(bytes, length + 1).text, "70 U 7\nR 12\n7 950 1100 900 1150\n");
}

/* Runs the input with exactly the room it needs, and with one number less. */
static void check_rows(const char *name, const uint8_t *bytes, size_t length, const int64_t *expected, size_t count)
{
    int64_t rows[ROWS_ROOM(INPUT_BYTES)];
    Input input = input_of(bytes, length);
    size_t room = ROWS_ROOM(input.events_length);
    check_shown(name, (int64_t)engine_rows(&input, rows, room), (int64_t)count);
    check_shown(name, memcmp(rows, expected, count * sizeof rows[0]), 0);
    memset(rows, 0x55, sizeof rows);
    check_shown(name, (int64_t)engine_rows(&input, rows, room - 1), (int64_t)room);
    check_shown(name, rows[0], INT64_C(0x5555555555555555));
}

static void figures_of_rows(void)
{
    TableDraft draft = sample();
    uint8_t bytes[INPUT_BYTES] = {0};
    size_t length = draft_write_table(&draft, bytes);
    EventDraft events[] = {draft_bid(10, 7, 1046), draft_tick(70), draft_ask(100, 7, 900), draft_tick(160)};
    for (size_t i = 0; i < sizeof events / sizeof events[0]; i++) {
        length += draft_write_event(&events[i], bytes + length);
    }
    const int64_t rows[] = {1, 70, 0, 7, 0, 0, 1, 160, 1, 7, 0, 0, 2, 12, 5, 0, 0, 0, 4, 7, 900, 1100, 850, 1150};
    check_rows("rows of every kind but one", bytes, length + 1, rows, sizeof rows / sizeof rows[0]);
    bytes[sizeof SAMPLE_TABLE - 4] = 4;
    check_rows("row of a refused table", bytes, length, (const int64_t[]){3, 5, 1, 10, 0, 0}, ROW_NUMBERS);
    bytes[sizeof SAMPLE_TABLE - 4] = 2;
    bytes[sizeof SAMPLE_TABLE - 8] = 0;
    check_rows("row of a refused table, no field", bytes, length, (const int64_t[]){3, 6, 1, 0, 0, 0}, ROW_NUMBERS);
}

/* Each refusal of an event, with accepted events before, between and after them, and a last one that is cut. */
static void figures_of_event_places(void)
{
    const EventDraft events[] = {
        draft_bid(10, 7, 1046), {{20, 7, 1, 1046, 1}}, draft_tick(30), draft_bid(40, 7, 2000000001), draft_tick(9),
        draft_tick(70), draft_tick(1001), draft_tick(71), draft_tick(72), draft_empty(80, 8),
        draft_quote(80, 7, 1000, 999), draft_tick(1000),
    };
    const int64_t rows[] = {
        2, 15, 2, 0, 0, 0, 2, 16, 4, 0, 0, 0, 2, 11, 5, 0, 0, 0, 1, 70, 0, 7, 0, 0, 2, 10, 7, 0, 0, 0, 2, 13, 10, 0, 0, 0,
        2, 14, 11, 0, 0, 0, 2, 12, 13, 0, 0, 0, 4, 7, 950, 1100, 900, 1150,
    };
    uint8_t bytes[INPUT_BYTES] = {0};
    size_t length = sizeof SAMPLE_TABLE;
    memcpy(bytes, SAMPLE_TABLE, length);
    for (size_t i = 0; i < sizeof events / sizeof events[0]; i++) {
        length += draft_write_event(&events[i], bytes + length);
    }
    check_rows("places of refused events", bytes, length + 19, rows, sizeof rows / sizeof rows[0]);
    const int64_t second[] = {2, 12, 2, 0, 0, 0, 4, 7, 950, 1050, 900, 1100};
    length = sizeof SAMPLE_TABLE + EVENT_BYTES;
    check_rows("place of a cut event", bytes, length + 1, second, sizeof second / sizeof second[0]);
    const int64_t only[] = {2, 12, 1, 0, 0, 0, 4, 7, 950, 1050, 900, 1100};
    check_rows("place of the only event, cut", bytes, length - 1, only, sizeof only / sizeof only[0]);
}

static void readings_of_questions(void)
{
    TableDraft draft = sample();
    Course course = started(&draft);
    const Session *session = &course.session;
    check_number("below", corridor_place(session, 7, (Steps){949}), PLACE_BELOW);
    check_number("lower limit is inside", corridor_place(session, 7, (Steps){950}), PLACE_INSIDE);
    check_number("upper limit is inside", corridor_place(session, 7, (Steps){1050}), PLACE_INSIDE);
    check_number("above", corridor_place(session, 7, (Steps){1051}), PLACE_ABOVE);
    check_number("A10 lowest price", corridor_place(session, 7, (Steps){INT64_MIN}), PLACE_BELOW);
    check_number("A10 highest price", corridor_place(session, 7, (Steps){INT64_MAX}), PLACE_ABOVE);
    check_number("A10 unknown id", corridor_place(session, 8, (Steps){1000}), PLACE_UNKNOWN_ID);
    check_number("A10 id 0", corridor_limits(session, 0).reason, REFUSED_UNKNOWN_ID);
    check_number("A10 bounds of an unknown id", corridor_interest_bounds(session, 8).reason, REFUSED_UNKNOWN_ID);
    check_events("A10 start a hold", &course, "", EVENTS(draft_bid(10, 7, 1046), draft_tick(69)));
    check_limits("A10 questions serve nothing", &course, 7, 950, 1050);
}

void program_figures(void)
{
    figures_of_sample();
    readings_of_program();
    figures_of_long_input();
    figures_of_rows();
    figures_of_event_places();
    readings_of_questions();
}
