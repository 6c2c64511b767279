/*
 * figures_events.c: the refusals of an event, 10 to 16, alone and in the order 12, 15, 16, 10, 11, 13, 14. DECISIONS A5.
 */
#include "figures.h"

#include "checks.h"
#include "sample.h"

#include <stdio.h>

static void figures_of_refused_events(void)
{
    TableDraft draft = sample();
    check_session("a refused event serves nothing", &draft, "R 13\n70 U 7\n",
                  EVENTS(draft_bid(10, 7, 1046), draft_empty(80, 9), draft_tick(70)));
    Course course = started(&draft);
    check_events("start", &course, "", EVENTS(draft_bid(10, 7, 1046)));
    check_event_refused("after the end", &course, draft_tick(1001), REFUSED_AFTER_END);
    check_event_refused("before the clock", &course, draft_tick(9), REFUSED_BEFORE_CLOCK);
    check_event_refused("unknown id", &course, draft_empty(100, 8), REFUSED_UNKNOWN_ID);
    check_event_refused("crossed", &course, draft_quote(100, 7, 1000, 999), REFUSED_CROSSED);
    check_event_refused("tick with an id", &course, (EventDraft){{100, 7, 4, 0, 0}}, REFUSED_EVENT_FORM);
    check_event_refused("tick with a bid", &course, (EventDraft){{100, 0, 4, 1, 0}}, REFUSED_EVENT_FORM);
    check_event_refused("tick with an ask", &course, (EventDraft){{100, 0, 4, 0, 1}}, REFUSED_EVENT_FORM);
    check_event_refused("absent bid not 0", &course, (EventDraft){{100, 7, 2, 1, 1000}}, REFUSED_ABSENT_PRICE);
    check_event_refused("absent ask not 0", &course, (EventDraft){{100, 7, 0, 0, 1}}, REFUSED_ABSENT_PRICE);
    check_event_refused("bid too high", &course, draft_bid(100, 7, 2000000001), REFUSED_PRICE_RANGE);
    check_event_refused("bid too low", &course, draft_bid(100, 7, -2000000001), REFUSED_PRICE_RANGE);
    check_event_refused("ask too high", &course, draft_ask(100, 7, 2000000001), REFUSED_PRICE_RANGE);
    check_event_refused("ask too low", &course, draft_ask(100, 7, -2000000001), REFUSED_PRICE_RANGE);
    check_events("widest quote", &course, "", EVENTS(draft_quote(11, 7, -2000000000, 2000000000)));

    uint8_t bytes[EVENT_BYTES + 1] = {12};
    for (size_t length = 0; length <= sizeof bytes; length++) {
        EventAnswer answer;
        corridor_event(&course.session, bytes, length, &answer);
        check_number("event not 20 bytes", answer.reason, length == EVENT_BYTES ? 13 : REFUSED_EVENT_FORM);
    }
}

/* Each price on both sides of what is allowed, present and absent. Nothing is tried that presses. */
static void figures_of_event_prices(void)
{
    static const struct { uint32_t flags; int32_t bid; int32_t ask; int refusal; } events[] = {
        {FLAG_BID, -2000000000, 0, 0}, {FLAG_BID, -2000000001, 0, 16}, {FLAG_BID, 2000000001, 0, 16},
        {FLAG_BID, INT32_MAX, 0, 16}, {FLAG_BID, INT32_MIN, 0, 16}, {FLAG_ASK, 0, 2000000000, 0},
        {FLAG_ASK, 0, 2000000001, 16}, {FLAG_ASK, 0, -2000000001, 16}, {FLAG_ASK, 0, INT32_MAX, 16},
        {FLAG_ASK, 0, INT32_MIN, 16}, {FLAGS_OF_QUOTE, -2000000001, 2000000001, 16},
        {FLAGS_OF_QUOTE, 1000, 2000000001, 16}, {FLAGS_OF_QUOTE, -2000000001, 1000, 16},
        {FLAG_BID, 1000, 1, 15}, {FLAG_BID, 1000, -1, 15}, {FLAG_ASK, 1, 1000, 15}, {FLAG_ASK, -1, 1000, 15},
        {0, 0, 0, 0}, {0, 1, 0, 15}, {0, 0, -1, 15}, {0, 1000, 1000, 15}, {FLAG_BID, 1000, 2000000001, 15},
        {FLAG_ASK, INT32_MIN, 1000, 15}, {0, 2000000001, 0, 15}, {0, 0, INT32_MIN, 15},
        {FLAG_BID, 2000000001, 1, 15}, {FLAG_ASK, -1, -2000000001, 15},
    };
    TableDraft draft = sample();
    Course course = started(&draft);
    for (size_t i = 0; i < sizeof events / sizeof events[0]; i++) {
        char expected[32] = "";
        EventDraft event = {{1, 7, events[i].flags, (uint32_t)events[i].bid, (uint32_t)events[i].ask}};
        if (events[i].refusal != 0) {
            snprintf(expected, sizeof expected, "R %d\n", events[i].refusal);
        }
        check_events("prices present and absent", &course, expected, &event, 1);
    }
}

/* Two reasons at once, in every pair that one event can have: the one that comes first in 12, 15, 16, 10, 11, 13, 14. An
   event with an absent price cannot be crossed, and one after session end is not before the clock. */
static void figures_of_two_reasons(void)
{
    static const struct { const char *name; EventDraft event; Refusal reason; } events[] = {
        {"12 before 15", {{100, 7, 9, 1000, 7}}, REFUSED_EVENT_FORM},
        {"12 before 16", {{100, 7, 9, 2000000001, 0}}, REFUSED_EVENT_FORM},
        {"12 before 10", {{1001, 7, 8, 0, 0}}, REFUSED_EVENT_FORM},
        {"12 before 11", {{9, 7, 8, 0, 0}}, REFUSED_EVENT_FORM},
        {"12 before 13", {{100, 9, 8, 0, 0}}, REFUSED_EVENT_FORM},
        {"12 before 14", {{100, 7, 11, 1000, 999}}, REFUSED_EVENT_FORM},
        {"tick with a bid out of range", {{100, 0, 4, 2000000001, 0}}, REFUSED_EVENT_FORM},
        {"tick with crossed prices", {{100, 0, 4, 1000, 999}}, REFUSED_EVENT_FORM},
        {"tick with an id, after the end", {{1001, 7, 4, 0, 0}}, REFUSED_EVENT_FORM},
        {"tick with an unknown id, before the clock", {{9, 9, 4, 0, 0}}, REFUSED_EVENT_FORM},
        {"15 before 16", {{100, 7, 1, 2000000001, 7}}, REFUSED_ABSENT_PRICE},
        {"15 before 10", {{1001, 7, 1, 1000, 7}}, REFUSED_ABSENT_PRICE},
        {"15 before 11", {{9, 7, 2, 1000, 1000}}, REFUSED_ABSENT_PRICE},
        {"15 before 13", {{100, 9, 0, 1, 0}}, REFUSED_ABSENT_PRICE},
        {"16 before 10", {{1001, 7, 1, 2000000001, 0}}, REFUSED_PRICE_RANGE},
        {"16 before 11", {{9, 7, 2, 0, 2000000001}}, REFUSED_PRICE_RANGE},
        {"16 before 13", {{100, 9, 1, 2000000001, 0}}, REFUSED_PRICE_RANGE},
        {"16 before 14", {{100, 7, 3, 2000000001, 1000}}, REFUSED_PRICE_RANGE},
        {"10 before 13", {{1001, 9, 0, 0, 0}}, REFUSED_AFTER_END},
        {"10 before 14", {{1001, 7, 3, 1000, 999}}, REFUSED_AFTER_END},
        {"11 before 13", {{9, 9, 0, 0, 0}}, REFUSED_BEFORE_CLOCK},
        {"11 before 14", {{9, 7, 3, 1000, 999}}, REFUSED_BEFORE_CLOCK},
        {"13 before 14", {{100, 9, 3, 1000, 999}}, REFUSED_UNKNOWN_ID},
    };
    TableDraft draft = sample();
    Course course = started(&draft);
    check_events("clock at 10", &course, "", EVENTS(draft_tick(10)));
    for (size_t i = 0; i < sizeof events / sizeof events[0]; i++) {
        check_event_refused(events[i].name, &course, events[i].event, events[i].reason);
    }
}

/* Events with all the reasons that can meet. One is put right after another, and the answer goes on to the next. */
static void figures_of_all_reasons(void)
{
    TableDraft draft = sample();
    check_session("an absent price, put right by and by", &draft, "R 12\nR 15\nR 16\nR 10\nR 11\nR 13\n",
                  EVENTS(draft_tick(10), {{1001, 9, 9, 2000000001, 7}}, {{1001, 9, 1, 2000000001, 7}},
                         {{1001, 9, 1, 2000000001, 0}}, {{1001, 9, 1, 1000, 0}}, {{9, 9, 1, 1000, 0}},
                         {{10, 9, 1, 1000, 0}}, {{10, 7, 1, 1000, 0}}));
    check_session("both prices, put right by and by", &draft, "R 12\nR 16\nR 10\nR 11\nR 13\nR 14\n",
                  EVENTS(draft_tick(10), {{1001, 9, 11, 2000000001, 999}}, {{1001, 9, 3, 2000000001, 999}},
                         {{1001, 9, 3, 1000, 999}}, {{9, 9, 3, 1000, 999}}, {{10, 9, 3, 1000, 999}},
                         {{10, 7, 3, 1000, 999}}, {{10, 7, 3, 1000, 1000}}));
}

static void readings_of_event_order(void)
{
    TableDraft draft = sample();
    check_session("A5 unknown id before the clock", &draft, "R 11\n", EVENTS(draft_tick(5), draft_empty(4, 9)));
    check_session("A5 wrong flags after the end", &draft, "R 12\n", EVENTS({{1001, 7, 8, 0, 0}}));
    check_session("A5 bid out of range, absent ask", &draft, "R 15\n", EVENTS({{1, 7, 1, 2100000000, 7}}));
    check_session("A5 bid out of range", &draft, "R 16\n", EVENTS({{1, 7, 1, 2100000000, 0}}));
    check_session("A5 flags 5, 6, 7, 8, all", &draft, "R 12\nR 12\nR 12\nR 12\nR 12\n",
                  EVENTS({{1, 0, 5, 0, 0}}, {{1, 0, 6, 0, 0}}, {{1, 0, 7, 0, 0}}, {{1, 7, 8, 0, 0}},
                         {{1, 7, UINT32_MAX, 0, 0}}));
    check_session("A5 id 0", &draft, "R 13\n", EVENTS(draft_empty(1, 0)));
    check_session("A5 bid = ask", &draft, "", EVENTS(draft_quote(1, 7, 1000, 1000)));
    check_session("A5 unknown id, crossed", &draft, "R 13\n", EVENTS(draft_quote(1, 9, 1000, 999)));
}

void event_figures(void)
{
    figures_of_refused_events();
    figures_of_event_prices();
    figures_of_two_reasons();
    figures_of_all_reasons();
    readings_of_event_order();
}
