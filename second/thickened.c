/*
 * thickened.c: puts free events into an input. It follows the session with the engine, so that they stand where a wrong
 * engine would show: repeated quotes on lines with a hold, times at both ends of what is allowed, at due seconds and one
 * second to either side of them.
 */
#include "thickened.h"

#include "draft.h"
#include "random.h"
#include "same.h"

#include <string.h>

/* ---- One free event ---- */

/* The second at which a line's first hold falls due; NEVER where it has none. */
static uint32_t due_of_line(const Session *session, uint32_t index)
{
    uint32_t up = session->due[SIDE_UP][index].seconds;
    uint32_t down = session->due[SIDE_DOWN][index].seconds;
    return up < down ? up : down;
}

/* Mostly a line with a hold, where there is one. */
static uint32_t choose_line(Random *random, const Session *session)
{
    uint32_t index = count_between(random, 0, session->line_count - 1);
    uint32_t steps = chance(random, 75) ? session->line_count : 0;
    while (steps > 0 && due_of_line(session, index) == NEVER.seconds) {
        index = (index + 1) % session->line_count;
        steps--;
    }
    return index;
}

/* Any time where the one chosen is not allowed: the line may have no hold, or one that falls due after the later event. */
static uint32_t choose_time(Random *random, const Session *session, uint32_t index, uint32_t later)
{
    uint32_t clock = session->clock.seconds;
    int64_t due = due_of_line(session, index);
    uint32_t any = count_between(random, clock, later);
    const int64_t times[] = {clock, later, due - 1, due, due, due + 1, any};
    int64_t time = times[between(random, 0, sizeof times / sizeof times[0] - 1)];
    return clock <= time && time <= later ? (uint32_t)time : any;
}

static EventDraft repeated_quote(const Line *line, uint32_t time)
{
    uint32_t flags = (line->has_bid ? FLAG_BID : 0u) | (line->has_ask ? FLAG_ASK : 0u);
    return (EventDraft){{time, line->id, flags, (uint32_t)line->bid.steps, (uint32_t)line->ask.steps}};
}

static EventDraft make_free_event(Random *random, const Session *session, uint32_t later)
{
    uint32_t index = choose_line(random, session);
    uint32_t time = choose_time(random, session, index, later);
    return chance(random, 35) ? draft_tick(time) : repeated_quote(&session->lines[index], time);
}

/* ---- Thickening ---- */

/* For each of the events, when the first accepted one from there on comes; NEVER where none does. */
static void find_later(const Input *input, Session session, Seconds later[MOST_OWN_EVENTS])
{
    size_t first_unknown = 0;
    for (size_t start = 0; start < input->events_length; start += EVENT_BYTES) {
        size_t place = start / EVENT_BYTES;
        EventAnswer answer;
        corridor_event(&session, input->events + start, input_event_length(input->events_length - start), &answer);
        later[place] = NEVER;
        for (; answer.kind == ACCEPTED && first_unknown <= place; first_unknown++) {
            later[first_unknown] = session.clock;
        }
    }
}

static void put(Thickened *thickened, Session *session, const uint8_t *bytes, size_t length, bool added)
{
    EventAnswer answer;
    corridor_event(session, bytes, length, &answer);
    memcpy(thickened->bytes + thickened->length, bytes, length);
    thickened->added[thickened->length / EVENT_BYTES] = added;
    thickened->length += length;
}

/* Only a wrong engine's clock can be past the later event; that is for the comparison to tell. */
static bool has_place(const Session *session, Seconds later)
{
    return later.seconds != NEVER.seconds && session->clock.seconds <= later.seconds;
}

static void put_free_event(Thickened *thickened, Session *session, Random *random, Seconds later)
{
    uint8_t bytes[EVENT_BYTES];
    EventDraft event = make_free_event(random, session, later.seconds);
    put(thickened, session, bytes, draft_write_event(&event, bytes), true);
}

static Random random_of(const Input *input)
{
    Random random = {0};
    fold(&random, input->table, input->table_length);
    fold(&random, input->events, input->events_length);
    return random;
}

/* Some inputs get few free events, so that one alone shows, and some get several at one place. */
static void thicken_session(const Input *input, Session *session, Thickened *thickened)
{
    static const int64_t densities[] = {3, 15, 35, 50};
    Seconds later[MOST_OWN_EVENTS];
    Random random = random_of(input);
    int64_t percent = densities[between(&random, 0, 3)];
    int left = MOST_ADDED_EVENTS;
    find_later(input, *session, later);
    for (size_t start = 0; start < input->events_length; start += EVENT_BYTES) {
        Seconds next = later[start / EVENT_BYTES];
        while (left > 0 && has_place(session, next) && chance(&random, percent)) {
            put_free_event(thickened, session, &random, next);
            left--;
        }
        put(thickened, session, input->events + start, input_event_length(input->events_length - start), false);
    }
}

void thicken(const Input *input, Thickened *thickened)
{
    Session session;
    *thickened = (Thickened){0};
    if (corridor_open(input->table, input->table_length, &session).kind == ACCEPTED) {
        thicken_session(input, &session, thickened);
    } else {
        memcpy(thickened->bytes, input->events, input->events_length);
        thickened->length = input->events_length;
    }
}

Input thickened_input(const Input *input, const Thickened *thickened)
{
    return (Input){input->table, input->table_length, thickened->bytes, thickened->length};
}

/* ---- With and without ---- */

/* A session and all its shift lines, joined. No session makes more of them than fit. */
typedef struct {
    Session session;
    uint32_t count;
    Shift lines[MOST_SHIFTS];
} Run;

/* The engine without the added events and with them, and how the input's own events have fared. */
typedef struct {
    Run plain;
    Run thickened;
    bool any_accepted;
    bool last_refused;
} Runs;

static void take(Run *run, const uint8_t *bytes, size_t length, EventAnswer *answer)
{
    corridor_event(&run->session, bytes, length, answer);
    for (uint32_t i = 0; answer->kind == ACCEPTED && i < answer->shift_count; i++) {
        run->lines[run->count] = answer->shifts[i];
        run->count++;
    }
}

static bool same_run(const Run *one, const Run *other)
{
    return one->count == other->count && same_shifts(one->lines, other->lines, one->count)
        && same_session(&one->session, &other->session);
}

static bool has_hold(const Session *session, uint32_t id)
{
    bool found = false;
    for (uint32_t i = 0; i < session->line_count; i++) {
        found = found || (session->lines[i].id == id && due_of_line(session, i) != NEVER.seconds);
    }
    return found;
}

static void count_repeat(Tally *tally, const Session *session, const EventDraft *event, const EventAnswer *answer)
{
    uint32_t shifts = answer->shift_count;
    bool shift_now = shifts > 0 && answer->shifts[shifts - 1].second.seconds == event->fields[EVENT_TIME];
    tally->times[TALLY_QUOTES_REPEATED]++;
    tally->times[TALLY_HELD_QUOTES_REPEATED] += has_hold(session, event->fields[EVENT_ID]);
    tally->times[TALLY_EMPTY_BOOKS_REPEATED] += event->fields[EVENT_FLAGS] == 0;
    tally->times[TALLY_REPEATED_AT_SHIFT] += shift_now;
}

/* An added event, which only the thickened run takes; says whether it was accepted. */
static bool take_added(Runs *runs, const uint8_t *bytes, Tally *tally)
{
    EventAnswer answer;
    EventDraft event = draft_read_event(bytes);
    take(&runs->thickened, bytes, EVENT_BYTES, &answer);
    if (answer.kind == REFUSED) {
        return false;
    }
    if (event.fields[EVENT_FLAGS] == FLAG_TICK) {
        tally->times[TALLY_TICKS_ADDED]++;
    } else {
        count_repeat(tally, &runs->thickened.session, &event, &answer);
    }
    tally->times[TALLY_ADDED_REPORTS_SHIFT] += answer.shift_count > 0;
    tally->times[TALLY_ADDED_BEFORE_ACCEPTED] += !runs->any_accepted;
    tally->times[TALLY_ADDED_AFTER_REFUSED] += runs->last_refused;
    return true;
}

/* An event of the input, which both runs take; says whether they agree on it. */
static bool take_own(Runs *runs, const uint8_t *bytes, size_t length, Tally *tally)
{
    EventAnswer plain;
    EventAnswer thickened;
    take(&runs->plain, bytes, length, &plain);
    take(&runs->thickened, bytes, length, &thickened);
    runs->last_refused = plain.kind == REFUSED;
    runs->any_accepted = runs->any_accepted || plain.kind == ACCEPTED;
    if (plain.kind == REFUSED && thickened.kind == REFUSED) {
        tally->times[TALLY_OTHER_REFUSAL] += plain.reason != thickened.reason;
        return true;
    }
    return plain.kind == thickened.kind && same_run(&runs->plain, &runs->thickened);
}

/* Whether the events that were not added are the input's own, one after another. */
static bool own_events_kept(const Input *input, const Thickened *thickened)
{
    size_t kept = 0;
    for (size_t start = 0; start < thickened->length; start += EVENT_BYTES) {
        size_t length = input_event_length(thickened->length - start);
        if (thickened->added[start / EVENT_BYTES]) {
            continue;
        }
        if (length > input->events_length - kept || memcmp(thickened->bytes + start, input->events + kept, length) != 0) {
            return false;
        }
        kept += length;
    }
    return kept == input->events_length;
}

bool thickened_agrees(const Input *input, const Thickened *thickened, Tally *tally)
{
    Runs runs = {0};
    bool agrees = own_events_kept(input, thickened);
    if (corridor_open(input->table, input->table_length, &runs.plain.session).kind == REFUSED) {
        return agrees && thickened->length == input->events_length;
    }
    runs.thickened.session = runs.plain.session;
    for (size_t start = 0; agrees && start < thickened->length; start += EVENT_BYTES) {
        const uint8_t *bytes = thickened->bytes + start;
        size_t length = input_event_length(thickened->length - start);
        agrees = thickened->added[start / EVENT_BYTES] ? take_added(&runs, bytes, tally)
                                                       : take_own(&runs, bytes, length, tally);
    }
    return agrees && same_run(&runs.plain, &runs.thickened);
}
