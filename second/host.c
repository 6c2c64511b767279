/*
 * host.c: the program "host". It gives the same inputs to this engine and to the proved one as a host in C has it: a
 * session in memory of its own, one event after another, damaged at the end; or memory without a session, where the table is
 * refused. It also adds free events to each input (thickened.h), which have to leave every number of that memory as it is
 * without them. It fails at any difference, and where too few inputs bring a field, a refusal or an added event to the test.
 *
 *   host FILE..     generated inputs of a fixed seed, the files, and the inputs at all whole thousandths and beside them
 *                   (sweep.h)
 */
#include "generate.h"
#include "random.h"
#include "rows.h"
#include "sample.h"
#include "sweep.h"
#include "tally.h"
#include "text.h"
#include "thickened.h"

#include "sundewcup_host.h"

#include <inttypes.h>
#include <stdio.h>
#include <stdlib.h>
#include <string.h>

enum { INPUTS = 3000, INPUTS_FOR_EACH_COUNT = 100, MOST_NUMBERS = ROWS_ROOM(LONGEST_THICKENED) };

static const uint64_t SEED = 3;

typedef enum {
    COMPARED_ROWS,
    COMPARED_TEXT,
    COMPARED_FEED,
    COMPARED_REFUSED,
    COMPARED_SHORT_ROOM,
    COMPARED_QUESTIONS,
    COMPARED_REPORTS,
    COMPARED_LEVELS,
    COMPARED_OPENED,
    COMPARED_PLACES,
    COMPARED_UNCHECKED,
    COMPARED_THICKENED_EVENTS,
    COMPARED_THICKENED_FEED,
    COMPARED_THICKENED_SECOND,
    COMPARED_DAMAGE,
    COMPARED_NO_SESSION,
    COMPARED_SWEEP,
    COMPARISONS
} Comparison;

static const char *const NAMES[COMPARISONS] = {
    [COMPARED_ROWS] = "rows, event by event",
    [COMPARED_TEXT] = "text of the rows and of the second program",
    [COMPARED_FEED] = "rows, in buffers, and the session that they leave",
    [COMPARED_REFUSED] = "a refused event changes no number",
    [COMPARED_SHORT_ROOM] = "too little room said, nothing done",
    [COMPARED_QUESTIONS] = "limits and places as the closing rows say",
    [COMPARED_REPORTS] = "all that stands on a line",
    [COMPARED_LEVELS] = "market bounds of the three levels, worked out by hand",
    [COMPARED_OPENED] = "line and field 0 where a table is opened",
    [COMPARED_PLACES] = "which event of its buffer was refused, worked out by hand",
    [COMPARED_UNCHECKED] = "the same without the test of the memory",
    [COMPARED_THICKENED_EVENTS] = "shifts and memory with and without free events, event by event",
    [COMPARED_THICKENED_FEED] = "shifts and memory with and without free events, in buffers",
    [COMPARED_THICKENED_SECOND] = "second engine's shift lines and session with and without free events",
    [COMPARED_DAMAGE] = "damaged memory refused, and left as it was",
    [COMPARED_NO_SESSION] = "memory without a session refused, after a refused table too, and left as it was",
    [COMPARED_SWEEP] = "rows at all whole thousandths and beside them",
};

/* The rows so far, and how many events they answer. */
typedef struct {
    size_t count;
    size_t events;
    int64_t numbers[MOST_NUMBERS];
} Answer;

static bool differ[COMPARISONS];

static void expect(Comparison comparison, bool good)
{
    differ[comparison] = differ[comparison] || !good;
}

static void start(Answer *answer)
{
    answer->count = 0;
    answer->events = 0;
}

static void add(Answer *answer, const int64_t *numbers, size_t count)
{
    memcpy(answer->numbers + answer->count, numbers, count * sizeof *numbers);
    answer->count += count;
}

/* A session of its own block, so that a sanitizer sees what is written past its end. */
static sundewcup_session *make_session(void)
{
    sundewcup_session *session = malloc(sizeof *session);
    if (session == NULL) {
        puts("no memory");
        exit(EXIT_FAILURE);
    }
    memset(session, 0xa5, sizeof *session);
    return session;
}

static bool same(const sundewcup_session *one, const sundewcup_session *other)
{
    return memcmp(one, other, sizeof *one) == 0;
}

/* The number, the line and the field that a table is answered with. */
typedef struct {
    int64_t number;
    int64_t line;
    int64_t field;
} Opened;

static Opened open_table(sundewcup_session *session, const uint8_t *table, size_t length)
{
    Opened opened = {.line = -1, .field = -1};
    opened.number = sundewcup_open(session, table, length, &opened.line, &opened.field);
    expect(COMPARED_OPENED, opened.number != 0 || (opened.line == 0 && opened.field == 0));
    return opened;
}

/* Opens the input's table and starts the answer, with the row of a refused one; says whether it is opened. */
static bool open_input(sundewcup_session *session, const Input *input, Answer *answer)
{
    Opened opened = open_table(session, input->table, input->table_length);
    start(answer);
    if (opened.number != 0) {
        add(answer, (const int64_t[ROW_NUMBERS]){ROW_REFUSED_TABLE, opened.number, opened.line, opened.field}, ROW_NUMBERS);
    }
    return opened.number == 0;
}

/* ---- One event after another ---- */

/* Says whether the event was accepted. */
static bool take_event(sundewcup_session *session, const uint8_t *event, size_t length, Answer *answer)
{
    sundewcup_session before = *session;
    sundewcup_session other = *session;
    int64_t shifts[SUNDEWCUP_SHIFT_NUMBERS];
    int64_t other_shifts[SUNDEWCUP_SHIFT_NUMBERS];
    size_t made = SIZE_MAX;
    size_t other_made = SIZE_MAX;
    int64_t refused = sundewcup_event(session, event, length, shifts, &made);
    int64_t other_refused = sundewcup_event_unchecked(&other, event, length, other_shifts, &other_made);
    expect(COMPARED_UNCHECKED, refused == other_refused && made == other_made && same(session, &other)
                                   && memcmp(shifts, other_shifts, made * ROW_NUMBERS * sizeof *shifts) == 0);
    answer->events++;
    if (refused != 0) {
        expect(COMPARED_REFUSED, made == 0 && same(session, &before));
        add(answer, (const int64_t[ROW_NUMBERS]){ROW_REFUSED_EVENT, refused, (int64_t)answer->events}, ROW_NUMBERS);
    } else {
        add(answer, shifts, made * ROW_NUMBERS);
    }
    return refused == 0;
}

static void take_closing(const sundewcup_session *session, Answer *answer)
{
    int64_t closing[SUNDEWCUP_CLOSING_NUMBERS];
    size_t count = sundewcup_close(session, closing, SUNDEWCUP_CLOSING_NUMBERS);
    expect(COMPARED_SHORT_ROOM, count == 0 || sundewcup_close(session, closing, count - 1) == count);
    add(answer, closing, count);
}

static void run_events(sundewcup_session *session, const Input *input, Answer *answer)
{
    if (!open_input(session, input, answer)) {
        return;
    }
    for (size_t at = 0; at < input->events_length; at += EVENT_BYTES) {
        take_event(session, input->events + at, input_event_length(input->events_length - at), answer);
    }
    take_closing(session, answer);
}

/* ---- In buffers ---- */

/* The rows of a buffer, in which its own events count from 1, as rows of the whole input. */
static void count_on(int64_t *rows, size_t count, size_t events_before)
{
    for (size_t i = 0; i < count; i += ROW_NUMBERS) {
        rows[i + 2] += rows[i] == ROW_REFUSED_EVENT ? (int64_t)events_before : 0;
    }
}

static void feed(sundewcup_session *session, const uint8_t *events, size_t length, Answer *answer)
{
    size_t room = SUNDEWCUP_FEED_NUMBERS(length);
    int64_t *out = malloc(room * sizeof *out);
    sundewcup_session before = *session;
    if (out == NULL) {
        puts("no memory");
        exit(EXIT_FAILURE);
    }
    expect(COMPARED_SHORT_ROOM, sundewcup_feed(session, events, length, out, room - 1) == room && same(session, &before));
    size_t count = sundewcup_feed(session, events, length, out, room);
    count_on(out, count, answer->events);
    add(answer, out, count);
    answer->events += (length + EVENT_BYTES - 1) / EVENT_BYTES;
    free(out);
}

/* Some inputs are fed in one buffer, most in several. */
static void run_buffers(sundewcup_session *session, const Input *input, Random *random, Answer *answer)
{
    if (!open_input(session, input, answer)) {
        return;
    }
    bool at_once = chance(random, 20);
    size_t at = 0;
    while (at < input->events_length) {
        size_t left = input->events_length - at;
        size_t some = at_once ? left : (size_t)between(random, 1, 50) * EVENT_BYTES;
        feed(session, input->events + at, some < left ? some : left, answer);
        at += some < left ? some : left;
    }
    take_closing(session, answer);
}

/* ---- With free events ---- */

/* Takes the events one by one in two sessions of the same table, the added ones in one of them only. After an event that was
   not added and is accepted no number of the two may differ. After a refused one they may: an added event before it may have
   moved the clock and served holds. */
static void step_thickened(sundewcup_session *plain, sundewcup_session *with, const Thickened *thickened)
{
    static Answer plain_answer;
    static Answer answer;
    start(&plain_answer);
    start(&answer);
    for (size_t at = 0; at < thickened->length; at += EVENT_BYTES) {
        size_t length = input_event_length(thickened->length - at);
        bool accepted = take_event(with, thickened->bytes + at, length, &answer);
        if (thickened->added[at / EVENT_BYTES]) {
            expect(COMPARED_THICKENED_EVENTS, accepted);
        } else {
            expect(COMPARED_THICKENED_EVENTS, accepted == take_event(plain, thickened->bytes + at, length, &plain_answer));
            expect(COMPARED_THICKENED_EVENTS, !accepted || same(plain, with));
        }
    }
    expect(COMPARED_THICKENED_EVENTS, same(plain, with));
    expect(COMPARED_THICKENED_EVENTS,
           rows_same_unrefused(plain_answer.numbers, plain_answer.count, answer.numbers, answer.count));
}

/* The end and the answer are those of the input without free events. */
static void take_thickened(const Input *input, const sundewcup_session *end, const Answer *plain_answer, Random *random,
                           Tally *tally)
{
    static Thickened thickened;
    static Answer answer;
    thicken(input, &thickened);
    expect(COMPARED_THICKENED_SECOND, thickened_agrees(input, &thickened, tally));
    sundewcup_session *plain = make_session();
    sundewcup_session *with = make_session();
    if (open_table(plain, input->table, input->table_length).number == 0) {
        Input with_added = thickened_input(input, &thickened);
        *with = *plain;
        step_thickened(plain, with, &thickened);
        expect(COMPARED_THICKENED_EVENTS, same(end, with));
        run_buffers(with, &with_added, random, &answer);
        expect(COMPARED_THICKENED_FEED, same(end, with));
        expect(COMPARED_THICKENED_FEED,
               rows_same_unrefused(plain_answer->numbers, plain_answer->count, answer.numbers, answer.count));
    }
    free(plain);
    free(with);
}

/* ---- Questions ---- */

static void ask(const sundewcup_session *session, const int64_t *row)
{
    uint32_t id = (uint32_t)row[1];
    int64_t limits[3];
    bool good = sundewcup_limits(session, id, limits) == 0 && limits[0] == row[2] && limits[1] == row[3];
    good = good && (limits[2] == 0 || (limits[2] == 1 && limits[0] == 1));
    good = good && sundewcup_place(session, id, row[2] - 1) == SUNDEWCUP_BELOW;
    good = good && sundewcup_place(session, id, row[2]) == SUNDEWCUP_INSIDE;
    good = good && sundewcup_place(session, id, row[3]) == SUNDEWCUP_INSIDE;
    expect(COMPARED_UNCHECKED, sundewcup_place_unchecked(session, id, row[3]) == SUNDEWCUP_INSIDE
                                   && sundewcup_place_unchecked(session, id, row[3] + 1) == SUNDEWCUP_ABOVE);
    expect(COMPARED_QUESTIONS, good && sundewcup_place(session, id, row[3] + 1) == SUNDEWCUP_ABOVE);
}

static void ask_all(const sundewcup_session *session, const Answer *answer)
{
    int64_t limits[3] = {7, 8, 9};
    for (size_t i = 0; i < answer->count; i += ROW_NUMBERS) {
        if (answer->numbers[i] == ROW_CLOSING) {
            ask(session, answer->numbers + i);
        }
    }
    bool good = sundewcup_limits(session, 0, limits) == 13 && limits[0] == 7 && limits[1] == 8 && limits[2] == 9;
    expect(COMPARED_QUESTIONS, good && sundewcup_place(session, 0, 1) == 13);
}

/* ---- Reports, against the second engine's own lines ---- */

static int64_t *put_hold(int64_t *next, const Session *second, Side side, uint32_t place)
{
    uint32_t due = second->due[side][place].seconds;
    bool stands = due != NEVER.seconds;
    *next++ = stands;
    *next++ = stands ? due - second->hold.seconds : 0;
    *next++ = stands ? due : 0;
    return next;
}

static void ask_report(const sundewcup_session *session, const Session *second, uint32_t place)
{
    const Line *line = &second->lines[place];
    int64_t wanted[SUNDEWCUP_REPORT_NUMBERS] = {line->limits.lower.steps,   line->limits.upper.steps,   line->lower_frozen,
                                                line->interest.lower.steps, line->interest.upper.steps, line->centre.steps};
    int64_t *next = wanted + 6;
    for (int level = 0; level < LEVELS; level++) {
        *next++ = line->centre.steps - line->half_width[level].steps;
        *next++ = line->centre.steps + line->half_width[level].steps;
    }
    next = put_hold(put_hold(next, second, SIDE_UP, place), second, SIDE_DOWN, place);
    *next++ = line->has_bid;
    *next++ = line->has_bid ? line->bid.steps : 0;
    *next++ = line->has_ask;
    *next++ = line->has_ask ? line->ask.steps : 0;
    *next++ = second->most_shifts - second->shifts_made;
    *next++ = second->clock.seconds;
    int64_t out[SUNDEWCUP_REPORT_NUMBERS];
    bool good = sundewcup_report(session, line->id, out) == 0;
    expect(COMPARED_REPORTS, good && memcmp(out, wanted, sizeof out) == 0);
}

static void ask_reports(const sundewcup_session *session, const Input *input)
{
    Session second;
    corridor_open(input->table, input->table_length, &second);
    for (size_t at = 0; at < input->events_length; at += EVENT_BYTES) {
        EventAnswer answer;
        corridor_event(&second, input->events + at, input_event_length(input->events_length - at), &answer);
    }
    for (uint32_t place = 0; place < second.line_count; place++) {
        ask_report(session, &second, place);
    }
    int64_t out[SUNDEWCUP_REPORT_NUMBERS] = {7};
    expect(COMPARED_REPORTS, sundewcup_report(session, 0, out) == 13 && out[0] == 7);
}

/* ---- Figures of levels ---- */

static void expect_levels(const sundewcup_session *session, const Levels *levels)
{
    int64_t out[SUNDEWCUP_REPORT_NUMBERS];
    bool good = sundewcup_report(session, 7, out) == 0 && out[5] == levels->centre;
    for (int level = 0; good && level < LEVELS; level++) {
        good = out[6 + 2 * level] == levels->centre - levels->half_width[level]
            && out[7 + 2 * level] == levels->centre + levels->half_width[level];
    }
    expect(COMPARED_LEVELS, good);
}

static void take_levels(const LevelFigure *figure)
{
    uint8_t bytes[LONGEST_TABLE + 2 * EVENT_BYTES];
    TableDraft draft = sample_of_levels(figure);
    EventDraft tick = draft_tick(70);
    size_t length = draft_write_table(&draft, bytes);
    draft_write_event(&figure->quote, bytes + length);
    draft_write_event(&tick, bytes + length + EVENT_BYTES);
    sundewcup_session *session = make_session();
    int64_t out[SUNDEWCUP_FEED_NUMBERS(2 * EVENT_BYTES)];
    expect(COMPARED_LEVELS, open_table(session, bytes, length).number == 0);
    expect_levels(session, &figure->opened);
    expect(COMPARED_LEVELS, sundewcup_feed(session, bytes + length, 2 * EVENT_BYTES, out,
                                           SUNDEWCUP_FEED_NUMBERS(2 * EVENT_BYTES)) == ROW_NUMBERS);
    expect_levels(session, &figure->shifted);
    free(session);
}

/* ---- Figures of places ---- */

/* Two buffers of events over the sample table, one after the other, and their rows. Of the first the second and the fourth
   event are refused, and the fifth makes a shift; of the other the first, and the third, which is cut. */
static const struct {
    size_t length;
    EventDraft events[5];
    size_t count;
    int64_t rows[3 * ROW_NUMBERS];
} PLACE_FIGURE[] = {
    {5 * EVENT_BYTES,
     {{{10, 7, FLAG_BID, 1046, 0}}, {{20, 7, FLAG_BID, 1046, 1}}, {{30, 0, FLAG_TICK, 0, 0}},
      {{40, 7, FLAG_ASK, 0, 2000000001}}, {{70, 0, FLAG_TICK, 0, 0}}},
     3 * ROW_NUMBERS, {2, 15, 2, 0, 0, 0, 2, 16, 4, 0, 0, 0, 1, 70, 0, 7, 0, 0}},
    {3 * EVENT_BYTES - 1,
     {{{69, 0, FLAG_TICK, 0, 0}}, {{71, 0, FLAG_TICK, 0, 0}}, {{72, 0, FLAG_TICK, 0, 0}}},
     2 * ROW_NUMBERS, {2, 11, 1, 0, 0, 0, 2, 12, 3, 0, 0, 0}},
};

static void take_places(void)
{
    uint8_t bytes[LONGEST_TABLE];
    TableDraft draft = sample();
    sundewcup_session *session = make_session();
    expect(COMPARED_PLACES, open_table(session, bytes, draft_write_table(&draft, bytes)).number == 0);
    for (size_t i = 0; i < sizeof PLACE_FIGURE / sizeof PLACE_FIGURE[0]; i++) {
        int64_t out[SUNDEWCUP_FEED_NUMBERS(5 * EVENT_BYTES)];
        size_t length = PLACE_FIGURE[i].length;
        size_t count = PLACE_FIGURE[i].count;
        for (size_t at = 0; at < length; at += EVENT_BYTES) {
            draft_write_event(&PLACE_FIGURE[i].events[at / EVENT_BYTES], bytes + at);
        }
        expect(COMPARED_PLACES, sundewcup_feed(session, bytes, length, out, SUNDEWCUP_FEED_NUMBERS(length)) == count
                                    && memcmp(out, PLACE_FIGURE[i].rows, count * sizeof *out) == 0);
    }
    free(session);
}

/* ---- No session ---- */

enum { MOST_ROOM = SUNDEWCUP_CLOSING_NUMBERS };

/* Whether both functions that take events refuse the memory. All that they write is that no shift was made. */
static bool events_refused(sundewcup_session *session, const uint8_t *events, size_t length, int64_t *out, size_t room)
{
    size_t made = SIZE_MAX;
    return sundewcup_event(session, events, length, out, &made) == SUNDEWCUP_DAMAGED && made == 0
        && sundewcup_feed(session, events, length, out, room) == SUNDEWCUP_DAMAGED_COUNT;
}

/* Whether each function that tests the memory finds no sound session there, before it looks at anything else, and writes
   nothing. A tick, a cut event and no event at all are tried, and no room as well as enough of it. */
static bool refused_by_all(sundewcup_session *session)
{
    static const uint8_t tick[EVENT_BYTES] = {[0] = 1, [8] = 4};
    sundewcup_session before = *session;
    int64_t out[MOST_ROOM];
    int64_t out_before[MOST_ROOM];
    memset(out, 0x55, sizeof out);
    memcpy(out_before, out, sizeof out);
    bool good = sundewcup_check(session) == SUNDEWCUP_DAMAGED;
    good = good && events_refused(session, tick, EVENT_BYTES, out, MOST_ROOM);
    good = good && events_refused(session, tick, EVENT_BYTES - 1, out, MOST_ROOM);
    good = good && events_refused(session, tick, 0, out, MOST_ROOM);
    good = good && events_refused(session, tick, EVENT_BYTES, out, 0);
    good = good && sundewcup_close(session, out, MOST_ROOM) == SUNDEWCUP_DAMAGED_COUNT;
    good = good && sundewcup_close(session, out, 0) == SUNDEWCUP_DAMAGED_COUNT;
    for (uint32_t id = 0; id <= 7; id += 7) {
        good = good && sundewcup_limits(session, id, out) == SUNDEWCUP_DAMAGED;
        good = good && sundewcup_place(session, id, 1000) == SUNDEWCUP_DAMAGED;
        good = good && sundewcup_report(session, id, out) == SUNDEWCUP_DAMAGED;
    }
    return good && memcmp(out, out_before, sizeof out) == 0 && same(session, &before);
}

static size_t refused_tables;

/* The last session that was open; zeros until there is one. */
static sundewcup_session earlier;

/* A refused table leaves no session in the memory, whatever stood there before: in the memory handed over, bytes of nobody;
   in another, an earlier session, so that a host which overlooks the refusal does not go on with that one. */
static void take_refused(sundewcup_session *session, const Input *input)
{
    sundewcup_session *over = make_session();
    *over = earlier;
    refused_tables++;
    expect(COMPARED_NO_SESSION, refused_by_all(session));
    expect(COMPARED_NO_SESSION, open_table(over, input->table, input->table_length).number != 0);
    expect(COMPARED_NO_SESSION, refused_by_all(over));
    free(over);
}

/* Memory that no table was ever opened in, of any bytes or, as a static is, of zeros. */
static void take_unfilled(void)
{
    sundewcup_session *unfilled = make_session();
    expect(COMPARED_NO_SESSION, refused_by_all(unfilled));
    memset(unfilled, 0, sizeof *unfilled);
    expect(COMPARED_NO_SESSION, refused_by_all(unfilled));
    free(unfilled);
}

/* ---- Damage ---- */

static size_t opened_sessions;
static size_t damaged_sessions;

/* The numbers of a line, and of the head, which comes after 32 lines. */
enum { LINE_NUMBERS = 32, HEAD_NUMBERS = 16, HEAD_PLACE = 32 * LINE_NUMBERS };

/* A number of the first line or of the head, whatever it means; the lines of no contract say nothing. Of those that are 0 most
   are passed over, since few of them mean anything. */
static size_t choose_number(Random *random, const sundewcup_session *session)
{
    for (;;) {
        size_t among = (size_t)between(random, 0, LINE_NUMBERS + HEAD_NUMBERS - 1);
        size_t place = among < LINE_NUMBERS ? among : HEAD_PLACE + among - LINE_NUMBERS;
        if (session->opaque[place] != 0 || chance(random, 20)) {
            return place;
        }
    }
}

/* One number is changed. Where that makes another sound session, or says nothing, it has to go on as one. */
static void damage(sundewcup_session *session, uint64_t number)
{
    static const uint8_t event[EVENT_BYTES] = {[0] = 1, [8] = 4};
    Random random = {number};
    size_t place = choose_number(&random, session);
    uint64_t with[] = {0, 1, session->opaque[place] + 1, session->opaque[place] ^ 2, UINT64_MAX, (uint64_t)between(&random, 0, 1 << 30)};
    session->opaque[place] = with[between(&random, 0, sizeof with / sizeof with[0] - 1)];
    if (sundewcup_check(session) == 0) {
        int64_t shifts[SUNDEWCUP_SHIFT_NUMBERS];
        size_t made;
        expect(COMPARED_DAMAGE, sundewcup_event(session, event, EVENT_BYTES, shifts, &made) != SUNDEWCUP_DAMAGED);
        expect(COMPARED_DAMAGE, sundewcup_check(session) == 0);
    } else {
        damaged_sessions++;
        expect(COMPARED_DAMAGE, refused_by_all(session));
    }
}

/* ---- Many inputs ---- */

static void take_opened(sundewcup_session *session, const Input *input, const Answer *answer, uint64_t number)
{
    opened_sessions++;
    ask_all(session, answer);
    ask_reports(session, input);
    expect(COMPARED_DAMAGE, sundewcup_check(session) == 0);
    earlier = *session;
    damage(session, number);
}

static TallyTotal total;

static void take(const uint8_t *bytes, size_t length, uint64_t number)
{
    static Answer second;
    static Answer events;
    static Answer buffers;
    Input input = input_of(bytes, length);
    Random random = {number};
    sundewcup_session *one = make_session();
    sundewcup_session *other = make_session();
    second.count = rows_run(&input, second.numbers, MOST_NUMBERS);
    run_events(one, &input, &events);
    run_buffers(other, &input, &random, &buffers);
    size_t size = second.count * sizeof(int64_t);
    expect(COMPARED_ROWS, second.count == events.count && memcmp(second.numbers, events.numbers, size) == 0);
    expect(COMPARED_TEXT, text_same(events.numbers, events.count, bytes, length));
    expect(COMPARED_FEED, second.count == buffers.count && memcmp(second.numbers, buffers.numbers, size) == 0);
    expect(COMPARED_FEED, same(one, other));
    Tally tally = tally_input(&input);
    take_thickened(&input, one, &events, &random, &tally);
    tally_add(&total, &tally);
    if (second.numbers[0] == ROW_REFUSED_TABLE) {
        take_refused(one, &input);
    } else {
        take_opened(one, &input, &events, number);
    }
    free(one);
    free(other);
}

static void take_file(const char *name, uint64_t number)
{
    static uint8_t bytes[LONGEST_INPUT + 1];
    FILE *file = fopen(name, "rb");
    size_t length = file == NULL ? 0 : fread(bytes, 1, sizeof bytes, file);
    if (file == NULL || ferror(file) || length > LONGEST_INPUT) {
        printf("%s: not readable or too long\n", name);
        exit(EXIT_FAILURE);
    }
    fclose(file);
    take(bytes, length, number);
}

/* Only the first difference is told. An answer that is short on both sides is one too, since it shows nothing. */
static void take_sweep(void)
{
    static Answer second;
    static Answer events;
    uint8_t bytes[SWEEP_BYTES];
    sundewcup_session *session = make_session();
    for (int number = 0; number < SWEEP_INPUTS; number++) {
        Billionths exponent = sweep_input(number, bytes);
        Input input = input_of(bytes, SWEEP_BYTES);
        second.count = rows_run(&input, second.numbers, MOST_NUMBERS);
        run_events(session, &input, &events);
        bool good = second.count == SWEEP_NUMBERS && events.count == SWEEP_NUMBERS
            && memcmp(second.numbers, events.numbers, SWEEP_NUMBERS * sizeof(int64_t)) == 0;
        if (!good && !differ[COMPARED_SWEEP]) {
            printf("difference at exponent %" PRId64 " of the sweep\n", exponent.billionths);
        }
        expect(COMPARED_SWEEP, good);
        ask_reports(session, &input);
    }
    free(session);
}

/* Each comparison over all inputs counts for one, and so does each thing that enough inputs brought about; and one says that
   a session has the length of the header's. */
static bool judge(void)
{
    int checks = 1 + COMPARISONS + (TALLY_COUNTS - TALLY_FIRST_FAULT);
    int passed = sundewcup_session_numbers() == SUNDEWCUP_SESSION_NUMBERS;
    for (int i = 0; i < COMPARISONS; i++) {
        if (differ[i]) {
            printf("different: %s\n", NAMES[i]);
        }
        passed += !differ[i];
    }
    passed += tally_enough(&total, TALLY_FIRST_FAULT, INPUTS, INPUTS_FOR_EACH_COUNT);
    printf("%d passed, %d failed\n", passed, checks - passed);
    return passed == checks;
}

int main(int count, char **words)
{
    static uint8_t bytes[LONGEST_INPUT];
    for (uint64_t number = 0; number < INPUTS; number++) {
        take(bytes, generate_input(SEED, number, bytes), number);
    }
    for (int i = 1; i < count; i++) {
        take_file(words[i], (uint64_t)i);
    }
    for (int i = 0; i < LEVEL_FIGURES; i++) {
        take_levels(&LEVEL_FIGURE[i]);
    }
    take_places();
    take_unfilled();
    take_sweep();
    expect(COMPARED_DAMAGE, damaged_sessions > opened_sessions / 4);
    expect(COMPARED_NO_SESSION, refused_tables >= INPUTS_FOR_EACH_COUNT);
    tally_print(&total, TALLY_FIRST_FAULT);
    printf("%d inputs, %d of them files; %d more in the sweep; %zu sessions damaged, %zu tables refused\n",
           INPUTS + count - 1, count - 1, SWEEP_INPUTS, damaged_sessions, refused_tables);
    return judge() ? EXIT_SUCCESS : EXIT_FAILURE;
}
