/*
 * tally.c: runs the engine on an input and counts.
 */
#include "tally.h"

#include "draft.h"
#include "faults.h"
#include "outer.h"

#include <inttypes.h>
#include <stdio.h>
#include <string.h>

static const int64_t MILLION = 1000000;
static const int64_t BILLION = 1000000000;

/* A half-width that few contracts around zero have unless they are brought there. */
static const int64_t WIDE_STEPS = 1000;

static const char *const NAMES[TALLY_COUNTS] = {
    NULL, "refusal 1", "refusal 2", "refusal 3", "refusal 4", "refusal 5", "refusal 6", "refusal 7", "refusal 8",
    "refusal 9", "refusal 10", "refusal 11", "refusal 12", "refusal 13", "refusal 14",
    "refusal 15", "refusal 16",
    [TALLY_OPENED] = "opened",
    [TALLY_NO_SHIFTS_ALLOWED] = "opened with no shifts allowed",
    [TALLY_EVENTS] = "events",
    [TALLY_SHIFTS_UP] = "shifts up",
    [TALLY_SHIFTS_DOWN] = "shifts down",
    [TALLY_TWO_SHIFTS_IN_A_SECOND] = "up and down in one second",
    [TALLY_SEVERAL_LINES_DUE] = "several lines of a side due at once",
    [TALLY_SEVERAL_SHIFTS] = "events with several shifts",
    [TALLY_MOST_SHIFTS_AT_ONCE] = "events with sixteen shifts",
    [TALLY_SHIFT_AT_EVENT] = "shifts at the event's own second",
    [TALLY_TICK_BEFORE_DUE] = "ticks a second before one is due",
    [TALLY_TICK_AT_DUE] = "ticks at the second one is due",
    [TALLY_TICK_AFTER_DUE] = "ticks a second after one is due",
    [TALLY_FROZEN_AT_OPENING] = "lines frozen at opening",
    [TALLY_FROZEN_IN_SHIFT] = "lines frozen in a shift",
    [TALLY_DUE_AT_SESSION_END] = "holds due at the reached session end",
    [TALLY_ALL_SHIFTS_USED] = "all shifts used",
    [TALLY_LOWER_BELOW_ZERO] = "lines ending below zero",
    [TALLY_ZERO_INSIDE] = "lines ending around zero",
    [TALLY_BEYOND_32_BITS] = "lines ending beyond 32 bits",
    [TALLY_CUT_EVENT] = "last events cut short",
    [TALLY_UPPER_MARKET_NEGATIVE] = "upper market bounds below zero",
    [TALLY_LOWER_MARKET_NOT_NEGATIVE] = "lower market bounds not below zero",
    [TALLY_UPPER_ACROSS_ZERO] = "upper market bounds across zero",
    [TALLY_LOWER_ACROSS_ZERO] = "lower market bounds across zero",
    [TALLY_FLOORED_MARKET_NEGATIVE] = "floored, market bound below zero",
    [TALLY_OTHER_BY_PRICE] = "bounds other by the price's sign",
    [TALLY_MARKET_AROUND_ZERO] = "market bounds around zero",
    [TALLY_WIDE_AROUND_ZERO] = "wide market bounds around zero",
    [TALLY_MARKET_AT_ZERO] = "market bounds at zero",
    [TALLY_MARKET_BESIDE_ZERO] = "market bounds a step from zero",
    [TALLY_UPPER_ACROSS_FROM_MINUS_ONE] = "upper market bounds across from -1",
    [TALLY_LOWER_ACROSS_FROM_ONE] = "lower market bounds across from 1",
    [TALLY_REFUSED_BY_PRICE] = "lines refused by the price's sign",
    [TALLY_REFUSED_AROUND_ZERO] = "refusal 9 around zero",
    [TALLY_BELOW_THOUSANDTH] = "lines just under a thousandth",
    [TALLY_ABOVE_THOUSANDTH] = "lines just over a thousandth",
    [TALLY_LEAST_EXPONENT] = "lines at exponent 2",
    [TALLY_OUTER_NOTHING] = "bounds the same by the series alone",
    [TALLY_OUTER_UPPER] = "upper bounds a step from the series",
    [TALLY_OUTER_LOWER] = "lower bounds a step from the series",
    [TALLY_OUTER_SMALL_UPPER] = "small upper bounds a step from it",
    [TALLY_OUTER_SMALL_LOWER] = "small lower bounds a step from it",
    [TALLY_OUTER_LIMITS] = "limits other by the series alone",
    [TALLY_OUTER_AFTER_SHIFT] = "shifts to a bound a step from it",
    [TALLY_OUTER_UPPER_MOVE] = "upper bounds moved other than by it",
    [TALLY_OUTER_LOWER_MOVE] = "lower bounds moved other than by it",
    [TALLY_OUTER_SMALL_MOVE] = "small bounds moved other than by it",
    [TALLY_OUTER_OPENED] = "lines refused by the series alone",
    [TALLY_OUTER_REFUSED] = "refusal 9 not by the series alone",
    [TALLY_TICKS_ADDED] = "ticks added",
    [TALLY_QUOTES_REPEATED] = "quotes repeated",
    [TALLY_HELD_QUOTES_REPEATED] = "quotes repeated under a hold",
    [TALLY_EMPTY_BOOKS_REPEATED] = "empty books repeated",
    [TALLY_REPEATED_AT_SHIFT] = "quotes repeated at a shift's second",
    [TALLY_ADDED_REPORTS_SHIFT] = "added events that report a shift",
    [TALLY_ADDED_BEFORE_ACCEPTED] = "added before any accepted event",
    [TALLY_ADDED_AFTER_REFUSED] = "added after a refused event",
    [TALLY_OTHER_REFUSAL] = "events refused with another number",
};

/* How many of a thousand generated inputs have to bring it about. Behind it: about how many do, and how many would without
   a step of generate.c, so that each of these demands would fail then. The step is spoil_absence for refusal 15 and
   spoil_range for 16, the leaps of time for sixteen shifts, damage_limits' bringing contracts around zero for refusal 9 there,
   keys beside a thousandth for lines just under and over one and, where there is none below, above it for lines at exponent 2
   (thousandths.c), make_table's bringing contracts beyond the series for small bounds, damage_limits' doing so for what is
   refused or opens for a step, and for the others that contracts are brought near zero. */
static const uint64_t LEAST_IN_A_THOUSAND[TALLY_COUNTS] = {
    [REFUSED_ABSENT_PRICE] = 200, /* 367, 117 */
    [REFUSED_PRICE_RANGE] = 200, /* 357, 23 */
    [TALLY_MOST_SHIFTS_AT_ONCE] = 5, /* 9, 4 */
    [TALLY_UPPER_MARKET_NEGATIVE] = 50,
    [TALLY_LOWER_MARKET_NOT_NEGATIVE] = 50,
    [TALLY_UPPER_ACROSS_ZERO] = 50,
    [TALLY_LOWER_ACROSS_ZERO] = 50,
    [TALLY_FLOORED_MARKET_NEGATIVE] = 50,
    [TALLY_OTHER_BY_PRICE] = 50,
    [TALLY_MARKET_AROUND_ZERO] = 300, /* 334, 215 */
    [TALLY_WIDE_AROUND_ZERO] = 100, /* 187, 66 */
    [TALLY_MARKET_AT_ZERO] = 130, /* 171, 91 */
    [TALLY_MARKET_BESIDE_ZERO] = 110, /* 156, 43 */
    [TALLY_UPPER_ACROSS_FROM_MINUS_ONE] = 15, /* 36, 3 */
    [TALLY_LOWER_ACROSS_FROM_ONE] = 22, /* 36, 8 */
    [TALLY_REFUSED_BY_PRICE] = 65, /* 92, 47 */
    [TALLY_REFUSED_AROUND_ZERO] = 12, /* 21, 7 */
    [TALLY_END_THOUSANDTH] = 50,
    [TALLY_BELOW_THOUSANDTH] = 13, /* 27, 0 */
    [TALLY_ABOVE_THOUSANDTH] = 13, /* 35, 0 */
    [TALLY_LEAST_EXPONENT] = 5, /* 7, 3 */
    [TALLY_OUTER_NOTHING] = 50,
    [TALLY_OUTER_UPPER] = 50,
    [TALLY_OUTER_LOWER] = 50,
    [TALLY_OUTER_SMALL_UPPER] = 40, /* 65, 5 */
    [TALLY_OUTER_SMALL_LOWER] = 40, /* 65, 5 */
    [TALLY_OUTER_LIMITS] = 50,
    [TALLY_OUTER_AFTER_SHIFT] = 50,
    [TALLY_OUTER_UPPER_MOVE] = 50,
    [TALLY_OUTER_LOWER_MOVE] = 50,
    [TALLY_OUTER_SMALL_MOVE] = 40, /* 75, 8 */
    [TALLY_OUTER_OPENED] = 1, /* 3, 0 */
    [TALLY_OUTER_REFUSED] = 1, /* 3, 0 */
    [TALLY_TICKS_ADDED] = 50,
    [TALLY_QUOTES_REPEATED] = 50,
    [TALLY_HELD_QUOTES_REPEATED] = 50,
    [TALLY_EMPTY_BOOKS_REPEATED] = 50,
    [TALLY_REPEATED_AT_SHIFT] = 50,
    [TALLY_ADDED_REPORTS_SHIFT] = 50,
    [TALLY_ADDED_BEFORE_ACCEPTED] = 50,
    [TALLY_ADDED_AFTER_REFUSED] = 50,
    [TALLY_OTHER_REFUSAL] = 50,
};

/* The same for every count of a group. Behind it, of the rarest one: about how many do, and how many would without a step
   of generate.c, so that demands of the group would fail then. */
static const struct { int first; int members; uint64_t least; } GROUPS[] = {
    /* The end thousandths but 0 and 500, which come up anyhow, 0 where rate or days are 0 and 500 by make_greatest. 8, and 0
       without keys at thousandths, or with none more often than others. */
    {TALLY_END_THOUSANDTH + 1, END_THOUSANDTHS - 2, 4},
    {TALLY_THOUSANDTHS, THOUSANDTH_PARTS, 4}, /* 6, and 1 at most without keys at thousandths, 2 with none drawn in the part */
    {TALLY_FIRST_BAD, EDGES, 1}, /* 2, and 0 if refusal 5 were aimed at no more often than others */
    /* 3, all the rarest those of rates; 0 without bring_rate_to_edge or without raise_rates, 1 without the former's mending. */
    {TALLY_LAST_GOOD, EDGES, 2},
    {TALLY_FIELD_ALONE, FIELDS_AT_FAULT, 2}, /* 4, and 1 if refusal 5 were aimed at no more often than others */
    {TALLY_FIELD_NOT_ALONE, FIELDS_BEFORE_ANOTHER, 2}, /* 3, and 0 without damage_two_fields */
    {TALLY_PAIR, REFUSAL_PAIRS, 30}, /* 55, and 6 without spoil_absence, 0 without spoil_range or without a second fault */
};

static bool in_group(int count, int first, int members)
{
    return first <= count && count < first + members;
}

static uint64_t least_in_a_thousand(int count)
{
    for (size_t i = 0; i < sizeof GROUPS / sizeof GROUPS[0]; i++) {
        if (in_group(count, GROUPS[i].first, GROUPS[i].members)) {
            return GROUPS[i].least;
        }
    }
    return LEAST_IN_A_THOUSAND[count];
}

/* How many thousandths a part of them has, the end ones among them, which are not counted there. */
enum { THOUSANDTHS_IN_PART = LAST_THOUSANDTH / THOUSANDTH_PARTS };

/* The place among the end thousandths; where it is none of them, the number of places. */
static int place_at_end(int64_t thousandth)
{
    int place = 0;
    while (place < END_THOUSANDTHS && END_THOUSANDTH[place] != thousandth) {
        place++;
    }
    return place;
}

static bool is_end(int64_t thousandth)
{
    return place_at_end(thousandth) < END_THOUSANDTHS;
}

/* Two refusals, the one that is looked for first before the other. */
static const struct { Refusal first; Refusal other; } PAIR[REFUSAL_PAIRS] = {
    {REFUSED_EVENT_FORM, REFUSED_ABSENT_PRICE}, {REFUSED_EVENT_FORM, REFUSED_PRICE_RANGE},
    {REFUSED_EVENT_FORM, REFUSED_AFTER_END}, {REFUSED_EVENT_FORM, REFUSED_BEFORE_CLOCK},
    {REFUSED_EVENT_FORM, REFUSED_UNKNOWN_ID}, {REFUSED_EVENT_FORM, REFUSED_CROSSED},
    {REFUSED_ABSENT_PRICE, REFUSED_PRICE_RANGE}, {REFUSED_ABSENT_PRICE, REFUSED_AFTER_END},
    {REFUSED_ABSENT_PRICE, REFUSED_BEFORE_CLOCK}, {REFUSED_ABSENT_PRICE, REFUSED_UNKNOWN_ID},
    {REFUSED_PRICE_RANGE, REFUSED_AFTER_END}, {REFUSED_PRICE_RANGE, REFUSED_BEFORE_CLOCK},
    {REFUSED_PRICE_RANGE, REFUSED_UNKNOWN_ID}, {REFUSED_PRICE_RANGE, REFUSED_CROSSED},
    {REFUSED_AFTER_END, REFUSED_UNKNOWN_ID}, {REFUSED_AFTER_END, REFUSED_CROSSED},
    {REFUSED_BEFORE_CLOCK, REFUSED_UNKNOWN_ID}, {REFUSED_BEFORE_CLOCK, REFUSED_CROSSED},
    {REFUSED_UNKNOWN_ID, REFUSED_CROSSED},
};

/* The fields that refusal 5 can name are counted by their numbers from 0, in which the id has none, and not by their places
   in the line. */
static int place_of(int number)
{
    return number < CONTRACT_ID ? number + 1 : number + 2;
}

static int number_of(int place)
{
    return place <= CONTRACT_ID ? place - 1 : place - 2;
}

static void name_part(char *name, size_t bytes, int part)
{
    int first = THOUSANDTHS_IN_PART * part + 1;
    int last = THOUSANDTHS_IN_PART * (part + 1);
    while (is_end(first)) {
        first++;
    }
    while (is_end(last)) {
        last--;
    }
    snprintf(name, bytes, "lines at thousandths %d to %d", first, last);
}

/* The name of a count. That of a group's member is put together, and stands until the next one is asked for. */
static const char *name_of(int count)
{
    static char name[64];
    if (in_group(count, TALLY_END_THOUSANDTH, END_THOUSANDTHS)) {
        snprintf(name, sizeof name, "lines at thousandth %d", (int)END_THOUSANDTH[count - TALLY_END_THOUSANDTH]);
    } else if (in_group(count, TALLY_THOUSANDTHS, THOUSANDTH_PARTS)) {
        name_part(name, sizeof name, count - TALLY_THOUSANDTHS);
    } else if (in_group(count, TALLY_FIRST_BAD, EDGES)) {
        snprintf(name, sizeof name, "first bad: %s", EDGE[count - TALLY_FIRST_BAD].name);
    } else if (in_group(count, TALLY_LAST_GOOD, EDGES)) {
        snprintf(name, sizeof name, "last good: %s", EDGE[count - TALLY_LAST_GOOD].name);
    } else if (in_group(count, TALLY_FIELD_ALONE, FIELDS_AT_FAULT)) {
        snprintf(name, sizeof name, "field %d alone at fault", place_of(count - TALLY_FIELD_ALONE));
    } else if (in_group(count, TALLY_FIELD_NOT_ALONE, FIELDS_BEFORE_ANOTHER)) {
        snprintf(name, sizeof name, "field %d and a later one at fault", place_of(count - TALLY_FIELD_NOT_ALONE));
    } else if (in_group(count, TALLY_PAIR, REFUSAL_PAIRS)) {
        snprintf(name, sizeof name, "events up for %d and %d", (int)PAIR[count - TALLY_PAIR].first,
                 (int)PAIR[count - TALLY_PAIR].other);
    } else {
        return NAMES[count];
    }
    return name;
}

static uint64_t frozen_lines(const Session *session)
{
    uint64_t count = 0;
    for (uint32_t i = 0; i < session->line_count; i++) {
        count += session->lines[i].lower_frozen;
    }
    return count;
}

/* The first second at which a hold is due, and how many lines of each side are due then. */
typedef struct {
    Seconds second;
    uint32_t lines[SIDES];
} FirstDue;

static FirstDue first_due(const Session *session)
{
    FirstDue first = {NEVER, {0}};
    for (int side = SIDE_UP; side <= SIDE_DOWN; side++) {
        for (uint32_t i = 0; i < session->line_count; i++) {
            Seconds due = session->due[side][i];
            if (due.seconds < first.second.seconds) {
                first = (FirstDue){due, {0}};
            }
            first.lines[side] += due.seconds != NEVER.seconds && due.seconds == first.second.seconds;
        }
    }
    return first;
}

/* By how many steps the bounds lie farther out than by the series alone. */
static Bounds farther_than_series(const Line *line)
{
    Bounds by_series = outer_bounds_by_series(line);
    return (Bounds){
        .lower = {by_series.lower.steps - line->interest.lower.steps},
        .upper = {line->interest.upper.steps - by_series.upper.steps},
    };
}

/* After the shifts of an event. */
static void count_outer_shifts(Tally *one, const Session *session)
{
    bool any = false;
    for (uint32_t i = 0; i < session->line_count; i++) {
        Bounds farther = farther_than_series(&session->lines[i]);
        any = any || farther.upper.steps == 1 || farther.lower.steps == 1;
    }
    one->times[TALLY_OUTER_AFTER_SHIFT] += any;
}

static void count_shifts(Tally *one, const EventAnswer *answer, FirstDue due, Seconds now)
{
    for (uint32_t i = 0; i < answer->shift_count; i++) {
        const Shift *shift = &answer->shifts[i];
        one->times[shift->side == SIDE_UP ? TALLY_SHIFTS_UP : TALLY_SHIFTS_DOWN]++;
        one->times[TALLY_TWO_SHIFTS_IN_A_SECOND] += i > 0 && shift[-1].second.seconds == shift->second.seconds;
        one->times[TALLY_SHIFT_AT_EVENT] += shift->second.seconds == now.seconds;
    }
    one->times[TALLY_SEVERAL_LINES_DUE] += answer->shift_count > 0 && due.lines[answer->shifts[0].side] > 1;
    one->times[TALLY_SEVERAL_SHIFTS] += answer->shift_count > 1;
    one->times[TALLY_MOST_SHIFTS_AT_ONCE] += answer->shift_count == MOST_SHIFTS;
}

static void count_tick(Tally *one, FirstDue due, Seconds now)
{
    one->times[TALLY_TICK_BEFORE_DUE] += now.seconds + 1 == due.second.seconds;
    one->times[TALLY_TICK_AT_DUE] += now.seconds == due.second.seconds;
    one->times[TALLY_TICK_AFTER_DUE] += now.seconds == due.second.seconds + 1;
}

static void count_pairs(Tally *one, const Session *session, const uint8_t *bytes, Refusal got)
{
    Refusal others[EVENT_REFUSALS];
    int count = faults_of_event(*session, bytes, got, others);
    for (int i = 0; i < count; i++) {
        for (int pair = 0; pair < REFUSAL_PAIRS; pair++) {
            one->times[TALLY_PAIR + pair] += PAIR[pair].first == got && PAIR[pair].other == others[i];
        }
    }
}

static void count_event(Tally *one, Session *session, const uint8_t *bytes, size_t length)
{
    EventAnswer answer;
    FirstDue due = first_due(session);
    corridor_event(session, bytes, length, &answer);
    one->times[TALLY_EVENTS]++;
    one->times[TALLY_CUT_EVENT] += length < EVENT_BYTES;
    if (answer.kind == REFUSED) {
        one->times[answer.reason]++;
        if (length == EVENT_BYTES) {
            count_pairs(one, session, bytes, answer.reason);
        }
        return;
    }
    count_shifts(one, &answer, due, session->clock);
    if (answer.shift_count > 0) {
        count_outer_shifts(one, session);
    }
    if (draft_read_event(bytes).fields[EVENT_FLAGS] == FLAG_TICK) {
        count_tick(one, due, session->clock);
    }
}

static void count_end(Tally *one, const Session *session)
{
    uint32_t end = session->session_end.seconds;
    for (uint32_t i = 0; i < session->line_count; i++) {
        Bounds limits = session->lines[i].limits;
        Bounds interest = session->lines[i].interest;
        for (int side = SIDE_UP; side <= SIDE_DOWN; side++) {
            bool due_at_end = session->due[side][i].seconds == end;
            one->times[TALLY_DUE_AT_SESSION_END] += due_at_end && session->clock.seconds == end;
        }
        one->times[TALLY_LOWER_BELOW_ZERO] += limits.lower.steps < 0;
        one->times[TALLY_ZERO_INSIDE] += limits.lower.steps < 0 && limits.upper.steps > 0;
        one->times[TALLY_BEYOND_32_BITS] += interest.lower.steps < INT32_MIN || interest.upper.steps > INT32_MAX;
    }
    one->times[TALLY_ALL_SHIFTS_USED] += session->shifts_made > 0 && session->shifts_made == session->most_shifts;
}

/* ---- Near zero ---- */

static Steps upper_market(const Line *line)
{
    return (Steps){line->centre.steps + line->half_width[0].steps};
}

static Steps lower_market(const Line *line)
{
    return (Steps){line->centre.steps - line->half_width[0].steps};
}

static bool has_market_bound(const Line *line, Steps price)
{
    return upper_market(line).steps == price.steps || lower_market(line).steps == price.steps;
}

/* Whether a market bound was there at opening, or is there at the end. */
static bool had_market_bound(const Line *opened, const Line *line, Steps price)
{
    return has_market_bound(opened, price) || has_market_bound(line, price);
}

/* The interest bounds by the rule that the method had before: the sign of the price chooses the factors of both. */
static Bounds bounds_by_price(const Line *line, Steps price)
{
    Billionths upper_factor = price.steps < 0 ? line->down_factor : line->up_factor;
    Billionths lower_factor = price.steps < 0 ? line->up_factor : line->down_factor;
    return (Bounds){
        .lower = {floor_division(lower_market(line).steps * lower_factor.billionths, BILLION)},
        .upper = {ceiling_division(upper_market(line).steps * upper_factor.billionths, BILLION)},
    };
}

static int64_t half_corridor(Bounds bounds, int64_t width_share)
{
    return floor_division(width_share * (bounds.upper.steps - bounds.lower.steps), 2 * MILLION);
}

/* Whether a contract of this price would be refused with 9, if these were its bounds. */
static bool refused_with(Bounds bounds, Steps price, int64_t width_share)
{
    int64_t half = half_corridor(bounds, width_share);
    return price.steps + half > bounds.upper.steps || price.steps - half < bounds.lower.steps;
}

/* Whether a line that opened would by that rule have been refused with 9. */
static bool refused_by_price(const Line *opened, int64_t width_share)
{
    return refused_with(bounds_by_price(opened, opened->centre), opened->centre, width_share);
}

/* Where the bounds at the end are other than by that rule, so is the whole answer: with the same shifts the closing
   line shows it, and otherwise the shift lines do. */
static bool other_by_price(const Line *line, Steps price)
{
    Bounds bounds = bounds_by_price(line, price);
    return bounds.lower.steps != line->interest.lower.steps || bounds.upper.steps != line->interest.upper.steps;
}

/* One line as it was opened and as it stands at the end, and its contract in the table. */
static void count_near_zero(Tally *one, const Line *opened, const Line *line, const uint8_t *contract)
{
    if (opened->up_factor.billionths == opened->down_factor.billionths) {
        return;
    }
    int64_t upper = upper_market(opened).steps;
    int64_t lower = lower_market(opened).steps;
    bool around = lower < 0 && upper > 0;
    bool up_across = upper < 0 && upper_market(line).steps > 0;
    bool down_across = lower > 0 && lower_market(line).steps < 0;
    one->times[TALLY_UPPER_MARKET_NEGATIVE] += upper < 0;
    one->times[TALLY_LOWER_MARKET_NOT_NEGATIVE] += lower >= 0;
    one->times[TALLY_UPPER_ACROSS_ZERO] += up_across;
    one->times[TALLY_LOWER_ACROSS_ZERO] += down_across;
    one->times[TALLY_FLOORED_MARKET_NEGATIVE] += line->lower_frozen && lower_market(line).steps < 0;
    one->times[TALLY_OTHER_BY_PRICE] += other_by_price(line, opened->centre);
    one->times[TALLY_MARKET_AROUND_ZERO] += around;
    one->times[TALLY_WIDE_AROUND_ZERO] += around && opened->half_width[0].steps >= WIDE_STEPS;
    one->times[TALLY_MARKET_AT_ZERO] += had_market_bound(opened, line, (Steps){0});
    one->times[TALLY_MARKET_BESIDE_ZERO]
        += had_market_bound(opened, line, (Steps){-1}) || had_market_bound(opened, line, (Steps){1});
    one->times[TALLY_UPPER_ACROSS_FROM_MINUS_ONE] += up_across && upper == -1;
    one->times[TALLY_LOWER_ACROSS_FROM_ONE] += down_across && lower == 1;
    one->times[TALLY_REFUSED_BY_PRICE] += refused_by_price(opened, draft_read_field(contract, CONTRACT_WIDTH_SHARE));
}

/* ---- Exponents ---- */

/* The exponent of a contract in a table that opens. */
static Billionths exponent_of(const Input *input, const uint8_t *contract)
{
    Keys keys = {.count = draft_read_field(input->table, HEADER_KEY_COUNT)};
    Days days_left = {draft_read_field(contract, CONTRACT_DAYS_LEFT)};
    for (uint32_t i = 0; i < keys.count; i++) {
        const uint8_t *key = input->table + HEADER_BYTES + i * KEY_BYTES;
        keys.line[i] = (Key){{draft_read_field(key, KEY_DAYS)}, {draft_read_field(key, KEY_RATE)}};
    }
    return corridor_exponent(corridor_rate(&keys, days_left), days_left);
}

/* One more or one less in rate x days is 2.7.. billionths in the exponent, which is rounded down. */
static void count_exponent(Tally *one, Billionths exponent)
{
    int64_t thousandth = exponent.billionths / MILLION;
    int64_t past = exponent.billionths % MILLION;
    one->times[TALLY_LEAST_EXPONENT] += exponent.billionths == 2;
    one->times[TALLY_BELOW_THOUSANDTH] += past == MILLION - 3;
    one->times[TALLY_ABOVE_THOUSANDTH] += past == 2;
    if (past == 0 && is_end(thousandth)) {
        one->times[TALLY_END_THOUSANDTH + place_at_end(thousandth)]++;
    } else if (past == 0) {
        one->times[TALLY_THOUSANDTHS + (thousandth - 1) / THOUSANDTHS_IN_PART]++;
    }
}

/* ---- Beyond the series ---- */

static bool is_small(Steps market)
{
    return -MOST_SMALL_DISTANCE <= market.steps && market.steps <= MOST_SMALL_DISTANCE;
}

/* One line as it was opened and as it stands at the end, and its contract in the table. A bound that was farther out than by
   the series alone and no longer is, or the other way round, was moved by another number of steps, and so was its limit. */
static void count_outer(Tally *one, const Line *opened, const Line *line, const uint8_t *contract)
{
    if (!outer_has(opened)) {
        return;
    }
    int64_t width_share = draft_read_field(contract, CONTRACT_WIDTH_SHARE);
    Bounds by_series = outer_bounds_by_series(opened);
    Bounds first = farther_than_series(opened);
    Bounds last = farther_than_series(line);
    one->times[TALLY_OUTER_NOTHING] += first.upper.steps == 0 && first.lower.steps == 0;
    one->times[TALLY_OUTER_UPPER] += first.upper.steps == 1;
    one->times[TALLY_OUTER_LOWER] += first.lower.steps == 1;
    one->times[TALLY_OUTER_SMALL_UPPER] += first.upper.steps == 1 && is_small(upper_market(opened));
    one->times[TALLY_OUTER_SMALL_LOWER] += first.lower.steps == 1 && is_small(lower_market(opened));
    one->times[TALLY_OUTER_LIMITS]
        += half_corridor(opened->interest, width_share) != half_corridor(by_series, width_share);
    one->times[TALLY_OUTER_UPPER_MOVE] += first.upper.steps != last.upper.steps;
    one->times[TALLY_OUTER_LOWER_MOVE] += first.lower.steps != last.lower.steps;
    one->times[TALLY_OUTER_SMALL_MOVE] += (first.upper.steps != last.upper.steps && is_small(upper_market(line)))
        || (first.lower.steps != last.lower.steps && is_small(lower_market(line)));
    one->times[TALLY_OUTER_OPENED] += refused_with(by_series, opened->centre, width_share);
}

/* ---- Refused lines ---- */

/* The line that a table was refused at with 9. To have its numbers, it is opened alone and with width share 0. It may have
   other bounds by the price's sign. By that rule it is refused too: only the bound beyond zero is another, which is the nearer
   one to the price, and it is nearer still. By the series alone it may have opened. */
static void count_refused_limits(Tally *one, const Input *input, uint32_t number)
{
    uint8_t table[LONGEST_TABLE];
    Session session;
    const Line *line = &session.lines[0];
    size_t length = faults_line_alone(input, number, table);
    uint8_t *contract = table + length - CONTRACT_BYTES;
    int64_t width_share = draft_read_field(contract, CONTRACT_WIDTH_SHARE);
    memset(contract + 4 * CONTRACT_WIDTH_SHARE, 0, 4);
    if (corridor_open(table, length, &session).kind == ACCEPTED) {
        one->times[TALLY_REFUSED_AROUND_ZERO] += other_by_price(line, line->centre);
        one->times[TALLY_OUTER_REFUSED] += !refused_with(outer_bounds_by_series(line), line->centre, width_share);
    }
}

static void count_field(Tally *one, const Input *input, const TableAnswer *answer)
{
    uint8_t table[LONGEST_TABLE];
    uint32_t contract[CONTRACT_FIELDS];
    bool alone = !faults_later_field(input, answer);
    draft_read_contract(table + faults_line_alone(input, answer->line, table) - CONTRACT_BYTES, contract);
    one->times[number_of((int)answer->field) + (alone ? TALLY_FIELD_ALONE : TALLY_FIELD_NOT_ALONE)]++;
    for (int i = 0; i < EDGES; i++) {
        one->times[TALLY_FIRST_BAD + i] += EDGE[i].field + 1 == answer->field && edge_reached(contract, &EDGE[i], false);
    }
}

static void count_refused(Tally *one, const Input *input, const TableAnswer *answer)
{
    one->times[answer->reason]++;
    if (answer->reason == REFUSED_CONTRACT) {
        count_field(one, input, answer);
    } else if (answer->reason == REFUSED_LIMITS) {
        count_refused_limits(one, input, answer->line);
    }
}

static void count_edges(Tally *one, const uint8_t *bytes)
{
    uint32_t contract[CONTRACT_FIELDS];
    draft_read_contract(bytes, contract);
    for (int i = 0; i < EDGES; i++) {
        one->times[TALLY_LAST_GOOD + i] += edge_reached(contract, &EDGE[i], true);
    }
}

Tally tally_input(const Input *input)
{
    Tally one = {{0}};
    Session session;
    TableAnswer answer = corridor_open(input->table, input->table_length, &session);
    if (answer.kind == REFUSED) {
        count_refused(&one, input, &answer);
        return one;
    }
    Session opened = session;
    uint64_t frozen = frozen_lines(&session);
    one.times[TALLY_OPENED]++;
    one.times[TALLY_NO_SHIFTS_ALLOWED] += session.most_shifts == 0;
    one.times[TALLY_FROZEN_AT_OPENING] += frozen;
    for (size_t start = 0; start < input->events_length; start += EVENT_BYTES) {
        count_event(&one, &session, input->events + start, input_event_length(input->events_length - start));
    }
    one.times[TALLY_FROZEN_IN_SHIFT] += frozen_lines(&session) - frozen;
    count_end(&one, &session);
    /* The contracts are the last bytes of a table that opens. */
    const uint8_t *contracts = input->table + input->table_length - session.line_count * CONTRACT_BYTES;
    for (uint32_t i = 0; i < session.line_count; i++) {
        count_near_zero(&one, &opened.lines[i], &session.lines[i], contracts + i * CONTRACT_BYTES);
        count_outer(&one, &opened.lines[i], &session.lines[i], contracts + i * CONTRACT_BYTES);
        count_exponent(&one, exponent_of(input, contracts + i * CONTRACT_BYTES));
        count_edges(&one, contracts + i * CONTRACT_BYTES);
    }
    return one;
}

void tally_add(TallyTotal *total, const Tally *one)
{
    for (int i = TALLY_FIRST; i < TALLY_COUNTS; i++) {
        total->inputs[i] += one->times[i] > 0;
        total->times[i] += one->times[i];
    }
}

void tally_print(const TallyTotal *total, TallyCount first)
{
    printf("%-36s %10s %10s\n", "", "inputs", "in all");
    for (int i = (int)first; i < TALLY_COUNTS; i++) {
        printf("%-36s %10" PRIu64 " %10" PRIu64 "\n", name_of(i), total->inputs[i], total->times[i]);
    }
}

int tally_enough(const TallyTotal *total, TallyCount first, uint64_t generated, uint64_t least_inputs)
{
    int enough = 0;
    for (int i = (int)first; i < TALLY_COUNTS; i++) {
        uint64_t share = least_in_a_thousand(i);
        uint64_t least = share > 0 ? generated * share / 1000 : least_inputs;
        if (total->inputs[i] >= least) {
            enough++;
        } else {
            printf("failed: %s: %" PRIu64 " inputs, %" PRIu64 " demanded\n", name_of(i), total->inputs[i], least);
        }
    }
    return enough;
}
