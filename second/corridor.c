/*
 * corridor.c: the engine itself: reading, opening numbers, opening, pressure and holds, shifts, events,
 * questions. METHOD with a number is a chapter of docs/METHOD.md, and an item of it.
 *
 * Ranges. A settlement price is at most 10^8 away from zero, a half-width at most 10^8, a half-move at
 * most half of that. After 16 shifts a market bound is at most 10^8 + 10^8 + 16 x 10^8 = 1.8 x 10^9 away
 * from zero, and a factor is at most 1.65 x 10^9, so the largest product of the engine is under
 * 3 x 10^18. Signed 64 bits hold 9.2 x 10^18. Every other product is at most 10^18, and is named where
 * it is not plain.
 */
#include "corridor.h"

#include "layout.h"

#include <string.h>

enum { SERIES_TERMS = 12 };

static const int64_t MILLION = 1000000;
static const int64_t BILLION = 1000000000;
static const int64_t EXPONENT_CAP = 500000000;
static const int64_t MOST_TABLE_PRICE = 100000000;
static const int64_t MOST_DAYS = 3650;

const Seconds NEVER = {UINT32_MAX};

/* ---- Reading ---- */

/* The numbered 32-bit field, byte by byte, so that neither byte order nor alignment matters. */
static uint32_t field(const uint8_t *bytes, size_t number)
{
    const uint8_t *start = bytes + 4 * number;
    return (uint32_t)start[0] | (uint32_t)start[1] << 8 | (uint32_t)start[2] << 16 | (uint32_t)start[3] << 24;
}

/* In two's complement the top bit counts as minus 2^31. Written so, it needs no branch. */
static int64_t signed_field(const uint8_t *bytes, size_t number)
{
    uint32_t value = field(bytes, number);
    return (int64_t)(value & UINT32_C(0x7fffffff)) - (int64_t)(value & UINT32_C(0x80000000));
}

static bool within(int64_t value, int64_t least, int64_t most)
{
    return least <= value && value <= most;
}

int64_t floor_division(int64_t dividend, int64_t divisor)
{
    return dividend / divisor - (dividend % divisor < 0);
}

int64_t ceiling_division(int64_t dividend, int64_t divisor)
{
    return dividend / divisor + (dividend % divisor > 0);
}

/* ---- Lines by id ---- */

static uint32_t slot_of(uint32_t id)
{
    /* The top 8 bits of the product choose among the 256 slots. */
    return (id * UINT32_C(2654435769)) >> 24;
}

/* The slot that holds the id, or the empty slot where it would go. Most slots are always empty, so that the
   search is short and ends. */
static uint32_t find_slot(const Session *session, uint32_t id)
{
    uint32_t slot = slot_of(id);
    while (session->line_in_slot[slot] != 0 && session->lines[session->line_in_slot[slot] - 1].id != id) {
        slot = (slot + 1) % ID_SLOTS;
    }
    return slot;
}

/* The line number of an id, counted from 1; 0 where the id is not in the table. */
static uint32_t line_number(const Session *session, uint32_t id)
{
    return session->line_in_slot[find_slot(session, id)];
}

/* ---- Opening numbers ---- */

/* The key that is found is R of METHOD 4.3. It is the first one in 4.1, and there is none in 4.2. */
Millionths corridor_rate(const Keys *keys, Days days_left)
{
    uint32_t found = 0;
    while (found < keys->count && keys->line[found].days.days < days_left.days) {
        found++;
    }
    if (found == 0) {
        return keys->line[0].rate;
    }
    if (found == keys->count) {
        return keys->line[keys->count - 1].rate;
    }
    const Key *left = &keys->line[found - 1];
    const Key *right = &keys->line[found];
    int64_t rise = (right->rate.millionths - left->rate.millionths) * (days_left.days - left->days.days);
    int64_t term = right->days.days - left->days.days;
    return (Millionths){left->rate.millionths + floor_division(rise, term)};
}

Billionths corridor_exponent(Millionths rate, Days days_left)
{
    return (Billionths){floor_division(rate.millionths * days_left.days * 1000, 365)};
}

Billionths corridor_series(Billionths exponent)
{
    int64_t term = BILLION;
    int64_t sum = term;
    for (int64_t k = 1; k <= SERIES_TERMS; k++) {
        term = floor_division(term * exponent.billionths, k * BILLION);
        sum += term;
    }
    return (Billionths){sum};
}

/* What is rounded down leaves the series short of the exact sum, by far less than is added here; so a bound is never
   too narrow for it. At 0 nothing is rounded, and nothing added. */
Billionths corridor_up_factor(Billionths exponent)
{
    int64_t outer = exponent.billionths > 0 ? OUTER_BILLIONTHS : 0;
    return (Billionths){corridor_series(exponent).billionths + outer};
}

Billionths corridor_down_factor(Billionths up_factor)
{
    return (Billionths){floor_division(BILLION * BILLION, up_factor.billionths)};
}

static Steps normal_price(Steps spot, Steps least_price)
{
    int64_t size = spot.steps < 0 ? -spot.steps : spot.steps;
    return size > least_price.steps ? (Steps){size} : least_price;
}

static Steps half_width_at(Steps normal, Millionths rate)
{
    return (Steps){ceiling_division(normal.steps * rate.millionths, MILLION)};
}

/* METHOD 8, of the centre and the first half-width that the line has now. The sign of each market bound, and nothing
   else, chooses its factor. */
static void set_interest_bounds(Line *line)
{
    int64_t upper_market = line->centre.steps + line->half_width[0].steps;
    int64_t lower_market = line->centre.steps - line->half_width[0].steps;
    Billionths upper_factor = upper_market < 0 ? line->down_factor : line->up_factor;
    Billionths lower_factor = lower_market < 0 ? line->up_factor : line->down_factor;
    line->interest.upper.steps = ceiling_division(upper_market * upper_factor.billionths, BILLION);
    line->interest.lower.steps = floor_division(lower_market * lower_factor.billionths, BILLION);
}

/* METHOD 9.4 and 16.3. What was lifted once is lifted again after each later fall, so it never leaves the floor. */
static void apply_floor(Line *line)
{
    if (!line->permits_negative && line->limits.lower.steps < 1) {
        line->limits.lower.steps = 1;
        line->lower_frozen = true;
    }
}

/* ---- Opening a session ---- */

static bool header_in_range(const uint8_t *header)
{
    return within(field(header, HEADER_CONTRACT_COUNT), 1, MOST_LINES)
        && within(field(header, HEADER_KEY_COUNT), 1, MOST_KEYS)
        && within(field(header, HEADER_SESSION_END), 1, 172800)
        && within(field(header, HEADER_HOLD), 1, 3600)
        && within(field(header, HEADER_MOST_SHIFTS), 0, MOST_SHIFTS)
        && within(field(header, HEADER_NEAR_SHARE), 1, 500000)
        && within(field(header, HEADER_SHIFT_SHARE), 1, MILLION);
}

size_t corridor_table_length(const uint8_t *header)
{
    uint32_t contract_count = field(header, HEADER_CONTRACT_COUNT);
    uint32_t key_count = field(header, HEADER_KEY_COUNT);
    if (!within(contract_count, 1, MOST_LINES) || !within(key_count, 1, MOST_KEYS)) {
        return HEADER_BYTES;
    }
    return HEADER_BYTES + (size_t)key_count * KEY_BYTES + (size_t)contract_count * CONTRACT_BYTES;
}

/* Asked only once the counts are known to be in range, so that nothing here can overflow. */
static bool length_and_offsets_fit(const uint8_t *table, size_t length)
{
    uint32_t contracts_offset = HEADER_BYTES + field(table, HEADER_KEY_COUNT) * KEY_BYTES;
    return length == corridor_table_length(table)
        && field(table, HEADER_KEYS_OFFSET) == HEADER_BYTES
        && field(table, HEADER_CONTRACTS_OFFSET) == contracts_offset;
}

/* Reads the keys; gives the line of the first bad one, or 0. */
static uint32_t read_keys(const uint8_t *bytes, uint32_t key_count, Keys *keys)
{
    int64_t days_before = 0;
    keys->count = key_count;
    for (uint32_t i = 0; i < key_count; i++) {
        int64_t days = field(bytes, KEY_FIELDS * i + KEY_DAYS);
        int64_t rate = field(bytes, KEY_FIELDS * i + KEY_RATE);
        if (!within(days, 1, MOST_DAYS) || days <= days_before || !within(rate, 0, MILLION)) {
            return i + 1;
        }
        keys->line[i] = (Key){{days}, {rate}};
        days_before = days;
    }
    return 0;
}

/* The ten fields of a contract, read but not yet judged. */
typedef struct {
    Steps settlement;
    Steps spot;
    Steps least_price;
    Millionths rate[LEVELS];
    Millionths width_share;
    Days days_left;
    uint32_t id;
    uint32_t flags;
} Contract;

static Contract read_contract(const uint8_t *bytes)
{
    return (Contract){
        .settlement = {signed_field(bytes, CONTRACT_SETTLEMENT)},
        .spot = {signed_field(bytes, CONTRACT_SPOT)},
        .least_price = {field(bytes, CONTRACT_LEAST_PRICE)},
        .rate = {{field(bytes, CONTRACT_RATE_1)}, {field(bytes, CONTRACT_RATE_2)}, {field(bytes, CONTRACT_RATE_3)}},
        .width_share = {field(bytes, CONTRACT_WIDTH_SHARE)},
        .days_left = {field(bytes, CONTRACT_DAYS_LEFT)},
        .id = field(bytes, CONTRACT_ID),
        .flags = field(bytes, CONTRACT_FLAGS),
    };
}

/* The place of the first field that is not good, counted from 1; 0 where all are. The id is judged apart. */
static uint32_t field_at_fault(const Contract *contract)
{
    int64_t least_settlement = (contract->flags & FLAG_PERMITS_NEGATIVE) != 0 ? -MOST_TABLE_PRICE : 1;
    /* A rate is held to the one before it and not to 1: where that one is under 1, it is the first at fault. */
    const bool good[CONTRACT_FIELDS] = {
        [CONTRACT_SETTLEMENT] = within(contract->settlement.steps, least_settlement, MOST_TABLE_PRICE),
        [CONTRACT_SPOT] = within(contract->spot.steps, -MOST_TABLE_PRICE, MOST_TABLE_PRICE),
        [CONTRACT_LEAST_PRICE] = within(contract->least_price.steps, 1, MOST_TABLE_PRICE),
        [CONTRACT_RATE_1] = within(contract->rate[0].millionths, 1, MILLION),
        [CONTRACT_RATE_2] = within(contract->rate[1].millionths, contract->rate[0].millionths, MILLION),
        [CONTRACT_RATE_3] = within(contract->rate[2].millionths, contract->rate[1].millionths, MILLION),
        [CONTRACT_WIDTH_SHARE] = within(contract->width_share.millionths, 0, MILLION),
        [CONTRACT_DAYS_LEFT] = within(contract->days_left.days, 0, MOST_DAYS),
        [CONTRACT_ID] = true,
        [CONTRACT_FLAGS] = (contract->flags & ~(uint32_t)FLAGS_OF_CONTRACT) == 0,
    };
    for (uint32_t i = 0; i < CONTRACT_FIELDS; i++) {
        if (!good[i]) {
            return i + 1;
        }
    }
    return 0;
}

/* Sets the limits; says whether both stay within the interest bounds. The floor comes only after that. */
static bool set_opening_limits(Line *line, Millionths width_share)
{
    int64_t between = line->interest.upper.steps - line->interest.lower.steps;
    int64_t half = floor_division(width_share.millionths * between, 2 * MILLION);
    line->limits.upper.steps = line->centre.steps + half;
    line->limits.lower.steps = line->centre.steps - half;
    bool inside = line->limits.upper.steps <= line->interest.upper.steps
        && line->limits.lower.steps >= line->interest.lower.steps;
    apply_floor(line);
    return inside;
}

/* Opens one line from a contract in range, checking 7, 8 and 9 in their order. */
static Refusal open_line(Line *line, const Contract *contract, const Keys *keys, Millionths shift_share)
{
    Billionths exponent = corridor_exponent(corridor_rate(keys, contract->days_left), contract->days_left);
    if (exponent.billionths > EXPONENT_CAP) {
        return REFUSED_EXPONENT;
    }
    Billionths up_factor = corridor_up_factor(exponent);
    *line = (Line){
        .id = contract->id,
        .permits_negative = (contract->flags & FLAG_PERMITS_NEGATIVE) != 0,
        .watched = (contract->flags & FLAG_WATCHED) != 0,
        .centre = contract->settlement,
        .up_factor = up_factor,
        .down_factor = corridor_down_factor(up_factor),
    };
    Steps normal = normal_price(contract->spot, contract->least_price);
    for (int level = 0; level < LEVELS; level++) {
        line->half_width[level] = half_width_at(normal, contract->rate[level]);
    }
    line->half_move.steps = floor_division(shift_share.millionths * line->half_width[0].steps, 2 * MILLION);
    if (line->half_move.steps < 1) {
        return REFUSED_HALF_MOVE;
    }
    set_interest_bounds(line);
    return set_opening_limits(line, contract->width_share) ? NOT_REFUSED : REFUSED_LIMITS;
}

/* Checks a contract of good fields with 6 to 9 and puts it on the session's next line. */
static Refusal add_line(Session *session, const Contract *contract, const Keys *keys, Millionths shift_share)
{
    if (contract->id == 0 || line_number(session, contract->id) != 0) {
        return REFUSED_ID;
    }
    Refusal reason = open_line(&session->lines[session->line_count], contract, keys, shift_share);
    if (reason == NOT_REFUSED) {
        session->line_count++;
        session->line_in_slot[find_slot(session, contract->id)] = (uint8_t)session->line_count;
    }
    return reason;
}

static void end_holds(Session *session, Side side)
{
    for (uint32_t i = 0; i < session->line_count; i++) {
        session->due[side][i] = NEVER;
    }
}

static void start_session(Session *session, const uint8_t *header)
{
    session->clock = (Seconds){0};
    session->earliest_due = NEVER;
    session->session_end = (Seconds){field(header, HEADER_SESSION_END)};
    session->hold = (Seconds){field(header, HEADER_HOLD)};
    session->most_shifts = field(header, HEADER_MOST_SHIFTS);
    session->near_share = (Millionths){field(header, HEADER_NEAR_SHARE)};
    session->shifts_made = 0;
    session->line_count = 0;
    memset(session->line_in_slot, 0, sizeof session->line_in_slot);
}

static TableAnswer table_refused(Refusal reason, uint32_t line)
{
    return (TableAnswer){.kind = REFUSED, .reason = reason, .line = line};
}

static TableAnswer contract_refused(uint32_t line, uint32_t bad_field)
{
    return (TableAnswer){.kind = REFUSED, .reason = REFUSED_CONTRACT, .line = line, .field = bad_field};
}

TableAnswer corridor_open(const uint8_t *table, size_t length, Session *session)
{
    if (length < HEADER_BYTES) {
        return table_refused(REFUSED_LENGTH_OR_OFFSETS, 0);
    }
    if (field(table, HEADER_EDITION) != 1) {
        return table_refused(REFUSED_EDITION, 0);
    }
    if (!header_in_range(table)) {
        return table_refused(REFUSED_HEADER, 0);
    }
    if (!length_and_offsets_fit(table, length)) {
        return table_refused(REFUSED_LENGTH_OR_OFFSETS, 0);
    }
    Keys keys;
    uint32_t bad_key = read_keys(table + HEADER_BYTES, field(table, HEADER_KEY_COUNT), &keys);
    if (bad_key != 0) {
        return table_refused(REFUSED_KEY, bad_key);
    }

    start_session(session, table);
    const uint8_t *contracts = table + HEADER_BYTES + (size_t)keys.count * KEY_BYTES;
    Millionths shift_share = {field(table, HEADER_SHIFT_SHARE)};
    for (uint32_t line = 1; line <= field(table, HEADER_CONTRACT_COUNT); line++) {
        Contract contract = read_contract(contracts + (size_t)(line - 1) * CONTRACT_BYTES);
        uint32_t bad_field = field_at_fault(&contract);
        if (bad_field != 0) {
            return contract_refused(line, bad_field);
        }
        Refusal reason = add_line(session, &contract, &keys, shift_share);
        if (reason != NOT_REFUSED) {
            return table_refused(reason, line);
        }
    }
    end_holds(session, SIDE_UP);
    end_holds(session, SIDE_DOWN);
    return (TableAnswer){.kind = ACCEPTED};
}

/* ---- Pressure and holds ---- */

/* Limits are under 3 x 10^9 and prices at most 2 x 10^9 away from zero: the products below stay under 10^16. */
static bool presses_up(const Line *line, int64_t zone)
{
    return line->watched && line->has_bid && (line->limits.upper.steps - line->bid.steps) * MILLION < zone;
}

static bool presses_down(const Line *line, int64_t zone)
{
    return line->watched && line->has_ask && !line->lower_frozen
        && (line->ask.steps - line->limits.lower.steps) * MILLION < zone;
}

/* METHOD 14.2. What is kept of a hold is its due second, so that a hold goes on by being left alone. */
static void judge_hold(Session *session, Seconds *due, bool presses, Seconds now)
{
    if (!presses) {
        *due = NEVER;
    } else if (due->seconds == NEVER.seconds) {
        due->seconds = now.seconds + session->hold.seconds;
        if (due->seconds < session->earliest_due.seconds) {
            session->earliest_due = *due;
        }
    }
}

/* Judges both sides of a line. The zone is the near share of the width, in millionths of a step. */
static void judge(Session *session, uint32_t index, Seconds now)
{
    const Line *line = &session->lines[index];
    int64_t zone = session->near_share.millionths * (line->limits.upper.steps - line->limits.lower.steps);
    judge_hold(session, &session->due[SIDE_UP][index], presses_up(line, zone), now);
    judge_hold(session, &session->due[SIDE_DOWN][index], presses_down(line, zone), now);
}

typedef struct {
    Seconds due;
    Side side;
    uint32_t index;
} Hold;

/* The hold that METHOD 15.2 serves next. Holds are looked at in the order that decides where several are due at
   once, so that another one is taken only where it is due strictly sooner. */
static Hold first_hold(const Session *session)
{
    Hold first = {NEVER, SIDE_UP, 0};
    for (int side = SIDE_UP; side <= SIDE_DOWN; side++) {
        for (uint32_t i = 0; i < session->line_count; i++) {
            if (session->due[side][i].seconds < first.due.seconds) {
                first = (Hold){session->due[side][i], (Side)side, i};
            }
        }
    }
    return first;
}

/* ---- Shifts ---- */

static void shift_line(Line *line, Side side)
{
    Bounds before = line->interest;
    line->centre.steps += side == SIDE_UP ? line->half_move.steps : -line->half_move.steps;
    for (int level = 0; level < LEVELS; level++) {
        line->half_width[level].steps += line->half_move.steps;
    }
    set_interest_bounds(line);
    if (side == SIDE_UP) {
        line->limits.upper.steps += line->interest.upper.steps - before.upper.steps;
    } else {
        line->limits.lower.steps -= before.lower.steps - line->interest.lower.steps;
        apply_floor(line);
    }
}

/* Shifts every line at the second at which the hold fell due, then judges pressure from that second. */
static void make_shift(Session *session, Hold hold)
{
    for (uint32_t i = 0; i < session->line_count; i++) {
        shift_line(&session->lines[i], hold.side);
    }
    session->shifts_made++;
    end_holds(session, hold.side);
    if (session->shifts_made == session->most_shifts) {
        end_holds(session, SIDE_UP);
        end_holds(session, SIDE_DOWN);
        return;
    }
    for (uint32_t i = 0; i < session->line_count; i++) {
        judge(session, i, hold.due);
    }
}

/* Each shift can start and end holds, so the first one due is looked for anew after every shift. */
static void serve_due_holds(Session *session, Seconds now, EventAnswer *answer)
{
    for (;;) {
        Hold hold = first_hold(session);
        session->earliest_due = hold.due;
        if (hold.due.seconds > now.seconds || hold.due.seconds >= session->session_end.seconds) {
            return;
        }
        make_shift(session, hold);
        answer->shifts[answer->shift_count] = (Shift){hold.due, hold.side, session->lines[hold.index].id};
        answer->shift_count++;
    }
}

/* ---- Events ---- */

typedef struct {
    Seconds time;
    uint32_t id;
    uint32_t flags;
    Steps bid;
    Steps ask;
} Event;

static Event read_event(const uint8_t *bytes)
{
    return (Event){
        .time = {field(bytes, EVENT_TIME)},
        .id = field(bytes, EVENT_ID),
        .flags = field(bytes, EVENT_FLAGS),
        .bid = {signed_field(bytes, EVENT_BID)},
        .ask = {signed_field(bytes, EVENT_ASK)},
    };
}

static bool price_in_range(Steps price)
{
    return within(price.steps, -MOST_QUOTE_PRICE, MOST_QUOTE_PRICE);
}

/* What 12, 15 and 16 refuse. A price that is absent is 0 where 16 is come to, and so in range. */
static Refusal check_form(const Event *event)
{
    if (event->flags == FLAG_TICK) {
        return event->id == 0 && event->bid.steps == 0 && event->ask.steps == 0 ? NOT_REFUSED : REFUSED_EVENT_FORM;
    }
    if ((event->flags & ~(uint32_t)FLAGS_OF_QUOTE) != 0) {
        return REFUSED_EVENT_FORM;
    }
    bool has_bid = (event->flags & FLAG_BID) != 0;
    bool has_ask = (event->flags & FLAG_ASK) != 0;
    if ((!has_bid && event->bid.steps != 0) || (!has_ask && event->ask.steps != 0)) {
        return REFUSED_ABSENT_PRICE;
    }
    return price_in_range(event->bid) && price_in_range(event->ask) ? NOT_REFUSED : REFUSED_PRICE_RANGE;
}

static Refusal check_time(const Session *session, Seconds time)
{
    if (time.seconds > session->session_end.seconds) {
        return REFUSED_AFTER_END;
    }
    return time.seconds < session->clock.seconds ? REFUSED_BEFORE_CLOCK : NOT_REFUSED;
}

/* The line is the quote's, 0 where its id is unknown. */
static Refusal check_quote(const Event *event, uint32_t line)
{
    if (line == 0) {
        return REFUSED_UNKNOWN_ID;
    }
    return event->flags == FLAGS_OF_QUOTE && event->bid.steps > event->ask.steps ? REFUSED_CROSSED : NOT_REFUSED;
}

static void apply_quote(Session *session, const Event *event, uint32_t index)
{
    Line *line = &session->lines[index];
    line->has_bid = (event->flags & FLAG_BID) != 0;
    line->has_ask = (event->flags & FLAG_ASK) != 0;
    line->bid = event->bid;
    line->ask = event->ask;
    if (session->shifts_made < session->most_shifts) {
        judge(session, index, event->time);
    }
}

static void refuse_event(EventAnswer *answer, Refusal reason)
{
    answer->kind = REFUSED;
    answer->reason = reason;
}

/* The refusals come in the order of METHOD 20, 12, 15, 16, 10, 11, 13, 14, and all before the session is touched. */
void corridor_event(Session *session, const uint8_t *bytes, size_t length, EventAnswer *answer)
{
    if (length != EVENT_BYTES) {
        refuse_event(answer, REFUSED_EVENT_FORM);
        return;
    }
    Event event = read_event(bytes);
    bool tick = event.flags == FLAG_TICK;
    uint32_t line = 0;
    Refusal reason = check_form(&event);
    if (reason == NOT_REFUSED) {
        reason = check_time(session, event.time);
    }
    if (reason == NOT_REFUSED && !tick) {
        line = line_number(session, event.id);
        reason = check_quote(&event, line);
    }
    if (reason != NOT_REFUSED) {
        refuse_event(answer, reason);
        return;
    }

    answer->kind = ACCEPTED;
    answer->shift_count = 0;
    if (event.time.seconds >= session->earliest_due.seconds) {
        serve_due_holds(session, event.time, answer);
    }
    if (!tick) {
        apply_quote(session, &event, line - 1);
    }
    session->clock = event.time;
}

/* ---- Questions ---- */

BoundsAnswer corridor_limits(const Session *session, uint32_t id)
{
    uint32_t line = line_number(session, id);
    if (line == 0) {
        return (BoundsAnswer){.kind = REFUSED, .reason = REFUSED_UNKNOWN_ID};
    }
    return (BoundsAnswer){.kind = ACCEPTED, .bounds = session->lines[line - 1].limits};
}

BoundsAnswer corridor_interest_bounds(const Session *session, uint32_t id)
{
    uint32_t line = line_number(session, id);
    if (line == 0) {
        return (BoundsAnswer){.kind = REFUSED, .reason = REFUSED_UNKNOWN_ID};
    }
    return (BoundsAnswer){.kind = ACCEPTED, .bounds = session->lines[line - 1].interest};
}

Place corridor_place(const Session *session, uint32_t id, Steps price)
{
    BoundsAnswer limits = corridor_limits(session, id);
    if (limits.kind == REFUSED) {
        return PLACE_UNKNOWN_ID;
    }
    if (price.steps < limits.bounds.lower.steps) {
        return PLACE_BELOW;
    }
    return price.steps > limits.bounds.upper.steps ? PLACE_ABOVE : PLACE_INSIDE;
}
