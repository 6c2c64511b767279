/*
 * faults.c: puts right what was refused, one fault after another.
 */
#include "faults.h"

#include "draft.h"

#include <string.h>

/* ---- Contracts ---- */

size_t faults_line_alone(const Input *input, uint32_t line, uint8_t table[LONGEST_TABLE])
{
    size_t contracts = draft_read_field(input->table, HEADER_CONTRACTS_OFFSET);
    memcpy(table, input->table, contracts);
    memcpy(table + contracts, input->table + contracts + (line - 1) * CONTRACT_BYTES, CONTRACT_BYTES);
    table[4 * HEADER_CONTRACT_COUNT] = 1;
    return contracts + CONTRACT_BYTES;
}

/* All fields up to the one named get values that are good whatever the later ones are, one field after another: a rate that
   only falls is good once the one before it is, and a later rate is then held to it as it stands. */
bool faults_later_field(const Input *input, const TableAnswer *answer)
{
    static const uint8_t good[CONTRACT_ID] = {1, 0, 1, 1, 1, 1, 0, 0};
    uint8_t table[LONGEST_TABLE];
    Session session;
    bool later = false;
    size_t length = faults_line_alone(input, answer->line, table);
    for (uint32_t i = 0; i < answer->field && i < CONTRACT_ID; i++) {
        memcpy(table + length - CONTRACT_BYTES + 4 * i, (const uint8_t[4]){good[i]}, 4);
        TableAnswer left = corridor_open(table, length, &session);
        later = later || (left.kind == REFUSED && left.reason == REFUSED_CONTRACT && left.field > answer->field);
    }
    return later;
}

/* ---- Events ---- */

/* The price nearest to it that is in range. */
static uint32_t price_in_range(uint32_t price)
{
    int64_t steps = draft_price(price).steps;
    return (uint32_t)(steps > MOST_QUOTE_PRICE ? MOST_QUOTE_PRICE : steps < -MOST_QUOTE_PRICE ? -MOST_QUOTE_PRICE : steps);
}

static EventDraft with_good_form(EventDraft event)
{
    if (event.fields[EVENT_FLAGS] == FLAG_TICK) {
        return draft_tick(event.fields[EVENT_TIME]);
    }
    event.fields[EVENT_FLAGS] &= FLAGS_OF_QUOTE;
    return event;
}

static EventDraft with_absent_prices(EventDraft event)
{
    event.fields[EVENT_BID] = (event.fields[EVENT_FLAGS] & FLAG_BID) != 0 ? event.fields[EVENT_BID] : 0;
    event.fields[EVENT_ASK] = (event.fields[EVENT_FLAGS] & FLAG_ASK) != 0 ? event.fields[EVENT_ASK] : 0;
    return event;
}

static EventDraft with_prices_in_range(EventDraft event)
{
    event.fields[EVENT_BID] = price_in_range(event.fields[EVENT_BID]);
    event.fields[EVENT_ASK] = price_in_range(event.fields[EVENT_ASK]);
    return event;
}

static EventDraft put_right(const Session *session, EventDraft event, Refusal reason)
{
    switch (reason) {
    case REFUSED_EVENT_FORM: return with_good_form(event);
    case REFUSED_ABSENT_PRICE: return with_absent_prices(event);
    case REFUSED_PRICE_RANGE: return with_prices_in_range(event);
    case REFUSED_AFTER_END: event.fields[EVENT_TIME] = session->session_end.seconds; break;
    case REFUSED_BEFORE_CLOCK: event.fields[EVENT_TIME] = session->clock.seconds; break;
    case REFUSED_UNKNOWN_ID: event.fields[EVENT_ID] = session->lines[0].id; break;
    default: event.fields[EVENT_ASK] = event.fields[EVENT_BID]; break;
    }
    return event;
}

int faults_of_event(Session session, const uint8_t bytes[EVENT_BYTES], Refusal got, Refusal others[EVENT_REFUSALS])
{
    EventDraft event = put_right(&session, draft_read_event(bytes), got);
    /* Only of a wrong engine could there be more than there are numbers. */
    for (int count = 0; count < EVENT_REFUSALS; count++) {
        uint8_t righted[EVENT_BYTES];
        EventAnswer answer;
        draft_write_event(&event, righted);
        corridor_event(&session, righted, EVENT_BYTES, &answer);
        if (answer.kind == ACCEPTED) {
            return count;
        }
        others[count] = answer.reason;
        event = put_right(&session, event, answer.reason);
    }
    return EVENT_REFUSALS;
}
