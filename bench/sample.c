/*
 * sample.c: the inputs of the benchmark.
 */
#include "sample.h"

#include "draft.h"
#include "random.h"

#include <string.h>

enum {
    SESSION_SECONDS = 172800,
    HOLD_SECONDS = 60,
    PRICE = 100000,
    TICK_PERCENT = 10,
    PRESSING_PERCENT = 5,
    /* In so many stretches of the session the first contract presses long enough for a shift. Fewer than the
       most shifts, so that holds exist to the end. */
    STRETCHES = 8
};

/* The contracts have 0, 1, 2 .. times so many days left. */
static size_t write_table(TableDraft *draft, uint32_t key_count, uint32_t contract_count, uint32_t days_apart, uint8_t *bytes)
{
    const uint32_t header[HEADER_FIELDS] = {[HEADER_SESSION_END] = SESSION_SECONDS, [HEADER_HOLD] = HOLD_SECONDS,
                                            [HEADER_MOST_SHIFTS] = 16, [HEADER_NEAR_SHARE] = 50000,
                                            [HEADER_SHIFT_SHARE] = 500000};
    memcpy(draft->header, header, sizeof header);
    for (uint32_t i = 0; i < contract_count; i++) {
        const uint32_t contract[CONTRACT_FIELDS] = {PRICE, PRICE, 1, 100000, 200000, 300000, 500000, days_apart * i, i + 1,
                                                    FLAG_WATCHED};
        memcpy(draft->contracts[i], contract, sizeof contract);
    }
    draft_counts(draft, key_count, contract_count);
    return draft_write_table(draft, bytes);
}

size_t sample_table(uint8_t *bytes, uint32_t contract_count)
{
    TableDraft draft = {.keys = {{30, 80000}, {365, 100000}}};
    return write_table(&draft, 2, contract_count, 30, bytes);
}

/* A rate of 35,000 for a fifth of a year is an exponent of 7 thousandths. */
size_t sample_opening(uint8_t *bytes, uint32_t contract_count, bool whole)
{
    TableDraft draft = {.keys = {{365, whole ? 35000 : 35001}}};
    return write_table(&draft, 1, contract_count, 365 / 5, bytes);
}

/* A price far beyond the limit presses however often the limit has moved. */
static EventDraft pressing_quote(uint32_t time, uint32_t id, bool up)
{
    return up ? draft_bid(time, id, 10 * PRICE) : draft_ask(time, id, -10 * PRICE);
}

/* Mostly quotes inside the corridor. In a stretch all quotes of the first contract press, up or down by turns. */
static EventDraft make_event(Random *random, uint32_t time, uint32_t contract_count)
{
    uint32_t stretch = time / (SESSION_SECONDS / STRETCHES);
    bool stretched = time % (SESSION_SECONDS / STRETCHES) < HOLD_SECONDS + HOLD_SECONDS / 2;
    if (chance(random, TICK_PERCENT)) {
        return draft_tick(time);
    }
    uint32_t id = count_between(random, 1, contract_count);
    if (stretched && id == 1) {
        return pressing_quote(time, id, stretch % 2 == 0);
    }
    if (chance(random, PRESSING_PERCENT)) {
        return pressing_quote(time, id, chance(random, 50));
    }
    int64_t bid = PRICE - between(random, 1, 400);
    return draft_quote(time, id, bid, PRICE + between(random, 0, 400));
}

void sample_events(uint8_t *bytes, uint32_t contract_count)
{
    Random random = {contract_count};
    for (uint32_t i = 0; i < EVENTS; i++) {
        uint32_t time = (uint32_t)((uint64_t)i * SESSION_SECONDS / EVENTS);
        EventDraft event = make_event(&random, time, contract_count);
        draft_write_event(&event, bytes + (size_t)i * EVENT_BYTES);
    }
}
