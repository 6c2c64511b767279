/*
 * draft.c: turns drafted fields into the bytes of METHOD 2, and back.
 */
#include "draft.h"

static size_t write_fields(const uint32_t *fields, size_t count, uint8_t *bytes)
{
    for (size_t i = 0; i < count; i++) {
        for (size_t byte = 0; byte < 4; byte++) {
            bytes[4 * i + byte] = (uint8_t)(fields[i] >> (8 * byte) & 0xff);
        }
    }
    return 4 * count;
}

void draft_layout(TableDraft *draft, uint32_t key_count, uint32_t contract_count)
{
    draft->header[HEADER_EDITION] = 1;
    draft->header[HEADER_KEY_COUNT] = key_count;
    draft->header[HEADER_KEYS_OFFSET] = HEADER_BYTES;
    draft->header[HEADER_CONTRACT_COUNT] = contract_count;
    draft->header[HEADER_CONTRACTS_OFFSET] = HEADER_BYTES + key_count * KEY_BYTES;
}

void draft_counts(TableDraft *draft, uint32_t key_count, uint32_t contract_count)
{
    draft->key_count = key_count;
    draft->contract_count = contract_count;
    draft_layout(draft, key_count, contract_count);
}

Steps draft_price(uint32_t field)
{
    return (Steps){field <= INT32_MAX ? (int64_t)field : (int64_t)field - ((int64_t)UINT32_MAX + 1)};
}

size_t draft_write_table(const TableDraft *draft, uint8_t *bytes)
{
    size_t length = write_fields(draft->header, HEADER_FIELDS, bytes);
    for (uint32_t i = 0; i < draft->key_count; i++) {
        length += write_fields(draft->keys[i], KEY_FIELDS, bytes + length);
    }
    for (uint32_t i = 0; i < draft->contract_count; i++) {
        length += write_fields(draft->contracts[i], CONTRACT_FIELDS, bytes + length);
    }
    return length;
}

size_t draft_write_event(const EventDraft *event, uint8_t *bytes)
{
    return write_fields(event->fields, EVENT_FIELDS, bytes);
}

uint32_t draft_read_field(const uint8_t *bytes, size_t number)
{
    const uint8_t *start = bytes + 4 * number;
    return (uint32_t)start[0] | (uint32_t)start[1] << 8 | (uint32_t)start[2] << 16 | (uint32_t)start[3] << 24;
}

static void read_fields(const uint8_t *bytes, uint32_t *fields, size_t count)
{
    for (size_t i = 0; i < count; i++) {
        fields[i] = draft_read_field(bytes, i);
    }
}

void draft_read_contract(const uint8_t *bytes, uint32_t contract[CONTRACT_FIELDS])
{
    read_fields(bytes, contract, CONTRACT_FIELDS);
}

EventDraft draft_read_event(const uint8_t *bytes)
{
    EventDraft event;
    read_fields(bytes, event.fields, EVENT_FIELDS);
    return event;
}

EventDraft draft_tick(uint32_t time)
{
    return (EventDraft){{time, 0, FLAG_TICK, 0, 0}};
}

EventDraft draft_empty(uint32_t time, uint32_t id)
{
    return (EventDraft){{time, id, 0, 0, 0}};
}

EventDraft draft_bid(uint32_t time, uint32_t id, int64_t bid)
{
    return (EventDraft){{time, id, FLAG_BID, (uint32_t)bid, 0}};
}

EventDraft draft_ask(uint32_t time, uint32_t id, int64_t ask)
{
    return (EventDraft){{time, id, FLAG_ASK, 0, (uint32_t)ask}};
}

EventDraft draft_quote(uint32_t time, uint32_t id, int64_t bid, int64_t ask)
{
    return (EventDraft){{time, id, FLAGS_OF_QUOTE, (uint32_t)bid, (uint32_t)ask}};
}
