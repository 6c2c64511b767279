/*
 * draft.h: tables and events as plain fields, good or bad, and their bytes. Figures and generator build
 * their inputs with it.
 */
#ifndef DRAFT_H
#define DRAFT_H

#include "corridor.h"
#include "layout.h"

/* The counts are of what is written; the header's own counts may say otherwise. */
typedef struct {
    uint32_t key_count;
    uint32_t contract_count;
    uint32_t header[HEADER_FIELDS];
    uint32_t keys[MOST_KEYS][KEY_FIELDS];
    uint32_t contracts[MOST_LINES][CONTRACT_FIELDS];
} TableDraft;

typedef struct { uint32_t fields[EVENT_FIELDS]; } EventDraft;

/* Sets the edition, the header's counts and the offsets that belong to them. */
void draft_layout(TableDraft *draft, uint32_t key_count, uint32_t contract_count);

/* Sets the counts of what is written and the header to match. */
void draft_counts(TableDraft *draft, uint32_t key_count, uint32_t contract_count);

/* The price in a signed field. */
Steps draft_price(uint32_t field);

size_t draft_write_table(const TableDraft *draft, uint8_t *bytes);
size_t draft_write_event(const EventDraft *event, uint8_t *bytes);
uint32_t draft_read_field(const uint8_t *bytes, size_t number);
void draft_read_contract(const uint8_t *bytes, uint32_t contract[CONTRACT_FIELDS]);
EventDraft draft_read_event(const uint8_t *bytes);

EventDraft draft_tick(uint32_t time);
EventDraft draft_empty(uint32_t time, uint32_t id);
EventDraft draft_bid(uint32_t time, uint32_t id, int64_t bid);
EventDraft draft_ask(uint32_t time, uint32_t id, int64_t ask);
EventDraft draft_quote(uint32_t time, uint32_t id, int64_t bid, int64_t ask);

#endif
