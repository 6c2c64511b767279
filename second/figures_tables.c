/*
 * figures_tables.c: the refusals of a table, 1 to 9: the ranges of its fields from both sides, the field that refusal 5
 * names, the ids, and the order. DECISIONS A4, A6, A7 and A12.
 */
#include "figures.h"

#include "checks.h"
#include "sample.h"

#include <inttypes.h>
#include <stdio.h>
#include <string.h>

static void figures_of_header(void)
{
    static const struct { uint32_t field; uint32_t least; uint32_t most; } ranges[] = {
        {HEADER_CONTRACT_COUNT, 1, 32}, {HEADER_KEY_COUNT, 1, 16}, {HEADER_SESSION_END, 1, 172800},
        {HEADER_HOLD, 1, 3600}, {HEADER_MOST_SHIFTS, 0, 16}, {HEADER_NEAR_SHARE, 1, 500000},
        {HEADER_SHIFT_SHARE, 1, 1000000},
    };
    uint8_t bytes[LONGEST_TABLE];
    for (size_t i = 0; i < sizeof ranges / sizeof ranges[0]; i++) {
        /* The header alone: a value in range goes on to the length, refusal 1; any other is refusal 3. */
        const uint32_t least = ranges[i].least;
        const uint32_t most = ranges[i].most;
        const uint32_t values[] = {least, most, least - 1, most + 1, UINT32_MAX};
        for (size_t k = 0; k < sizeof values / sizeof values[0]; k++) {
            TableDraft draft = sample();
            draft.header[ranges[i].field] = values[k];
            draft_write_table(&draft, bytes);
            check_text("header range", whole_text(bytes, HEADER_BYTES).text, k < 2 ? "T 1 0\n" : "T 3 0\n");
        }
    }
    TableDraft draft = sample();
    draft.header[HEADER_KEYS_OFFSET] = 41;
    check_table_refused("offset of keys", &draft, REFUSED_LENGTH_OR_OFFSETS, 0);
    draft = sample();
    draft.header[HEADER_CONTRACTS_OFFSET] = 47;
    check_table_refused("offset of contracts", &draft, REFUSED_LENGTH_OR_OFFSETS, 0);
    draft = sample();
    draft.header[HEADER_EDITION] = 2;
    check_table_refused("edition 2", &draft, REFUSED_EDITION, 0);
}

static void figures_of_keys(void)
{
    static const struct { uint32_t days; uint32_t rate; bool good; } seconds[] = {
        {31, 0, true}, {3650, 1000000, true}, {30, 0, false}, {29, 0, false}, {0, 0, false}, {3651, 0, false},
        {UINT32_MAX, 0, false}, {31, 1000001, false}, {31, UINT32_MAX, false},
    };
    for (size_t i = 0; i < sizeof seconds / sizeof seconds[0]; i++) {
        TableDraft draft = sample();
        draft_counts(&draft, 2, 1);
        draft.keys[0][KEY_DAYS] = 30;
        draft.keys[1][KEY_DAYS] = seconds[i].days;
        draft.keys[1][KEY_RATE] = seconds[i].rate;
        draft.contracts[0][CONTRACT_DAYS_LEFT] = 30;
        if (seconds[i].good) {
            check_table_opens("second key", &draft);
        } else {
            check_table_refused("second key", &draft, REFUSED_KEY, 2);
        }
    }
    TableDraft draft = sample();
    draft.keys[0][KEY_DAYS] = 0;
    draft.contracts[0][CONTRACT_ID] = 0;
    check_table_refused("keys come before contracts", &draft, REFUSED_KEY, 1);
}

/* Contract 8 of the sample of two, at the ends of its ranges and beyond, with the field that is then at fault. */
static void figures_of_contracts(void)
{
    static const struct { uint32_t field; uint32_t good; uint32_t bad; uint32_t at_fault; } edges[] = {
        {CONTRACT_SETTLEMENT, 1, 0, 1}, {CONTRACT_SETTLEMENT, 2, (uint32_t)-1, 1},
        {CONTRACT_SETTLEMENT, 100000000, 100000001, 1}, {CONTRACT_SETTLEMENT, 99999999, INT32_MAX, 1},
        {CONTRACT_SPOT, 100000000, 100000001, 2}, {CONTRACT_SPOT, (uint32_t)-100000000, (uint32_t)-100000001, 2},
        {CONTRACT_SPOT, 99999999, UINT32_C(0x80000000), 2}, {CONTRACT_LEAST_PRICE, 1, 0, 3},
        {CONTRACT_LEAST_PRICE, 100000000, 100000001, 3}, {CONTRACT_LEAST_PRICE, 2, UINT32_MAX, 3},
        {CONTRACT_RATE_1, 100000, 0, 4}, {CONTRACT_RATE_1, 200000, 200001, 5}, {CONTRACT_RATE_1, 20000, UINT32_MAX, 4},
        {CONTRACT_RATE_2, 100000, 99999, 5}, {CONTRACT_RATE_2, 300000, 300001, 6}, {CONTRACT_RATE_2, 100001, 0, 5},
        {CONTRACT_RATE_2, 250000, 1000001, 5}, {CONTRACT_RATE_2, 200001, UINT32_MAX, 5},
        {CONTRACT_RATE_3, 200000, 199999, 6}, {CONTRACT_RATE_3, 1000000, 1000001, 6}, {CONTRACT_RATE_3, 200001, 0, 6},
        {CONTRACT_RATE_3, 999999, UINT32_MAX, 6}, {CONTRACT_WIDTH_SHARE, 1000000, 1000001, 7},
        {CONTRACT_WIDTH_SHARE, 0, UINT32_MAX, 7}, {CONTRACT_DAYS_LEFT, 3650, 3651, 8},
        {CONTRACT_DAYS_LEFT, 0, UINT32_MAX, 8}, {CONTRACT_FLAGS, 3, 4, 10}, {CONTRACT_FLAGS, 0, 0x80000002, 10},
    };
    for (size_t i = 0; i < sizeof edges / sizeof edges[0]; i++) {
        TableDraft draft = sample_of_two();
        draft.contracts[1][edges[i].field] = edges[i].good;
        check_table_opens("contract edge", &draft);
        draft.contracts[1][edges[i].field] = edges[i].bad;
        check_field_refused("contract edge", &draft, 2, edges[i].at_fault);
    }
    TableDraft draft = sample_of_two();
    draft.contracts[0][CONTRACT_SETTLEMENT] = (uint32_t)-100000000;
    draft.contracts[0][CONTRACT_FLAGS] = 3;
    check_table_opens("lowest settlement", &draft);
    draft.contracts[0][CONTRACT_SETTLEMENT] = (uint32_t)-100000001;
    check_field_refused("below the lowest settlement", &draft, 1, 1);
}

/* A table of one contract, with a field at fault or, where that is 0, with none. */
static void check_at_fault(const char *name, const TableDraft *draft, uint32_t field)
{
    if (field == 0) {
        check_table_opens(name, draft);
    } else {
        check_field_refused(name, draft, 1, field);
    }
}

/* The three rates of a contract whose half-move is at least 1 with any of them. */
static void check_rates(const char *name, uint32_t first, uint32_t second, uint32_t third, uint32_t at_fault)
{
    TableDraft draft = sample();
    const uint32_t rates[] = {first, second, third};
    memcpy(&draft.contracts[0][CONTRACT_RATE_1], rates, sizeof rates);
    draft.contracts[0][CONTRACT_SPOT] = 100000000;
    check_at_fault(name, &draft, at_fault);
}

static void figures_of_level_rates(void)
{
    check_rates("least rates", 1, 1, 1, 0);
    check_rates("first rate 0", 0, 1, 1, 4);
    check_rates("all rates 0", 0, 0, 0, 4);
    check_rates("second rate 0", 1, 0, 1, 5);
    check_rates("third rate 0", 1, 1, 0, 6);
    check_rates("greatest rates", 1000000, 1000000, 1000000, 0);
    check_rates("first rate above", 1000001, 1000000, 1000000, 4);
    check_rates("all rates above", 1000001, 1000001, 1000001, 4);
    check_rates("second rate above", 1000000, 1000001, 1000000, 5);
    check_rates("second and third rate above", 1000000, 1000001, 1000001, 5);
    check_rates("third rate above", 1000000, 1000000, 1000001, 6);
    check_rates("second rate falls", 300000, 299999, 300000, 5);
    check_rates("third rate falls", 300000, 300000, 299999, 6);
    check_rates("both rates fall", 300000, 200000, 100000, 5);
    check_rates("second rate falls, third under the first", 300000, 200000, 250000, 5);
}

static void check_price_and_flags(const char *name, int32_t settlement, uint32_t flags, uint32_t at_fault)
{
    TableDraft draft = sample();
    draft.contracts[0][CONTRACT_SETTLEMENT] = (uint32_t)settlement;
    draft.contracts[0][CONTRACT_FLAGS] = flags;
    check_at_fault(name, &draft, at_fault);
}

/* Whether a price under 1 is at fault hangs on bit 0 alone, also where other bits of the flags are at fault. */
static void figures_of_price_and_flags(void)
{
    check_price_and_flags("price -5, negative permitted", -5, 3, 0);
    check_price_and_flags("price -5, negative permitted, no watch", -5, 1, 0);
    check_price_and_flags("price -5, negative not permitted", -5, 2, 1);
    check_price_and_flags("price -5, no flags", -5, 0, 1);
    check_price_and_flags("price -5, bits 0 and 2", -5, 5, 10);
    check_price_and_flags("price 0, bit 2", 0, 4, 1);
    check_price_and_flags("price 0, bits 0 and 2", 0, 5, 10);
    check_price_and_flags("price 1, bit 2", 1, 4, 10);
    check_price_and_flags("price 0, all bits but 0", 0, UINT32_MAX - 1, 1);
    check_price_and_flags("price 0, all bits", 0, UINT32_MAX, 10);
    check_price_and_flags("lowest price, all bits", -100000000, UINT32_MAX, 10);
    check_price_and_flags("below the lowest price, all bits", -100000001, UINT32_MAX, 1);
    for (int bit = 2; bit < 32; bit++) {
        check_price_and_flags("a flag bit that has to be zero", 1000, FLAG_WATCHED | UINT32_C(1) << bit, 10);
    }
}

typedef struct { uint32_t field; uint32_t bad; } Fault;

/* A contract's fields, each out of its range whatever the others are, where bit 0 of the flags is clear. */
static const Fault FAULTS[] = {
    {CONTRACT_SETTLEMENT, 0}, {CONTRACT_SETTLEMENT, 100000001}, {CONTRACT_SETTLEMENT, (uint32_t)-100000001},
    {CONTRACT_SPOT, 100000001}, {CONTRACT_SPOT, (uint32_t)-100000001}, {CONTRACT_LEAST_PRICE, 0},
    {CONTRACT_LEAST_PRICE, 100000001}, {CONTRACT_RATE_1, 0}, {CONTRACT_RATE_1, 1000001}, {CONTRACT_RATE_2, 0},
    {CONTRACT_RATE_2, 1000001}, {CONTRACT_RATE_3, 0}, {CONTRACT_RATE_3, 1000001}, {CONTRACT_WIDTH_SHARE, 1000001},
    {CONTRACT_WIDTH_SHARE, UINT32_MAX}, {CONTRACT_DAYS_LEFT, 3651}, {CONTRACT_DAYS_LEFT, UINT32_MAX},
    {CONTRACT_FLAGS, 4}, {CONTRACT_FLAGS, UINT32_C(0x80000000)},
};

/* The line's id is 0 too, which is looked at after its fields. */
static void check_two_faults(Fault lower, Fault higher)
{
    char name[64];
    TableDraft draft = sample_of_two();
    draft.contracts[1][CONTRACT_ID] = 0;
    draft.contracts[1][lower.field] = lower.bad;
    draft.contracts[1][higher.field] = higher.bad;
    snprintf(name, sizeof name, "fields %" PRIu32 " and %" PRIu32 " at fault", lower.field + 1, higher.field + 1);
    check_field_refused(name, &draft, 2, lower.field + 1);
}

/* Every two faults of one line. */
static void figures_of_two_faults(void)
{
    const size_t faults = sizeof FAULTS / sizeof FAULTS[0];
    for (size_t i = 0; i < faults; i++) {
        for (size_t k = i + 1; k < faults; k++) {
            if (FAULTS[i].field != FAULTS[k].field) {
                check_two_faults(FAULTS[i], FAULTS[k]);
            }
        }
    }
}

/* All nine fields at fault, and the id 0. They are put right one after another, and the answer goes on to the next. */
static void figures_of_all_faults(void)
{
    TableDraft draft = sample_of_two();
    uint32_t *contract = draft.contracts[1];
    for (size_t i = 0; i < sizeof FAULTS / sizeof FAULTS[0]; i++) {
        contract[FAULTS[i].field] = FAULTS[i].bad;
    }
    contract[CONTRACT_ID] = 0;
    for (uint32_t field = 0; field < CONTRACT_FIELDS; field++) {
        if (field != CONTRACT_ID) {
            check_field_refused("all fields from here on at fault", &draft, 2, field + 1);
            contract[field] = draft.contracts[0][field];
        }
    }
    check_table_refused("no field but the id at fault", &draft, REFUSED_ID, 2);
}

static void figures_of_ids(void)
{
    TableDraft draft = sample_of_two();
    draft.contracts[1][CONTRACT_ID] = 7;
    check_table_refused("id used before", &draft, REFUSED_ID, 2);
    draft.contracts[1][CONTRACT_ID] = 0;
    check_table_refused("id 0", &draft, REFUSED_ID, 2);
    draft.contracts[0][CONTRACT_ID] = UINT32_MAX;
    draft.contracts[1][CONTRACT_ID] = 1;
    check_table_opens("largest id", &draft);

    /* Each line is gone through with 5 to 9 before the next: 9 on line 1 comes before 5 on line 2. */
    draft = sample_of_two();
    draft.keys[0][KEY_RATE] = 100000;
    draft.contracts[0][CONTRACT_DAYS_LEFT] = 365;
    draft.contracts[0][CONTRACT_WIDTH_SHARE] = 1000000;
    draft.contracts[1][CONTRACT_FLAGS] = 4;
    check_table_refused("line by line", &draft, REFUSED_LIMITS, 1);
    draft.header[HEADER_SHIFT_SHARE] = 1;
    check_table_refused("8 before 9", &draft, REFUSED_HALF_MOVE, 1);
    draft.contracts[0][CONTRACT_DAYS_LEFT] = 3650;
    check_table_refused("7 before 8", &draft, REFUSED_EXPONENT, 1);
    draft.contracts[0][CONTRACT_ID] = 0;
    check_table_refused("6 before 7", &draft, REFUSED_ID, 1);
    draft.contracts[0][CONTRACT_LEAST_PRICE] = 0;
    check_field_refused("5 before 6", &draft, 1, 3);
}

/* Many ids that crowd together must all be found, each on its own line, and no id beside them. */
static void figures_of_many_ids(void)
{
    TableDraft draft = sample();
    EventDraft events[2 * MOST_LINES];
    Text refusals = {""};
    draft.contracts[0][CONTRACT_ID] = 1;
    for (uint32_t i = 1; i < MOST_LINES; i++) {
        add_contract(&draft, 1 + 65536 * i)[CONTRACT_SETTLEMENT] = 1000 + i;
    }
    for (uint32_t i = 0; i < MOST_LINES; i++) {
        uint32_t id = 1 + 65536 * i;
        events[2 * i] = draft_empty(0, id);
        events[2 * i + 1] = draft_empty(0, id + 1);
        add_to(&refusals, "R 13\n");
    }
    Course course = started(&draft);
    check_events("ids in events", &course, refusals.text, events, 2 * MOST_LINES);
    for (uint32_t i = 0; i < MOST_LINES; i++) {
        uint32_t id = 1 + 65536 * i;
        check_limits("id found", &course, id, 950 + i, 1050 + i);
        check_number("id not found", corridor_limits(&course.session, id + 1).kind, REFUSED);
    }
}

/* By the engine itself: in a whole input a byte more would belong to an event. */
static void check_length_refused(const char *name, const uint8_t *table, size_t length)
{
    Session session;
    TableAnswer answer = corridor_open(table, length, &session);
    check_number(name, answer.kind, REFUSED);
    check_number(name, answer.reason, REFUSED_LENGTH_OR_OFFSETS);
    check_number(name, answer.line, 0);
}

static void readings_of_table_order(void)
{
    uint8_t bytes[LONGEST_TABLE];
    TableDraft draft = sample();
    draft.header[HEADER_SESSION_END] = 0;
    draft_write_table(&draft, bytes);
    check_text("A4 44 bytes, end 0", whole_text(bytes, 44).text, "T 3 0\n");
    draft.header[HEADER_EDITION] = 9;
    draft_write_table(&draft, bytes);
    check_text("A4 39 bytes, edition 9", whole_text(bytes, 39).text, "T 1 0\n");
    check_text("A4 45 bytes, edition 9", whole_text(bytes, 45).text, "T 2 0\n");
    check_text("no bytes", whole_text(bytes, 0).text, "T 1 0\n");
    memcpy(bytes, SAMPLE_TABLE, sizeof SAMPLE_TABLE);
    bytes[sizeof SAMPLE_TABLE] = 0;
    check_length_refused("A12 one byte more", bytes, sizeof SAMPLE_TABLE + 1);
    check_length_refused("one byte less", bytes, sizeof SAMPLE_TABLE - 1);
}

static void readings_of_fields(void)
{
    check_price_and_flags("A6 flags 4 and price -5", -5, 4, 1);
    check_rates("A6 first rate above, then lower ones", 2000000, 500000, 600000, 4);
    check_rates("A6 third rate falls", 300000, 400000, 350000, 6);
    check_rates("A6 second rate above, third falls", 5, 2000000, 3, 5);

    TableDraft draft = sample();
    for (uint32_t id = 8; id <= 26; id++) {
        add_contract(&draft, id);
    }
    draft.contracts[18][CONTRACT_WIDTH_SHARE] = 1000001;
    check_program("A7 the field after the line", &draft, 0, "T 5 19 7\n", NULL, 0);
    draft.contracts[18][CONTRACT_WIDTH_SHARE] = 500000;
    draft.contracts[18][CONTRACT_ID] = 7;
    check_program("A7 no field with another number", &draft, 0, "T 6 19\n", NULL, 0);
}

void table_figures(void)
{
    figures_of_header();
    figures_of_keys();
    figures_of_contracts();
    figures_of_level_rates();
    figures_of_price_and_flags();
    figures_of_two_faults();
    figures_of_all_faults();
    figures_of_ids();
    figures_of_many_ids();
    readings_of_table_order();
    readings_of_fields();
}
