/*
 * sample.c: the fields of the tables, and the figures beside them.
 */
#include "sample.h"

#include <string.h>

TableDraft sample(void)
{
    TableDraft draft = {
        .header = {[HEADER_SESSION_END] = 1000, [HEADER_HOLD] = 60, [HEADER_MOST_SHIFTS] = 2,
                   [HEADER_NEAR_SHARE] = 50000, [HEADER_SHIFT_SHARE] = 500000},
        .keys = {{365, 0}},
        .contracts = {{1000, 1000, 1, 100000, 200000, 300000, 500000, 90, 7, FLAG_WATCHED}},
    };
    draft_counts(&draft, 1, 1);
    return draft;
}

const uint8_t SAMPLE_TABLE[SAMPLE_BYTES] = {
    1, 0, 0, 0, 1, 0, 0, 0, 48, 0, 0, 0, 1, 0, 0, 0, 40, 0, 0, 0,
    0xe8, 3, 0, 0, 60, 0, 0, 0, 2, 0, 0, 0, 0x50, 0xc3, 0, 0, 0x20, 0xa1, 7, 0,
    0x6d, 1, 0, 0, 0, 0, 0, 0,
    0xe8, 3, 0, 0, 0xe8, 3, 0, 0, 1, 0, 0, 0, 0xa0, 0x86, 1, 0, 0x40, 0x0d, 3, 0,
    0xe0, 0x93, 4, 0, 0x20, 0xa1, 7, 0, 90, 0, 0, 0, 7, 0, 0, 0, 2, 0, 0, 0,
};

uint32_t *add_contract(TableDraft *draft, uint32_t id)
{
    uint32_t *contract = draft->contracts[draft->contract_count];
    memcpy(contract, draft->contracts[0], sizeof draft->contracts[0]);
    contract[CONTRACT_ID] = id;
    draft_counts(draft, draft->key_count, draft->contract_count + 1);
    return contract;
}

TableDraft sample_of_two(void)
{
    TableDraft draft = sample();
    add_contract(&draft, 8);
    draft.header[HEADER_MOST_SHIFTS] = 16;
    return draft;
}

TableDraft sample_with_growth(int32_t settlement, uint32_t half_width, uint32_t width_share, uint32_t flags)
{
    TableDraft draft = sample();
    draft.keys[0][KEY_RATE] = 100000;
    draft.contracts[0][CONTRACT_SETTLEMENT] = (uint32_t)settlement;
    draft.contracts[0][CONTRACT_SPOT] = 10 * half_width;
    draft.contracts[0][CONTRACT_WIDTH_SHARE] = width_share;
    draft.contracts[0][CONTRACT_DAYS_LEFT] = 365;
    draft.contracts[0][CONTRACT_FLAGS] = flags;
    return draft;
}

TableDraft sample_with_keys(uint32_t days, uint32_t rate, uint32_t second_days, uint32_t second_rate, uint32_t days_left)
{
    TableDraft draft = sample();
    const uint32_t keys[][KEY_FIELDS] = {{days, rate}, {second_days, second_rate}};
    draft_counts(&draft, second_days == 0 ? 1 : 2, 1);
    memcpy(draft.keys, keys, sizeof keys);
    draft.contracts[0][CONTRACT_DAYS_LEFT] = days_left;
    return draft;
}

TableDraft sample_near_floor(void)
{
    TableDraft draft = sample_with_growth(30, 30, 900000, FLAG_WATCHED);
    draft.keys[0][KEY_RATE] = 0;
    return draft;
}

/*
 * The normal price is 1,051 in all of them: by the spot's size, in the last by the least price. In millionths
 *
 *   1,051 x   100,000 =   105,100,000   106 steps
 *   1,051 x   226,451 =   238,000,001   239, one millionth over 238
 *   1,051 x   773,549 =   812,999,999   813, one millionth under
 *   1,051 x 1,000,000 = 1,051,000,000   1,051, nothing to round
 *
 * so that neither the floor, nor the nearest step, nor one step above the floor gives them all. The half-move is
 * a quarter of the first half-width, rounded down: 26 of 106, 59 of 239. A shift moves the centre by it and adds
 * it to each half-width. The limits lie a quarter of the level 1 width, rounded down, from P: 53 of 212, 119 of
 * 478. The limit that a shift moves, it moves by twice the half-move, since there is no growth.
 */
const LevelFigure LEVEL_FIGURE[LEVEL_FIGURES] = {
    {"levels, positive spot", {1000, 1051, 1, 100000, 226451, 773549, 500000, 90, 7, FLAG_WATCHED},
     {1000, {106, 239, 813}}, {{10, 7, FLAG_BID, 1053, 0}},
     {1026, {132, 265, 839}}, "70 U 7\n7 947 1105 894 1158\n"},
    {"levels, negative spot", {1000, (uint32_t)-1051, 1, 100000, 226451, 773549, 500000, 90, 7, FLAG_WATCHED},
     {1000, {106, 239, 813}}, {{10, 7, FLAG_ASK, 0, 947}},
     {974, {132, 265, 839}}, "70 D 7\n7 895 1053 842 1106\n"},
    {"levels, negative price and spot",
     {(uint32_t)-1000, (uint32_t)-1051, 1, 100000, 226451, 773549, 500000, 90, 7, FLAG_WATCHED | FLAG_PERMITS_NEGATIVE},
     {-1000, {106, 239, 813}}, {{10, 7, FLAG_BID, (uint32_t)-947, 0}},
     {-974, {132, 265, 839}}, "70 U 7\n7 -1053 -895 -1106 -842\n"},
    {"levels, least price", {1000, (uint32_t)-1050, 1051, 226451, 773549, 1000000, 500000, 90, 7, FLAG_WATCHED},
     {1000, {239, 813, 1051}}, {{10, 7, FLAG_ASK, 0, 881}},
     {941, {298, 872, 1110}}, "70 D 7\n7 763 1119 643 1239\n"},
};

TableDraft sample_of_levels(const LevelFigure *figure)
{
    TableDraft draft = sample();
    memcpy(draft.contracts[0], figure->contract, sizeof figure->contract);
    return draft;
}
