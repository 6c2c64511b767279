/*
 * generate.c: makes inputs worth comparing. It follows each session with the engine, so that quotes land
 * on the border of pressure and times on due seconds, one second to either side of them, and on the
 * session end.
 */
#include "generate.h"

#include "draft.h"
#include "edges.h"
#include "input.h"
#include "outer.h"
#include "random.h"
#include "thousandths.h"

#include <string.h>

static const int64_t MOST_SESSION_SECONDS = 172800;
static const int64_t MOST_NEAR_SHARE = 500000;
static const int64_t MILLION = 1000000;
static const int64_t MOST_TABLE_PRICE = 100000000;
static const int64_t MOST_DAYS = 3650;

/* ---- Numbers ---- */

static int64_t clamp(int64_t value, int64_t least, int64_t most)
{
    return value < least ? least : value > most ? most : value;
}

static int64_t size_of(int64_t value)
{
    return value < 0 ? -value : value;
}

/* A field around the ends of what 32 bits hold, signed or not, or anything. */
static uint32_t wild(Random *random)
{
    static const uint32_t ends[] = {0, INT32_MAX, UINT32_MAX};
    uint32_t end = ends[between(random, 0, 2)];
    return chance(random, 50) ? end + count_between(random, 0, 2) : (uint32_t)draw(random);
}

/* A field on the wrong side of its range, mostly by one. Now and then it happens to be in range. */
static uint32_t outside(Random *random, int64_t least, int64_t most)
{
    switch (between(random, 0, 4)) {
    case 0:
    case 1: return (uint32_t)(least - 1);
    case 2:
    case 3: return (uint32_t)(most + 1);
    default: return wild(random);
    }
}

/* A field in its range, often at one of its ends. */
static uint32_t inside(Random *random, int64_t least, int64_t most)
{
    switch (between(random, 0, 3)) {
    case 0: return (uint32_t)least;
    case 1: return (uint32_t)most;
    default: return (uint32_t)between(random, least, most);
    }
}

/* ---- Good tables ---- */

static void make_times(Random *random, uint32_t *header)
{
    static const int64_t longest_hold[] = {1, 10, 10, 60, 60, 60, 600, 3600};
    int64_t hold = between(random, 1, longest_hold[between(random, 0, 7)]);
    int64_t end = hold * between(random, 3, 100);
    end += between(random, -1, 1);
    if (chance(random, 6)) {
        end = inside(random, 1, MOST_SESSION_SECONDS);
    }
    header[HEADER_HOLD] = (uint32_t)hold;
    header[HEADER_SESSION_END] = (uint32_t)clamp(end, 1, MOST_SESSION_SECONDS);
}

static void make_shares(Random *random, uint32_t *header)
{
    header[HEADER_MOST_SHIFTS] = chance(random, 50) ? MOST_SHIFTS : count_between(random, 0, MOST_SHIFTS);
    header[HEADER_NEAR_SHARE] = chance(random, 30) ? 50000 : inside(random, 1, MOST_NEAR_SHARE);
    header[HEADER_SHIFT_SHARE] = (uint32_t)between(random, 20000, MILLION);
    if (chance(random, 15)) {
        header[HEADER_SHIFT_SHARE] = inside(random, 1, MILLION);
    }
}

static void make_keys(Random *random, TableDraft *draft, uint32_t key_count)
{
    int64_t most_rate = chance(random, 80) ? 200000 : MILLION;
    bool no_rates = chance(random, 15);
    int64_t days = 0;
    for (uint32_t i = 0; i < key_count; i++) {
        /* Each key leaves a day for each of the keys after it. */
        int64_t last = MOST_DAYS - (key_count - 1 - i);
        days = between(random, days + 1, chance(random, 90) ? clamp(days + 120, 1, last) : last);
        draft->keys[i][KEY_DAYS] = (uint32_t)days;
        draft->keys[i][KEY_RATE] = no_rates ? 0 : (uint32_t)between(random, 0, most_rate);
    }
}

/* Prices of every kind: near the floor, around zero, ordinary, negative, and at the ends of the range. */
static void make_prices(Random *random, uint32_t *contract)
{
    static const struct { int64_t least; int64_t most; } scales[] = {
        {1, 60}, {1, 300}, {-30, 30}, {500, 5000}, {500, 200000}, {-5000, -1},
        {99999990, 100000000}, {-100000000, -99999990},
    };
    int64_t scale = between(random, 0, 7);
    int64_t settlement = between(random, scales[scale].least, scales[scale].most);
    int64_t reach = size_of(settlement) / 10 + 5;
    int64_t spot = settlement + between(random, -reach, reach);
    if (chance(random, 15)) {
        spot = -spot;
    }
    int64_t least_price = chance(random, 60) ? 1 : between(random, 1, size_of(settlement) + 10);
    bool permits_negative = settlement < 1 || chance(random, 30);
    bool watched = chance(random, 88);
    contract[CONTRACT_SETTLEMENT] = (uint32_t)settlement;
    contract[CONTRACT_SPOT] = (uint32_t)clamp(spot, -MOST_TABLE_PRICE, MOST_TABLE_PRICE);
    contract[CONTRACT_LEAST_PRICE] = (uint32_t)clamp(least_price, 1, MOST_TABLE_PRICE);
    contract[CONTRACT_FLAGS] = (permits_negative ? FLAG_PERMITS_NEGATIVE : 0u) | (watched ? FLAG_WATCHED : 0u);
}

static void make_rates(Random *random, uint32_t *contract)
{
    uint32_t most = chance(random, 80) ? 400000 : 1000000;
    uint32_t least = chance(random, 80) ? 10000 : 1;
    contract[CONTRACT_RATE_1] = count_between(random, least, most);
    contract[CONTRACT_RATE_2] = count_between(random, contract[CONTRACT_RATE_1], 1000000);
    contract[CONTRACT_RATE_3] = count_between(random, contract[CONTRACT_RATE_2], 1000000);
}

static void take_days_of_key(Random *random, const TableDraft *draft, uint32_t *contract)
{
    contract[CONTRACT_DAYS_LEFT] = draft->keys[between(random, 0, draft->key_count - 1)][KEY_DAYS];
}

static void make_width_and_days(Random *random, const TableDraft *draft, uint32_t *contract)
{
    bool ordinary = chance(random, 50);
    contract[CONTRACT_WIDTH_SHARE] = ordinary ? count_between(random, 300000, 600000) : inside(random, 0, MILLION);
    switch (between(random, 0, 4)) {
    case 0: contract[CONTRACT_DAYS_LEFT] = inside(random, 0, MOST_DAYS); break;
    case 1: take_days_of_key(random, draft, contract); break;
    default: contract[CONTRACT_DAYS_LEFT] = count_between(random, 0, 400); break;
    }
}

/* How the engine takes the contract alone, under the header and the keys of the draft, and its session then. */
static Refusal open_contract(const TableDraft *draft, uint32_t index, Session *session)
{
    TableDraft alone = *draft;
    uint8_t bytes[LONGEST_TABLE];
    memcpy(alone.contracts[0], draft->contracts[index], sizeof alone.contracts[0]);
    draft_counts(&alone, draft->key_count, 1);
    TableAnswer answer = corridor_open(bytes, draft_write_table(&alone, bytes), session);
    return answer.kind == REFUSED ? answer.reason : NOT_REFUSED;
}

static Refusal refusal_of_contract(const TableDraft *draft, uint32_t index)
{
    Session session;
    return open_contract(draft, index, &session);
}

static void widen(uint32_t *contract)
{
    if (contract[CONTRACT_LEAST_PRICE] < MOST_TABLE_PRICE) {
        int64_t wider = (int64_t)contract[CONTRACT_LEAST_PRICE] * 10;
        contract[CONTRACT_LEAST_PRICE] = (uint32_t)clamp(wider, 1, MOST_TABLE_PRICE);
        return;
    }
    contract[CONTRACT_RATE_1] = 1000000;
    contract[CONTRACT_RATE_2] = 1000000;
    contract[CONTRACT_RATE_3] = 1000000;
}

/* Changes a contract until the engine takes it: fewer days, a wider half-width, a narrower corridor. */
static void mend_contract(TableDraft *draft, uint32_t index)
{
    uint32_t *contract = draft->contracts[index];
    for (;;) {
        switch (refusal_of_contract(draft, index)) {
        case REFUSED_EXPONENT: contract[CONTRACT_DAYS_LEFT] /= 2; break;
        case REFUSED_HALF_MOVE: widen(contract); break;
        case REFUSED_LIMITS: contract[CONTRACT_WIDTH_SHARE] -= contract[CONTRACT_WIDTH_SHARE] / 8 + 1; break;
        default: return;
        }
    }
}

/* How far the market bound nearer to zero lies from it: at zero or a step beside it, as far as some shifts carry it, or
   anywhere on their way. A shift moves a market bound by twice the half-move. */
static int64_t make_inner_bound(Random *random, Steps half_move)
{
    int64_t way = 2 * half_move.steps * between(random, 1, 4);
    switch (between(random, 0, 2)) {
    case 0: return between(random, -1, 1);
    case 1: return way + between(random, -1, 1);
    default: return between(random, 0, way);
    }
}

static void set_price(Random *random, uint32_t *contract, int64_t price)
{
    int64_t settlement = clamp(price, -MOST_TABLE_PRICE, MOST_TABLE_PRICE);
    contract[CONTRACT_SETTLEMENT] = (uint32_t)settlement;
    contract[CONTRACT_FLAGS] |= settlement < 1 || chance(random, 30) ? FLAG_PERMITS_NEGATIVE : 0u;
}

/* A price whose market bounds differ in sign. */
static void bring_around_zero(Random *random, uint32_t *contract, Steps half_width)
{
    set_price(random, contract, chance(random, 15) ? 0 : between(random, -half_width.steps, half_width.steps));
}

/* Gives a contract another price, so near to zero that its market bounds differ in sign, or that shifts may bring it
   about. Spot and least price stay, and with them the half-width. A contract with a fault that mending leaves is left too. */
static void bring_near_zero(Random *random, TableDraft *draft, uint32_t index)
{
    uint32_t *contract = draft->contracts[index];
    Session session;
    mend_contract(draft, index);
    if (open_contract(draft, index, &session) != NOT_REFUSED) {
        return;
    }
    const Line *line = &session.lines[0];
    if (chance(random, 60)) {
        int64_t price = line->half_width[0].steps + make_inner_bound(random, line->half_move);
        set_price(random, contract, chance(random, 50) ? price : -price);
        return;
    }
    bring_around_zero(random, contract, line->half_width[0]);
    if (chance(random, 50)) {
        /* So wide a corridor that whether it is refused with 9 may hang on the factors. One that is refused is mended
           by and by; damage_limits leaves some. */
        contract[CONTRACT_WIDTH_SHARE] = count_between(random, 700000, 1000000);
    }
}

/* Gives a contract another price, so that one of its market bounds is a small one whose interest bound is another by the
   series alone, or that so many shifts would carry it there. Spot and least price stay. A contract without growth is left,
   and one with a fault that mending leaves. */
static void bring_beyond_series(Random *random, TableDraft *draft, uint32_t index, int64_t shifts)
{
    uint32_t *contract = draft->contracts[index];
    Session session;
    mend_contract(draft, index);
    if (open_contract(draft, index, &session) != NOT_REFUSED || !outer_has(&session.lines[0])) {
        return;
    }
    const Line *line = &session.lines[0];
    bool takes_up_factor = chance(random, 50);
    int64_t from = between(random, 1, MOST_SMALL_DISTANCE - DISTANCES_TRIED);
    int64_t distance = outer_telling_distance(line, takes_up_factor, from);
    int64_t way = 2 * line->half_move.steps * shifts;
    if (distance == 0) {
        return;
    }
    /* Shifts carry away from zero what takes the up factor, and toward it what takes the down factor. */
    int64_t price = takes_up_factor ? distance - way - line->half_width[0].steps
                                    : distance + way + line->half_width[0].steps;
    set_price(random, contract, chance(random, 50) ? price : -price);
}

static bool id_used(const TableDraft *draft, uint32_t lines, uint32_t id)
{
    for (uint32_t i = 0; i < lines; i++) {
        if (draft->contracts[i][CONTRACT_ID] == id) {
            return true;
        }
    }
    return false;
}

static void make_ids(Random *random, TableDraft *draft, uint32_t contract_count)
{
    uint32_t most = chance(random, 70) ? 99 : UINT32_MAX;
    for (uint32_t i = 0; i < contract_count; i++) {
        uint32_t id = count_between(random, 1, most);
        while (id_used(draft, i, id)) {
            id = count_between(random, 1, most);
        }
        draft->contracts[i][CONTRACT_ID] = id;
    }
}

static uint32_t make_contract_count(Random *random)
{
    if (chance(random, 80)) {
        return count_between(random, 1, 5);
    }
    return chance(random, 90) ? count_between(random, 6, MOST_LINES) : MOST_LINES;
}

static void set_rates_of_keys(TableDraft *draft, uint32_t rate)
{
    for (uint32_t i = 0; i < draft->key_count; i++) {
        draft->keys[i][KEY_RATE] = rate;
    }
}

/* Takes the greatest numbers of all: price, half-width, growth, shift and pressure, so that shifts of one
   side lead the bounds beyond 32 bits. */
static void make_greatest(TableDraft *draft)
{
    draft->header[HEADER_MOST_SHIFTS] = MOST_SHIFTS;
    draft->header[HEADER_NEAR_SHARE] = (uint32_t)MOST_NEAR_SHARE;
    draft->header[HEADER_SHIFT_SHARE] = (uint32_t)MILLION;
    set_rates_of_keys(draft, 500000);
    for (uint32_t i = 0; i < draft->contract_count; i++) {
        uint32_t *contract = draft->contracts[i];
        bool negative = draft_price(contract[CONTRACT_SETTLEMENT]).steps < 0;
        contract[CONTRACT_SETTLEMENT] = (uint32_t)(negative ? -MOST_TABLE_PRICE : MOST_TABLE_PRICE);
        contract[CONTRACT_LEAST_PRICE] = (uint32_t)MOST_TABLE_PRICE;
        contract[CONTRACT_RATE_1] = contract[CONTRACT_RATE_2] = contract[CONTRACT_RATE_3] = (uint32_t)MILLION;
        contract[CONTRACT_DAYS_LEFT] = 365;
        mend_contract(draft, i);
    }
}

static TableDraft make_table(Random *random)
{
    static const int64_t near_zero_percents[] = {0, 30, 30, 100};
    TableDraft draft = {0};
    int64_t near_zero_percent = near_zero_percents[between(random, 0, 3)];
    bool at_thousandths = chance(random, 20);
    uint32_t key_count = count_between(random, 1, chance(random, 85) ? 4 : MOST_KEYS);
    uint32_t contract_count = make_contract_count(random);
    draft_counts(&draft, key_count, contract_count);
    make_times(random, draft.header);
    make_shares(random, draft.header);
    if (at_thousandths) {
        thousandths_draw_keys(random, &draft);
    } else {
        make_keys(random, &draft, key_count);
    }
    make_ids(random, &draft, contract_count);
    for (uint32_t i = 0; i < contract_count; i++) {
        make_prices(random, draft.contracts[i]);
        make_rates(random, draft.contracts[i]);
        make_width_and_days(random, &draft, draft.contracts[i]);
        if (at_thousandths && chance(random, 80)) {
            take_days_of_key(random, &draft, draft.contracts[i]);
        }
        if (chance(random, near_zero_percent)) {
            bring_near_zero(random, &draft, i);
        } else if (chance(random, 15)) {
            bring_beyond_series(random, &draft, i, chance(random, 50) ? 0 : between(random, 1, 4));
        }
        mend_contract(&draft, i);
    }
    if (chance(random, 10)) {
        make_greatest(&draft);
    }
    return draft;
}

/* ---- Damaged tables ---- */

static uint32_t *any_contract(Random *random, TableDraft *draft)
{
    return draft->contracts[between(random, 0, draft->contract_count - 1)];
}

static void damage_offsets(Random *random, TableDraft *draft)
{
    uint32_t field = chance(random, 50) ? HEADER_KEYS_OFFSET : HEADER_CONTRACTS_OFFSET;
    switch (between(random, 0, 3)) {
    case 0: draft->header[field] += 1; break;
    case 1: draft->header[field] -= 4; break;
    case 2: draft->header[field] = wild(random); break;
    default:
        draft->header[HEADER_KEYS_OFFSET] = HEADER_BYTES + draft->contract_count * CONTRACT_BYTES;
        draft->header[HEADER_CONTRACTS_OFFSET] = HEADER_BYTES;
        break;
    }
}

static void damage_edition(Random *random, TableDraft *draft)
{
    draft->header[HEADER_EDITION] = outside(random, 1, 1);
}

static void damage_header(Random *random, TableDraft *draft)
{
    static const struct { uint32_t field; int64_t least; int64_t most; } ranges[] = {
        {HEADER_CONTRACT_COUNT, 1, MOST_LINES}, {HEADER_KEY_COUNT, 1, MOST_KEYS}, {HEADER_SESSION_END, 1, 172800},
        {HEADER_HOLD, 1, 3600}, {HEADER_MOST_SHIFTS, 0, MOST_SHIFTS}, {HEADER_NEAR_SHARE, 1, 500000},
        {HEADER_SHIFT_SHARE, 1, 1000000},
    };
    int64_t which = between(random, 0, 6);
    uint32_t *field = &draft->header[ranges[which].field];
    if (which < 2 && chance(random, 30)) {
        /* 2^29 keys or contracts more: in 32 bits the length of the table comes out the same. */
        *field += UINT32_C(0x20000000) * count_between(random, 1, 7);
    } else {
        *field = outside(random, ranges[which].least, ranges[which].most);
    }
}

static void damage_key(Random *random, TableDraft *draft)
{
    uint32_t line = count_between(random, 0, draft->key_count - 1);
    switch (between(random, 0, 3)) {
    case 0: draft->keys[line][KEY_RATE] = outside(random, 0, MILLION); break;
    case 1: draft->keys[line][KEY_DAYS] = outside(random, 1, MOST_DAYS); break;
    case 2: draft->keys[line][KEY_DAYS] = line == 0 ? 0 : draft->keys[line - 1][KEY_DAYS]; break;
    default: draft->keys[line][KEY_DAYS] = line == 0 ? 0 : draft->keys[line - 1][KEY_DAYS] - 1; break;
    }
}

static uint32_t any_edge_of(Random *random, uint32_t field)
{
    uint32_t edge = count_between(random, 0, EDGES - 1);
    while (EDGE[edge].field != field) {
        edge = count_between(random, 0, EDGES - 1);
    }
    return edge;
}

/* Gives a contract the last good value at an edge of a rate, and lets it open with it if it can. Rates hardly ever come there
   by themselves, but for the three greatest together; other fields do. */
static void bring_rate_to_edge(Random *random, TableDraft *draft, uint32_t index)
{
    uint32_t edge = any_edge_of(random, count_between(random, CONTRACT_RATE_1, CONTRACT_RATE_3));
    edge_put(draft->contracts[index], &EDGE[edge], true);
    mend_contract(draft, index);
}

/* Two fields of a contract a step beyond their edges, the first of them any but the flags, which come last. */
static void damage_two_fields(Random *random, uint32_t *contract)
{
    uint32_t first = any_edge_of(random, count_between(random, CONTRACT_SETTLEMENT, CONTRACT_DAYS_LEFT));
    uint32_t later = first;
    while (EDGE[later].field == EDGE[first].field) {
        later = count_between(random, first, EDGES - 1);
    }
    edge_put(contract, &EDGE[first], false);
    edge_put(contract, &EDGE[later], false);
}

static void damage_one_field(Random *random, uint32_t *contract)
{
    uint32_t field = count_between(random, CONTRACT_SETTLEMENT, CONTRACT_ID);
    uint32_t edge = any_edge_of(random, field == CONTRACT_ID ? CONTRACT_FLAGS : field);
    edge_put(contract, &EDGE[edge], false);
}

static void damage_contract(Random *random, TableDraft *draft)
{
    uint32_t index = count_between(random, 0, draft->contract_count - 1);
    int64_t kind = between(random, 0, 99);
    if (kind < 25) {
        bring_rate_to_edge(random, draft, index);
    } else if (kind < 60) {
        damage_one_field(random, draft->contracts[index]);
    } else {
        damage_two_fields(random, draft->contracts[index]);
    }
}

static void damage_id(Random *random, TableDraft *draft)
{
    uint32_t id = chance(random, 40) ? 0 : any_contract(random, draft)[CONTRACT_ID];
    uint32_t last = draft->contract_count - 1;
    draft->contracts[last == 0 ? 0 : count_between(random, 1, last)][CONTRACT_ID] = last == 0 ? 0 : id;
}

/* The product of rate and days meets the cap at 182,500,000: it is set there or a little over. The first pair
   makes the least product over it that there is. */
static void damage_exponent(Random *random, TableDraft *draft)
{
    static const struct { uint32_t rate; uint32_t days; } caps[] = {
        {106043, 1721}, {50000, 3650}, {500000, 365}, {250000, 730}, {1000000, 182},
    };
    int64_t which = between(random, 0, 4);
    uint32_t *contract = any_contract(random, draft);
    set_rates_of_keys(draft, caps[which].rate);
    contract[CONTRACT_DAYS_LEFT] = (uint32_t)clamp(caps[which].days + between(random, 0, 2), 0, MOST_DAYS);
    if (chance(random, 50)) {
        set_rates_of_keys(draft, (uint32_t)clamp(caps[which].rate + between(random, 0, 9), 0, MILLION));
    }
}

/* A half-width on one of the two sides of the first half-move. */
static void damage_half_move(Random *random, TableDraft *draft)
{
    uint32_t *contract = any_contract(random, draft);
    int64_t half_width = between(random, 1, 1000);
    int64_t share = clamp(2 * MILLION / half_width + between(random, -2, 1), 1, MILLION);
    draft->header[HEADER_SHIFT_SHARE] = (uint32_t)share;
    contract[CONTRACT_SPOT] = (uint32_t)half_width;
    contract[CONTRACT_LEAST_PRICE] = 1;
    contract[CONTRACT_RATE_1] = contract[CONTRACT_RATE_2] = contract[CONTRACT_RATE_3] = 1000000;
}

/* Where the limits of a contract leave the interest bounds: the least width share that is refused, or 1,000,001. */
static uint32_t least_refused_share(const TableDraft *draft, uint32_t index)
{
    TableDraft tried = *draft;
    uint32_t good = 0;
    uint32_t bad = 1000001;
    while (bad - good > 1) {
        uint32_t share = good + (bad - good) / 2;
        tried.contracts[index][CONTRACT_WIDTH_SHARE] = share;
        if (refusal_of_contract(&tried, index) == NOT_REFUSED) {
            good = share;
        } else {
            bad = share;
        }
    }
    return bad;
}

/* Grows the width share of one contract to where the limits leave the interest bounds, or farther, or to one less. Most
   have their market bounds around zero. Of the others one is mostly small and has another interest bound by the series alone,
   so that whether the table is refused may hang on that. */
static void damage_limits(Random *random, TableDraft *draft)
{
    uint32_t index = count_between(random, 0, draft->contract_count - 1);
    uint32_t *contract = draft->contracts[index];
    Session session;
    set_rates_of_keys(draft, 100000);
    for (uint32_t i = 0; i < draft->contract_count; i++) {
        draft->contracts[i][CONTRACT_DAYS_LEFT] = count_between(random, 1, 700);
        mend_contract(draft, i);
    }
    bool around_zero = chance(random, 60);
    if (around_zero && open_contract(draft, index, &session) == NOT_REFUSED) {
        bring_around_zero(random, contract, session.lines[0].half_width[0]);
    } else if (!around_zero && chance(random, 75)) {
        bring_beyond_series(random, draft, index, 0);
    }
    uint32_t bad = least_refused_share(draft, index);
    if (bad > MILLION || chance(random, around_zero ? 25 : 50)) {
        contract[CONTRACT_WIDTH_SHARE] = bad - 1;
    } else {
        uint32_t most = around_zero && chance(random, 50) ? 1000000 : (uint32_t)clamp(bad + 3, 0, MILLION);
        contract[CONTRACT_WIDTH_SHARE] = count_between(random, bad, most);
    }
}

static void damage(Random *random, TableDraft *draft, Refusal aim)
{
    switch (aim) {
    case REFUSED_LENGTH_OR_OFFSETS: damage_offsets(random, draft); break;
    case REFUSED_EDITION: damage_edition(random, draft); break;
    case REFUSED_HEADER: damage_header(random, draft); break;
    case REFUSED_KEY: damage_key(random, draft); break;
    case REFUSED_CONTRACT: damage_contract(random, draft); break;
    case REFUSED_ID: damage_id(random, draft); break;
    case REFUSED_EXPONENT: damage_exponent(random, draft); break;
    case REFUSED_HALF_MOVE: damage_half_move(random, draft); break;
    default: damage_limits(random, draft); break;
    }
}

/* ---- Good events ---- */

/* How one input goes on: its session, how often its quotes are about the upper limit and keep on pressing, how
   often its time leaps over as many holds as there can be shifts, how often its events are spoiled, and the latest second
   that the next good event may have. */
typedef struct {
    Random *random;
    Session session;
    int64_t upper_percent;
    int64_t steady_percent;
    int64_t leap_percent;
    int64_t spoiled_percent;
    int64_t latest;
} Course;

static int64_t due_of_some_hold(Course *course)
{
    const Session *session = &course->session;
    bool earliest = chance(course->random, 70);
    uint32_t found = NEVER.seconds;
    for (int side = SIDE_UP; side <= SIDE_DOWN; side++) {
        for (uint32_t i = 0; i < session->line_count; i++) {
            uint32_t due = session->due[side][i].seconds;
            if (due != NEVER.seconds && (found == NEVER.seconds || (earliest && due < found))) {
                found = due;
            }
        }
    }
    return found == NEVER.seconds ? session->clock.seconds + between(course->random, 0, 2) : found;
}

static uint32_t make_time(Course *course)
{
    Random *random = course->random;
    int64_t clock = course->session.clock.seconds;
    int64_t end = course->session.session_end.seconds;
    int64_t hold = course->session.hold.seconds;
    int64_t time = clock;
    int64_t kind = between(random, 0, 999);
    if (chance(random, course->leap_percent)) {
        time = clock + between(random, MOST_SHIFTS * hold - 1, (MOST_SHIFTS + 2) * hold);
    } else if (kind < 150) {
        time = clock + between(random, 1, 2);
    } else if (kind < 400) {
        time = due_of_some_hold(course);
        time += between(random, -1, 1);
    } else if (kind < 450) {
        time = clock + between(random, 0, hold);
    } else if (kind < 480) {
        time = clock + between(random, hold, 4 * hold);
    } else if (kind < 486) {
        time = end - hold + between(random, -1, 1);
    } else if (kind < 490) {
        time = end - between(random, 0, 2);
    }
    time = clamp(time, clock, end);
    return (uint32_t)(time > course->latest ? clock : time);
}

/* How far from its limit a price lies: around the border of pressure, pressing, or anywhere. */
static int64_t make_distance(Course *course, const Line *line, bool pressing)
{
    Random *random = course->random;
    int64_t width = line->limits.upper.steps - line->limits.lower.steps;
    int64_t border = ceiling_division(course->session.near_share.millionths * width, MILLION);
    if (pressing) {
        return between(random, border - width / 20 - 3, border - 1);
    }
    switch (between(random, 0, 5)) {
    case 0:
    case 1: return border + between(random, -2, 1);
    case 2: return between(random, -width - 2, border);
    case 3: return between(random, -1, 1);
    case 4: return border + between(random, 0, width + 5);
    default: return chance(random, 50) ? -MOST_QUOTE_PRICE : between(random, -MOST_QUOTE_PRICE, MOST_QUOTE_PRICE);
    }
}

static int64_t clamp_price(int64_t price)
{
    return clamp(price, -MOST_QUOTE_PRICE, MOST_QUOTE_PRICE);
}

static EventDraft make_quote(Course *course, uint32_t time)
{
    Random *random = course->random;
    const Session *session = &course->session;
    uint32_t index = count_between(random, 0, session->line_count - 1);
    const Line *line = &session->lines[index];
    bool held_up = session->due[SIDE_UP][index].seconds != NEVER.seconds;
    bool held_down = session->due[SIDE_DOWN][index].seconds != NEVER.seconds;
    bool steady = (held_up || held_down) && chance(random, course->steady_percent);
    Side side = chance(random, course->upper_percent) ? SIDE_UP : SIDE_DOWN;
    if (steady) {
        side = held_up ? SIDE_UP : SIDE_DOWN;
    } else if (chance(random, 7)) {
        return draft_empty(time, line->id);
    }
    int64_t distance = make_distance(course, line, steady);
    int64_t gap = chance(random, 30) ? 0 : between(random, 0, line->limits.upper.steps - line->limits.lower.steps + 2);
    bool one_sided = chance(random, 60);
    if (side == SIDE_UP) {
        int64_t bid = clamp_price(line->limits.upper.steps - distance);
        return one_sided ? draft_bid(time, line->id, bid) : draft_quote(time, line->id, bid, clamp_price(bid + gap));
    }
    int64_t ask = clamp_price(line->limits.lower.steps + distance);
    return one_sided ? draft_ask(time, line->id, ask) : draft_quote(time, line->id, clamp_price(ask - gap), ask);
}

static EventDraft make_event(Course *course)
{
    uint32_t time = make_time(course);
    return chance(course->random, 30) ? draft_tick(time) : make_quote(course, time);
}

/* ---- Spoiled events ---- */

static void spoil_form(Random *random, EventDraft *event)
{
    int64_t field = between(random, EVENT_ID, EVENT_ASK);
    switch (between(random, 0, 3)) {
    case 0: event->fields[EVENT_FLAGS] = count_between(random, 5, 9); break;
    case 1: event->fields[EVENT_FLAGS] |= UINT32_C(4) << between(random, 0, 29); break;
    case 2: event->fields[field] = (uint32_t)between(random, -1, 1); break;
    default: event->fields[field] = wild(random); break;
    }
}

/* A price out of range, mostly by one; the ends of 32 bits are there for variety only. */
static uint32_t bad_price(Random *random)
{
    static const uint32_t prices[] = {2000000001, (uint32_t)-2000000001, INT32_MAX, UINT32_C(0x80000000)};
    return prices[between(random, 0, chance(random, 75) ? 1 : 3)];
}

/* A price that its flag says is absent: the one that stood there, or any. */
static void spoil_absence(Random *random, EventDraft *event)
{
    bool bid = chance(random, 50);
    uint32_t *price = &event->fields[bid ? EVENT_BID : EVENT_ASK];
    event->fields[EVENT_FLAGS] &= ~(uint32_t)(bid ? FLAG_BID : FLAG_ASK);
    *price = *price == 0 ? wild(random) : *price;
}

/* A price out of range that its flag says is present. */
static void spoil_range(Random *random, EventDraft *event)
{
    bool bid = chance(random, 50);
    event->fields[EVENT_FLAGS] |= bid ? FLAG_BID : FLAG_ASK;
    event->fields[bid ? EVENT_BID : EVENT_ASK] = bad_price(random);
}

static void spoil_id(Random *random, EventDraft *event)
{
    switch (between(random, 0, 3)) {
    case 0: event->fields[EVENT_ID] = 0; break;
    case 1: event->fields[EVENT_ID] += 1; break;
    case 2: event->fields[EVENT_ID] ^= UINT32_C(1) << between(random, 0, 31); break;
    default: event->fields[EVENT_ID] = (uint32_t)draw(random); break;
    }
}

static void spoil_prices(Random *random, EventDraft *event)
{
    int64_t ask = between(random, -MOST_QUOTE_PRICE, MOST_QUOTE_PRICE - 1000);
    int64_t over = chance(random, 50) ? 1 : between(random, 0, 1000);
    event->fields[EVENT_FLAGS] = FLAGS_OF_QUOTE;
    event->fields[EVENT_BID] = (uint32_t)(ask + over);
    event->fields[EVENT_ASK] = (uint32_t)ask;
}

static void spoil_event(Course *course, EventDraft *event)
{
    Random *random = course->random;
    uint32_t clock = course->session.clock.seconds;
    uint32_t end = course->session.session_end.seconds;
    switch (between(random, REFUSED_AFTER_END, REFUSED_PRICE_RANGE)) {
    case REFUSED_AFTER_END: event->fields[EVENT_TIME] = outside(random, 0, end); break;
    case REFUSED_BEFORE_CLOCK: event->fields[EVENT_TIME] = clock - count_between(random, 1, 1 + clock / 2); break;
    case REFUSED_EVENT_FORM: spoil_form(random, event); break;
    case REFUSED_UNKNOWN_ID: spoil_id(random, event); break;
    case REFUSED_ABSENT_PRICE: spoil_absence(random, event); break;
    case REFUSED_PRICE_RANGE: spoil_range(random, event); break;
    default: spoil_prices(random, event); break;
    }
    /* A second fault at times, so that the order of the refusals shows. */
    if (chance(random, 25)) {
        spoil_event(course, event);
    }
}

/* ---- Whole inputs ---- */

static size_t add_random_bytes(Random *random, uint8_t *bytes, size_t count)
{
    for (size_t i = 0; i < count; i++) {
        bytes[i] = (uint8_t)(draw(random) & 0xff);
    }
    return count;
}

static size_t add_event(Course *course, uint8_t *bytes)
{
    EventAnswer answer;
    size_t length;
    if (chance(course->random, 1)) {
        length = add_random_bytes(course->random, bytes, EVENT_BYTES);
    } else {
        EventDraft event = make_event(course);
        if (chance(course->random, course->spoiled_percent)) {
            spoil_event(course, &event);
        }
        length = draft_write_event(&event, bytes);
    }
    corridor_event(&course->session, bytes, length, &answer);
    return length;
}

static int64_t make_event_count(Random *random)
{
    if (chance(random, 15)) {
        return between(random, 0, 20);
    }
    return chance(random, 75) ? between(random, 50, 150) : between(random, 150, MOST_EVENTS);
}

static void choose_course(Course *course)
{
    static const int64_t upperness[] = {50, 50, 50, 0, 100};
    static const int64_t steadiness[] = {50, 80, 95, 100};
    static const int64_t spoiling[] = {0, 5, 5, 15, 50};
    Random *random = course->random;
    course->upper_percent = upperness[between(random, 0, 4)];
    course->steady_percent = steadiness[between(random, 0, 3)];
    course->leap_percent = chance(random, 20) ? 10 : 0;
    course->spoiled_percent = spoiling[between(random, 0, 4)];
}

static size_t add_events(Course *course, uint8_t *bytes)
{
    Random *random = course->random;
    choose_course(course);
    course->latest = course->session.session_end.seconds;
    size_t length = 0;
    for (int64_t left = make_event_count(random); left > 0; left--) {
        length += add_event(course, bytes + length);
    }
    if (chance(random, 12)) {
        length += add_random_bytes(random, bytes + length, (size_t)between(random, 1, EVENT_BYTES - 1));
    }
    return length;
}

/* Damages the bytes of a written table: some fields replaced, all random, or other counts than written. */
static size_t damage_bytes(Random *random, TableDraft *draft, uint8_t *bytes)
{
    if (chance(random, 25)) {
        return add_random_bytes(random, bytes, (size_t)between(random, 0, 200));
    }
    if (chance(random, 20)) {
        uint32_t other_keys = count_between(random, 1, MOST_KEYS);
        draft_layout(draft, other_keys, count_between(random, 1, MOST_LINES));
    }
    size_t length = draft_write_table(draft, bytes);
    for (int64_t left = between(random, 0, 3); left > 0; left--) {
        int64_t place = between(random, 0, (int64_t)length - 1);
        bytes[place] = (uint8_t)(draw(random) & 0xff);
    }
    return length;
}

/* Writes the table, damaged in about one input out of three. */
static size_t add_table(Random *random, uint8_t *bytes)
{
    TableDraft draft = make_table(random);
    int64_t kind = between(random, 0, 99);
    if (kind < 5) {
        return damage_bytes(random, &draft, bytes);
    }
    if (kind < 20) {
        damage(random, &draft, (Refusal)between(random, REFUSED_LENGTH_OR_OFFSETS, REFUSED_LIMITS));
    } else if (kind < 25) {
        /* Refusal 9 more often than the others, since it hangs on the factors. */
        damage(random, &draft, REFUSED_LIMITS);
    } else if (kind < 35) {
        /* So is refusal 5, since it tells nine fields apart. */
        damage(random, &draft, REFUSED_CONTRACT);
    }
    /* A second damage at times, so that the order of the refusals shows. */
    if (kind < 20 && chance(random, 20)) {
        damage(random, &draft, (Refusal)between(random, REFUSED_LENGTH_OR_OFFSETS, REFUSED_LIMITS));
    }
    return draft_write_table(&draft, bytes);
}

/* Lets the events of an opened table follow; a table that does not open is followed by any bytes. */
static size_t add_rest(Random *random, uint8_t *input, size_t length)
{
    Course course = {.random = random};
    size_t table_length = input_of(input, length).table_length;
    if (corridor_open(input, table_length, &course.session).kind == ACCEPTED) {
        return table_length + add_events(&course, input + table_length);
    }
    return length + add_random_bytes(random, input + length, (size_t)between(random, 0, 3 * EVENT_BYTES));
}

static Random random_of(uint64_t seed, uint64_t number)
{
    Random random = {seed};
    random.state = draw(&random) ^ number;
    random.state = draw(&random);
    return random;
}

size_t generate_input(uint64_t seed, uint64_t number, uint8_t input[LONGEST_INPUT])
{
    Random random = random_of(seed, number);
    size_t table_length = add_table(&random, input);
    size_t length = add_rest(&random, input, table_length);
    /* Some inputs are cut, half of them in the table, where few bytes of a long input lie. */
    if (chance(&random, 3)) {
        return (size_t)between(&random, 0, (int64_t)(chance(&random, 50) ? table_length : length));
    }
    return length;
}

/* After half of the events, say, the clock is not yet beyond half of the session, and it waits where more than half of
   the shifts are made. */
static int64_t latest_in_long_input(const Session *session, int64_t taken)
{
    bool shifts_ahead = session->shifts_made * EVENTS_OF_LONG_INPUT > session->most_shifts * taken;
    return shifts_ahead ? session->clock.seconds : session->session_end.seconds * taken / EVENTS_OF_LONG_INPUT;
}

size_t generate_long_input(uint64_t seed, uint64_t number, uint8_t input[LONGEST_LONG_INPUT])
{
    Random random = random_of(seed, number);
    Course course = {.random = &random};
    TableDraft draft = make_table(&random);
    size_t length = draft_write_table(&draft, input);
    corridor_open(input, length, &course.session);
    choose_course(&course);
    for (int taken = 0; taken < EVENTS_OF_LONG_INPUT; taken++) {
        course.latest = latest_in_long_input(&course.session, taken);
        EventDraft tick = draft_tick(course.session.clock.seconds);
        bool idle = chance(&random, 97);
        length += idle ? draft_write_event(&tick, input + length) : add_event(&course, input + length);
    }
    return length;
}
