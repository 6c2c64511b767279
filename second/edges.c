/*
 * edges.c: the ends of METHOD 3.3. The id has no range, and 0 is the least of width share and days left, so that nothing
 * lies below them.
 */
#include "edges.h"

const Edge EDGE[EDGES] = {
    {"price above", CONTRACT_SETTLEMENT, 100000000, 100000001, false, 0, 0},
    {"price below", CONTRACT_SETTLEMENT, (uint32_t)-100000000, (uint32_t)-100000001, false, FLAG_PERMITS_NEGATIVE, 0},
    {"price under 1", CONTRACT_SETTLEMENT, 1, 0, false, 0, FLAG_PERMITS_NEGATIVE},
    {"spot above", CONTRACT_SPOT, 100000000, 100000001, false, 0, 0},
    {"spot below", CONTRACT_SPOT, (uint32_t)-100000000, (uint32_t)-100000001, false, 0, 0},
    {"least price above", CONTRACT_LEAST_PRICE, 100000000, 100000001, false, 0, 0},
    {"least price below", CONTRACT_LEAST_PRICE, 1, 0, false, 0, 0},
    {"rate 1 above", CONTRACT_RATE_1, 1000000, 1000001, false, 0, 0},
    {"rate 1 below", CONTRACT_RATE_1, 1, 0, false, 0, 0},
    {"rate 2 above", CONTRACT_RATE_2, 1000000, 1000001, false, 0, 0},
    {"rate 2 falling", CONTRACT_RATE_2, 0, (uint32_t)-1, true, 0, 0},
    {"rate 3 above", CONTRACT_RATE_3, 1000000, 1000001, false, 0, 0},
    {"rate 3 falling", CONTRACT_RATE_3, 0, (uint32_t)-1, true, 0, 0},
    {"width share above", CONTRACT_WIDTH_SHARE, 1000000, 1000001, false, 0, 0},
    {"days left above", CONTRACT_DAYS_LEFT, 3650, 3651, false, 0, 0},
    {"flags above", CONTRACT_FLAGS, 3, 4, false, 0, 0},
};

static uint32_t value_at(const uint32_t *contract, const Edge *edge, bool good)
{
    uint32_t from = edge->from_rate_before ? contract[edge->field - 1] : 0;
    return from + (good ? edge->good : edge->bad);
}

static void raise_rates(uint32_t *contract)
{
    for (int field = CONTRACT_RATE_2; field <= CONTRACT_RATE_3; field++) {
        if (contract[field] < contract[field - 1]) {
            contract[field] = contract[field - 1];
        }
    }
}

void edge_put(uint32_t contract[CONTRACT_FIELDS], const Edge *edge, bool good)
{
    contract[CONTRACT_FLAGS] |= edge->set;
    contract[CONTRACT_FLAGS] &= ~edge->clear;
    contract[edge->field] = value_at(contract, edge, good);
    if (good) {
        raise_rates(contract);
    }
}

/* Whether the rate before is the greatest, so that this one has a single good value. */
static bool ends_meet(const uint32_t *contract, const Edge *edge)
{
    bool later_rate = edge->field == CONTRACT_RATE_2 || edge->field == CONTRACT_RATE_3;
    return later_rate && contract[edge->field - 1] == 1000000;
}

bool edge_reached(const uint32_t contract[CONTRACT_FIELDS], const Edge *edge, bool good)
{
    uint32_t flags = contract[CONTRACT_FLAGS];
    return (flags & edge->set) == edge->set && (flags & edge->clear) == 0
        && contract[edge->field] == value_at(contract, edge, good) && !(good && ends_meet(contract, edge));
}
