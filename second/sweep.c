/*
 * sweep.c: one key, three contracts of its days, and events that bring about all shifts. How small a change of a factor
 * the closing rows show:
 *
 * The up factor: any. Contract 1 has the greatest price, half-width and half-move, 10^8, 10^8 and 5 x 10^7 steps, and a
 * bid at the greatest price presses until sixteen shifts up are made. Its upper market bound is then 10^8 + 10^8 +
 * 16 x 10^8 = 1.8 x 10^9, so that one billionth of the up factor is 1.8 steps of the upper interest bound.
 *
 * The down factor: any, but at exponent 0 a greater one only from eleven billionths on. It is multiplied with 10^8 at
 * most, since shifts move a market bound that takes it toward zero or not at all; so one billionth of it is a tenth of
 * a step. Contracts 2 and 3 have lower market bounds where that tenth leads across a whole step, for a greater and for a
 * smaller factor. At 0 the factor is one and every bound a whole step already, so that a greater one takes a whole step to
 * show.
 */
#include "sweep.h"

static const int64_t BILLION = 1000000000;
static const uint32_t MILLION = 1000000;
static const uint32_t MOST_NEAR_SHARE = 500000;
static const uint32_t MOST_TABLE_PRICE = 100000000;

enum {
    /* In steps: a narrower line has no half-move. */
    LEAST_HALF_WIDTH = 2,
    /* The most that is needed is 9,090,909, at exponent 2, where the factor is so close to one that the tenths of a step add
       up slowly: 22 billionths of a bound are two steps at 90,909,090.9... At every other exponent it is 11,066 or less, which
       470,000,002 needs. Where no bound does it (see above), no number is enough. */
    BOUNDS_TRIED = 10000000
};

/* The greatest lower market bound whose interest bound tells the two factors apart. Where none of those tried does, it is
   one that does not: how many of the sweep do is among the figures (figures_thousandths.c). */
static uint32_t telling_bound(Billionths factor, Billionths other)
{
    uint32_t bound = MOST_TABLE_PRICE - LEAST_HALF_WIDTH;
    for (int tried = 0; tried < BOUNDS_TRIED; tried++) {
        if (floor_division(bound * factor.billionths, BILLION) != floor_division(bound * other.billionths, BILLION)) {
            break;
        }
        bound--;
    }
    return bound;
}

/* With rates of one the half-width is the spot. */
static void put_contract(TableDraft *draft, uint32_t index, uint32_t settlement, uint32_t half_width)
{
    uint32_t *contract = draft->contracts[index];
    contract[CONTRACT_SETTLEMENT] = settlement;
    contract[CONTRACT_SPOT] = half_width;
    contract[CONTRACT_LEAST_PRICE] = 1;
    contract[CONTRACT_RATE_1] = contract[CONTRACT_RATE_2] = contract[CONTRACT_RATE_3] = MILLION;
    contract[CONTRACT_WIDTH_SHARE] = 500000;
    contract[CONTRACT_DAYS_LEFT] = draft->keys[0][KEY_DAYS];
    contract[CONTRACT_ID] = index + 1;
    contract[CONTRACT_FLAGS] = FLAG_WATCHED;
}

static TableDraft table_of(const Key *key, Billionths down_factor)
{
    TableDraft draft = {
        .header = {[HEADER_SESSION_END] = 2 * MOST_SHIFTS, [HEADER_HOLD] = 1, [HEADER_MOST_SHIFTS] = MOST_SHIFTS,
                   [HEADER_NEAR_SHARE] = MOST_NEAR_SHARE, [HEADER_SHIFT_SHARE] = MILLION},
        .keys = {{(uint32_t)key->days.days, (uint32_t)key->rate.millionths}},
    };
    uint32_t above = telling_bound(down_factor, (Billionths){down_factor.billionths + 1});
    uint32_t below = telling_bound(down_factor, (Billionths){down_factor.billionths - 1});
    draft_counts(&draft, 1, SWEEP_CONTRACTS);
    put_contract(&draft, 0, MOST_TABLE_PRICE, MOST_TABLE_PRICE);
    put_contract(&draft, 1, above + LEAST_HALF_WIDTH, LEAST_HALF_WIDTH);
    put_contract(&draft, 2, below + LEAST_HALF_WIDTH, LEAST_HALF_WIDTH);
    return draft;
}

Billionths sweep_input(int number, uint8_t input[SWEEP_BYTES])
{
    Key key = thousandths_key((number + 1) / 3, (Beside)((number + 1) % 3 - 1), (Days){365});
    Billionths exponent = corridor_exponent(key.rate, key.days);
    TableDraft draft = table_of(&key, corridor_down_factor(corridor_up_factor(exponent)));
    EventDraft bid = draft_bid(0, 1, MOST_QUOTE_PRICE);
    EventDraft tick = draft_tick(MOST_SHIFTS);
    size_t length = draft_write_table(&draft, input);
    length += draft_write_event(&bid, input + length);
    draft_write_event(&tick, input + length);
    return exponent;
}
