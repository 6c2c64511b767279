/*
 * thousandths.c: looks for rate and days by their product, and draws keys.
 */
#include "thousandths.h"

#include <string.h>

static const int64_t MILLION = 1000000;
static const int64_t MOST_DAYS = 3650;

const int64_t END_THOUSANDTH[END_THOUSANDTHS] = {0, 1, LAST_THOUSANDTH - 1, LAST_THOUSANDTH};

/* Rate x days where the exponent is one thousandth. */
static const int64_t PRODUCT = 365000;

/* Whether the product has a rate and days in range; the key that they make. */
static bool find_factors(int64_t product, Days from, Key *key)
{
    for (int64_t passed = 0; passed < MOST_DAYS; passed++) {
        int64_t days = (from.days - 1 + passed) % MOST_DAYS + 1;
        if (product % days == 0 && product / days <= MILLION) {
            *key = (Key){{days}, {product / days}};
            return true;
        }
    }
    return false;
}

bool thousandths_has(int64_t thousandth, Beside beside)
{
    return beside == NEXT_BELOW ? thousandth > 0 : beside == AT_THOUSANDTH || thousandth < LAST_THOUSANDTH;
}

Key thousandths_key(int64_t thousandth, Beside beside, Days from)
{
    int64_t product = PRODUCT * thousandth + beside;
    Key key;
    while (!find_factors(product, from, &key)) {
        product += beside;
    }
    return key;
}

static Key draw_key(Random *random)
{
    bool at_end = chance(random, 30);
    int64_t thousandth
        = at_end ? END_THOUSANDTH[between(random, 0, END_THOUSANDTHS - 1)] : between(random, 0, LAST_THOUSANDTH);
    Beside beside = chance(random, 50) ? AT_THOUSANDTH : chance(random, 50) ? NEXT_BELOW : NEXT_ABOVE;
    if (!thousandths_has(thousandth, beside)) {
        /* At each end of the range there is only the exponent on its other side; the end itself comes up often enough. */
        beside = beside == NEXT_BELOW ? NEXT_ABOVE : NEXT_BELOW;
    }
    return thousandths_key(thousandth, beside, (Days){between(random, 1, MOST_DAYS)});
}

/* Puts the key among the first ones, which are in the order of their days. False where one of them has its days. */
static bool put_key(TableDraft *draft, uint32_t count, const Key *key)
{
    uint32_t place = 0;
    while (place < count && draft->keys[place][KEY_DAYS] < key->days.days) {
        place++;
    }
    if (place < count && draft->keys[place][KEY_DAYS] == key->days.days) {
        return false;
    }
    for (uint32_t i = count; i > place; i--) {
        memcpy(draft->keys[i], draft->keys[i - 1], sizeof draft->keys[i]);
    }
    draft->keys[place][KEY_DAYS] = (uint32_t)key->days.days;
    draft->keys[place][KEY_RATE] = (uint32_t)key->rate.millionths;
    return true;
}

void thousandths_draw_keys(Random *random, TableDraft *draft)
{
    uint32_t count = 0;
    while (count < draft->key_count) {
        Key key = draw_key(random);
        count += put_key(draft, count, &key);
    }
}
