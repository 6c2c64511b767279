/*
 * random.c: seeded random numbers.
 */
#include "random.h"

uint64_t draw(Random *random)
{
    random->state += UINT64_C(0x9e3779b97f4a7c15);
    uint64_t mixed = random->state;
    mixed = (mixed ^ mixed >> 30) * UINT64_C(0xbf58476d1ce4e5b9);
    mixed = (mixed ^ mixed >> 27) * UINT64_C(0x94d049bb133111eb);
    return mixed ^ mixed >> 31;
}

void fold(Random *random, const uint8_t *bytes, size_t length)
{
    for (size_t i = 0; i < length; i++) {
        random->state = draw(random) ^ bytes[i];
    }
}

int64_t between(Random *random, int64_t least, int64_t most)
{
    return least + (int64_t)(draw(random) % (uint64_t)(most - least + 1));
}

uint32_t count_between(Random *random, uint32_t least, uint32_t most)
{
    return (uint32_t)between(random, least, most);
}

bool chance(Random *random, int64_t percent)
{
    return between(random, 1, 100) <= percent;
}
