/*
 * random.h: seeded random numbers (splitmix64), the same on every machine.
 *
 * No expression may draw two of them without a sequence between the draws, since C leaves the order of such
 * draws open and what is made of them would then differ between compilers.
 */
#ifndef RANDOM_H
#define RANDOM_H

#include <stdbool.h>
#include <stddef.h>
#include <stdint.h>

typedef struct { uint64_t state; } Random;

uint64_t draw(Random *random);

/* Lets all that is drawn from here on depend on these bytes too. */
void fold(Random *random, const uint8_t *bytes, size_t length);

/* A number from least to most, both included. */
int64_t between(Random *random, int64_t least, int64_t most);
uint32_t count_between(Random *random, uint32_t least, uint32_t most);

bool chance(Random *random, int64_t percent);

#endif
