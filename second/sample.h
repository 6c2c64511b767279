/*
 * sample.h: the sample table, and tables made of it; among them some whose three half-widths are worked out by hand. The
 * answer to a whole input shows level 1 alone, so levels 2 and 3 are looked at inside this engine, and in the reports of the
 * proved one.
 */
#ifndef SAMPLE_H
#define SAMPLE_H

#include "draft.h"

/* The table of METHOD 25's session: one key of rate 0 and contract 7. */
TableDraft sample(void);

/* Its bytes, laid out one by one at the offsets of METHOD 25, apart from the draft's code. */
enum { SAMPLE_BYTES = HEADER_BYTES + KEY_BYTES + CONTRACT_BYTES };

extern const uint8_t SAMPLE_TABLE[SAMPLE_BYTES];

/* Adds a contract like the first one, under another id, and gives its fields. */
uint32_t *add_contract(TableDraft *draft, uint32_t id);

/* The sample with a second contract 8 alike and 16 shifts. */
TableDraft sample_of_two(void);

/* One contract with the stated price, level 1 half-width (by its spot) and width share, at exponent 10^8. */
TableDraft sample_with_growth(int32_t settlement, uint32_t half_width, uint32_t width_share, uint32_t flags);

/* The sample with other keys, two at most, and other days left. */
TableDraft sample_with_keys(uint32_t days, uint32_t rate, uint32_t second_days, uint32_t second_rate, uint32_t days_left);

/* METHOD 25.8: price 30, half-width 30, no growth. */
TableDraft sample_near_floor(void);

typedef struct {
    int64_t centre;
    int64_t half_width[LEVELS];
} Levels;

/* The sample with another contract 7; what stands on its line at opening, and once the quote, at second 10 and at a limit,
   has brought about its shift at second 70. The last text is the whole answer to quote and tick. */
typedef struct {
    const char *name;
    uint32_t contract[CONTRACT_FIELDS];
    Levels opened;
    EventDraft quote;
    Levels shifted;
    const char *answer;
} LevelFigure;

enum { LEVEL_FIGURES = 4 };

extern const LevelFigure LEVEL_FIGURE[LEVEL_FIGURES];

TableDraft sample_of_levels(const LevelFigure *figure);

#endif
