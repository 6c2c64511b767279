/*
 * sweep.h: inputs at every whole thousandth that an exponent may be, and at the next exponents below and above it that
 * a table can have (thousandths.h), whose answers show if a factor is another by one billionth, as far as an answer can
 * show it (sweep.c). So an engine that has factors of some exponents written down is held to one that works out all of
 * them, at each of these and beside it.
 */
#ifndef SWEEP_H
#define SWEEP_H

#include "rows.h"
#include "thousandths.h"

enum {
    SWEEP_INPUTS = 3 * LAST_THOUSANDTH + 1,
    SWEEP_CONTRACTS = 3,
    SWEEP_EVENTS = 2,
    SWEEP_BYTES = HEADER_BYTES + KEY_BYTES + SWEEP_CONTRACTS * CONTRACT_BYTES + SWEEP_EVENTS * EVENT_BYTES,
    /* How many numbers the rows of each answer are: every shift is made, and every contract has its closing row. */
    SWEEP_NUMBERS = ROW_NUMBERS * (MOST_SHIFTS + SWEEP_CONTRACTS)
};

/* Fills the buffer with the numbered input, and gives the exponent that all its contracts have. Exponents rise with the
   numbers from 0 to the cap, and the number 3 k has k thousandths. */
Billionths sweep_input(int number, uint8_t input[SWEEP_BYTES]);

#endif
