/*
 * edges.h: where the ranges of a contract's fields end: for each end the last good value and the first bad one. The
 * generator brings contracts there, and the tally counts which of them it has brought there.
 */
#ifndef EDGES_H
#define EDGES_H

#include "layout.h"

#include <stdbool.h>
#include <stdint.h>

typedef struct {
    const char *name;
    uint32_t field;
    uint32_t good;
    uint32_t bad;
    /* Both values are then counted from the rate of the level before. */
    bool from_rate_before;
    /* Flags that have to be set and flags that have to be clear for the range to end there. */
    uint32_t set;
    uint32_t clear;
} Edge;

enum { EDGES = 16 };

/* By the places of their fields, lowest first. */
extern const Edge EDGE[EDGES];

/* Gives the contract the last good value, or the first bad one. With a good rate, later ones that it is above rise to it. */
void edge_put(uint32_t contract[CONTRACT_FIELDS], const Edge *edge, bool good);

/* Whether the contract has that value. A good rate where both ends meet is at neither. */
bool edge_reached(const uint32_t contract[CONTRACT_FIELDS], const Edge *edge, bool good);

#endif
