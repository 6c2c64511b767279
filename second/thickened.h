/*
 * thickened.h: the events of an input with free events put between them; METHOD 26.6 calls the way back thinned. Free is
 * what tells nothing new (METHOD 26.1: a tick, or the bid and ask that stand already, an empty book's too), not before the
 * clock and not after the next accepted event. All shift lines, joined over the events, and the session after that next event
 * are the same without it (METHOD 26.3). Where no accepted event follows, nothing is claimed (26.5), and none is put.
 */
#ifndef THICKENED_H
#define THICKENED_H

#include "generate.h"
#include "input.h"
#include "tally.h"

enum {
    MOST_ADDED_EVENTS = MOST_EVENTS,
    MOST_OWN_EVENTS = (LONGEST_INPUT + EVENT_BYTES - 1) / EVENT_BYTES,
    LONGEST_THICKENED = LONGEST_INPUT + MOST_ADDED_EVENTS * EVENT_BYTES
};

/* An event's place is its offset divided by 20, since each has 20 bytes, but for a last one that is cut short. */
typedef struct {
    size_t length;
    uint8_t bytes[LONGEST_THICKENED];
    bool added[MOST_OWN_EVENTS + MOST_ADDED_EVENTS];
} Thickened;

/* Thickens the events of an input that is no longer than a generated one. A refused table accepts none, and gets none. What is
   put depends on the input alone, so that a kept input is thickened as it was. */
void thicken(const Input *input, Thickened *thickened);

/* The input with the thickened events in place of its own. */
Input thickened_input(const Input *input, const Thickened *thickened);

/* Whether the added events are free on this engine: each is accepted; of the input's own events the same ones are accepted;
   after each of these the session and the joined shift lines are the same as without the added ones. Refused events may be
   refused with another number, since the clock may have gone on. Counts what the added events brought about. */
bool thickened_agrees(const Input *input, const Thickened *thickened, Tally *tally);

#endif
