/*
 * same.h: whether shift lines, lines and sessions are the same, field by field.
 */
#ifndef SAME_H
#define SAME_H

#include "corridor.h"

bool same_shifts(const Shift *one, const Shift *other, uint32_t count);

/* All that shifts change on a line. */
bool same_shifted(const Line *one, const Line *other);

/* All that stands in a session. */
bool same_session(const Session *one, const Session *other);

#endif
