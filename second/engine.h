/*
 * engine.h: the engine that the figures are held to. Which one it is, is chosen where they are linked:
 * engine.c has this one, library.c the proved one.
 */
#ifndef ENGINE_H
#define ENGINE_H

#include "input.h"

/* Whether it is this one, into whose sessions one can look. */
extern const bool ENGINE_IS_THIS_ONE;

/* Its answer to a whole input, as the program prints it, in a lent room. False where that failed. */
bool engine_text(const uint8_t *input, size_t length, char *text, size_t room);

/* Its answer as rows (rows.h), in a lent room; how many numbers they are, or, where the room is too short, how many there
   have to be. */
size_t engine_rows(const Input *input, int64_t *out, size_t out_length);

#endif
