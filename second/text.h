/*
 * text.h: what the program "session" prints, as a text in a lent room: by the program itself, and from rows.
 */
#ifndef TEXT_H
#define TEXT_H

#include "corridor.h"

/* Both end the text with a zero byte. False where a stream failed, the room did not suffice, or a row is of
   no known kind. */
bool text_of_program(const uint8_t *input, size_t length, char *text, size_t room);
bool text_of_rows(const int64_t *rows, size_t count, char *text, size_t room);

/* Whether the text of the rows is, byte for byte, what the program prints for the input, which is no longer
   than a generated one. */
bool text_same(const int64_t *rows, size_t count, const uint8_t *input, size_t length);

#endif
