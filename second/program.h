/*
 * program.h: what the program "session" does, as a function over two streams, so that it can be tested.
 */
#ifndef PROGRAM_H
#define PROGRAM_H

#include <stdbool.h>
#include <stdio.h>

/* Reads a table and its events, prints the whole answer. False where a stream failed. */
bool program_run(FILE *input, FILE *output);

#endif
