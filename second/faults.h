/*
 * faults.h: what else is at fault in a contract or an event that was refused. What the engine names is put right, and the
 * engine is asked again.
 */
#ifndef FAULTS_H
#define FAULTS_H

#include "input.h"

/* The numbers that an event can be refused with. */
enum { EVENT_REFUSALS = REFUSED_PRICE_RANGE - REFUSED_AFTER_END + 1 };

/* Writes a table of one contract, that of the line, under the header and the keys of the input's, and gives its length. The
   header has to be good. */
size_t faults_line_alone(const Input *input, uint32_t line, uint8_t table[LONGEST_TABLE]);

/* Whether a later field of the line is at fault beside the one that the table was refused for. */
bool faults_later_field(const Input *input, const TableAnswer *answer);

/* For which refusals the event would be up once the one that it got is put right, and each of these in turn; how many they
   are. */
int faults_of_event(Session session, const uint8_t bytes[EVENT_BYTES], Refusal got, Refusal others[EVENT_REFUSALS]);

#endif
