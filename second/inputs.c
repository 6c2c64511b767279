/*
 * inputs.c: the program "inputs FILE..". It writes to the working folder what two programs are compared on:
 * generated inputs; long ones, cut about every place where the proved program reads anew; and the files, cut
 * before each of their bytes. A name has the kind, a number and the length.
 */
#include "generate.h"
#include "input.h"

#include <inttypes.h>
#include <stdio.h>
#include <stdlib.h>
#include <string.h>

enum {
    GENERATED_INPUTS = 600,
    LONG_INPUTS = 12,
    /* Seven chunks of the proved program with every answer printed, five bytes each: together more than the 65,536
       bytes that a pipe takes in one write. */
    REFUSED_EVENTS = 14000,
    /* The proved program reads its table, and then so many bytes at a time, and writes their answers at once. */
    PROVED_CHUNK_BYTES = 2048 * EVENT_BYTES
};

static const uint64_t SEED = 3;

static void check_file(const char *name, bool good)
{
    if (!good) {
        perror(name);
        exit(EXIT_FAILURE);
    }
}

static void write_input(const char *kind, int number, const uint8_t *bytes, size_t length)
{
    char name[64];
    snprintf(name, sizeof name, "%s-%d-%zu", kind, number, length);
    FILE *file = fopen(name, "wb");
    check_file(name, file != NULL && fwrite(bytes, 1, length, file) == length);
    check_file(name, fclose(file) == 0);
}

static void write_generated(void)
{
    static uint8_t bytes[LONGEST_INPUT];
    for (int number = 0; number < GENERATED_INPUTS; number++) {
        write_input("generated", number, bytes, generate_input(SEED, (uint64_t)number, bytes));
    }
}

static void write_long(void)
{
    static uint8_t bytes[LONGEST_LONG_INPUT];
    for (int number = 0; number < LONG_INPUTS; number++) {
        size_t length = generate_long_input(SEED, (uint64_t)number, bytes);
        for (size_t place = input_of(bytes, length).table_length; place < length; place += PROVED_CHUNK_BYTES) {
            write_input("long", number, bytes, place - 1);
            write_input("long", number, bytes, place);
            write_input("long", number, bytes, place + 1);
        }
        write_input("long", number, bytes, length);
    }
}

/* Events of nothing but zeros: each is refused, since no contract has id 0. */
static void write_refused(void)
{
    static uint8_t bytes[LONGEST_TABLE + REFUSED_EVENTS * EVENT_BYTES];
    size_t table_length = input_of(bytes, generate_long_input(SEED, 0, bytes)).table_length;
    memset(bytes + table_length, 0, REFUSED_EVENTS * EVENT_BYTES);
    write_input("refused", 0, bytes, table_length + REFUSED_EVENTS * EVENT_BYTES);
}

static void write_cuts(int number, const char *name)
{
    static uint8_t bytes[LONGEST_INPUT];
    FILE *file = fopen(name, "rb");
    check_file(name, file != NULL);
    size_t length = fread(bytes, 1, sizeof bytes, file);
    check_file(name, feof(file) && fclose(file) == 0);
    for (size_t cut = 0; cut <= length; cut++) {
        write_input("cut", number, bytes, cut);
    }
}

int main(int argument_count, char **arguments)
{
    for (int i = 1; i < argument_count; i++) {
        write_cuts(i, arguments[i]);
    }
    write_generated();
    write_long();
    write_refused();
    return EXIT_SUCCESS;
}
