/*
 * session.c: the program "session": standard input to standard output, buffered. Its status is 0 whenever
 * an answer was printed, refused tables and events included.
 */
#include "program.h"

#include <stdlib.h>

int main(void)
{
    static char output_buffer[1 << 16];
    if (setvbuf(stdout, output_buffer, _IOFBF, sizeof output_buffer) != 0 || !program_run(stdin, stdout)) {
        fputs("session: reading or printing failed\n", stderr);
        return EXIT_FAILURE;
    }
    return EXIT_SUCCESS;
}
