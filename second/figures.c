/*
 * figures.c: the program "figures". It runs every figure of METHOD 25 (docs/METHOD.md) and every decided example, and compares
 * with the answers stated there. The labels A1 to D11 are those of docs/DECISIONS.md. Whole inputs are run on the engine
 * of engine.h, this one or the proved one; what only a look inside shows is checked of this one.
 */
#include "checks.h"
#include "figures.h"

#include <stdlib.h>

int main(void)
{
    opening_figures();
    thousandth_figures();
    outer_figures();
    table_figures();
    event_figures();
    session_figures();
    near_zero_figures();
    program_figures();
    return checks_told() ? EXIT_SUCCESS : EXIT_FAILURE;
}
