/*
 * median.c: the time that counts.
 */
#include "median.h"

#include <stdlib.h>

static int by_size(const void *one, const void *other)
{
    double a = *(const double *)one;
    double b = *(const double *)other;
    return (a > b) - (a < b);
}

double median(double times[RUNS])
{
    qsort(times, RUNS, sizeof times[0], by_size);
    return times[RUNS / 2];
}
