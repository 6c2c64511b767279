/*
 * median.h: how often each thing is timed, and the time that counts.
 */
#ifndef BENCH_MEDIAN_H
#define BENCH_MEDIAN_H

enum { RUNS = 5 };

/* Sorts the times. */
double median(double times[RUNS]);

#endif
