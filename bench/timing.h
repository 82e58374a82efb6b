/* The clock, the median and how long to measure: one place, so that calls and processes are measured alike. */
#ifndef BENCH_TIMING_H
#define BENCH_TIMING_H

enum { MOST_TURNS = 201 };

/* How long to measure one call on one list, and how often to start each program on it. */
typedef struct {
    double batch;  /* seconds for which one side runs at a time, at least */
    double budget; /* seconds after which no turn is begun, once there are enough */
    int enough;
    int starts; /* at most MOST_TURNS */
} Effort;

/* Median seconds of the engine and of what it is compared with, both 0 where nothing was measured. */
typedef struct {
    double engine, other;
} Times;

double now(void);

/* The times are sorted. */
double median(double *times, int count);

#endif
