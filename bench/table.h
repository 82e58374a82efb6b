/* The table that the comparison prints, in the form in which README.md has it, and the times behind it in a file. */
#ifndef BENCH_TABLE_H
#define BENCH_TABLE_H

#include <stdio.h>

#include "calls.h"
#include "solvers.h"

enum { COLUMNS = CALLS + SOLVERS };

/* One kind of list: the times of the calls, then those of the solvers. */
typedef struct {
    const char *name;
    size_t rules;
    Times cells[COLUMNS];
} Row;

/* Of the rows so far: the sum of the logarithms of each column's ratios. */
typedef struct {
    double logarithms[COLUMNS];
    size_t rows;
} Means;

void print_head(void);
void print_row(const Row *row);

void add_to_means(Means *means, const Row *row);
void print_means(const Means *means);

/* Microseconds of both sides, one line to a cell. */
void write_times(FILE *file, const Row *row);

#endif
