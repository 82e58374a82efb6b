/*
 * SAT solvers on the same lists. A solver is a program and reads a file, so what is compared is whole processes: its own, and one of ours that
 * reads the same file and calls Decide (decide.c). Both are timed from their start to their end.
 */
#ifndef BENCH_SOLVERS_H
#define BENCH_SOLVERS_H

#include <stdbool.h>

#include "timing.h"

enum { SOLVERS = 3 };

extern const char *const solver_names[SOLVERS];

/* Where the programs are: decide and then the solvers, in the order of their names; an empty path for one that is not installed. */
typedef struct {
    const char *paths[1 + SOLVERS];
} Programs;

/* Times every program on a file that is satisfiable or not. A program that says otherwise ends the run. */
void time_programs(const Programs *programs, const char *file, bool satisfiable, int starts, Times times[SOLVERS]);

#endif
