/*
 * A list of rules as a DIMACS file, the form that SAT solvers read: choice v is the number v + 1, positive for late (code 2v) and negative for
 * early (code 2v + 1). A rule of two equal codes is a clause of one number.
 */
#ifndef BENCH_DIMACS_H
#define BENCH_DIMACS_H

#include <stdbool.h>

#include "lists.h"

/* What a program that decides such a file exits with. */
enum { SATISFIABLE = 10, UNSATISFIABLE = 20 };

/* Both give false where the file cannot be written, or is not one that the other would have written. */
bool write_dimacs(const List *list, const char *path);
bool read_dimacs(const char *path, List *list);

#endif
