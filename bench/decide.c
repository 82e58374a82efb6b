/*
 * The engine as a program of the kind that solvers are: reads a DIMACS file, calls Decide, writes the answer as solvers do and exits with 10 or
 * 20. It stands beside them in the comparison, so that on both sides a process is started, a file read and an answer written.
 */
#include <stdio.h>

#include "../include/thwartpin.h"
#include "dimacs.h"

static void print_rota(const uint8_t *rota, size_t n)
{
    printf("s SATISFIABLE\nv");
    for (size_t v = 0; v < n; v++)
        printf(rota[v] ? " %zu" : " -%zu", v + 1);
    printf(" 0\n");
}

int main(int argc, char **argv)
{
    static List list;
    static uint16_t work[LIMIT_WORK];
    uint8_t rota[LIMIT_CHOICES];
    uint64_t out[THWARTPIN_OUT];
    if (argc != 2 || !read_dimacs(argv[1], &list)) {
        fprintf(stderr, "usage: decide FILE, a DIMACS file of clauses of one or two numbers\n");
        return 2;
    }
    switch (thwartpin_list_decide(list.n, list.words, list.len, rota, sizeof rota, work, LIMIT_WORK, out, THWARTPIN_OUT)) {
    case DONE:
        print_rota(rota, list.n);
        return SATISFIABLE;
    case IMPOSSIBLE:
        printf("s UNSATISFIABLE\n");
        return UNSATISFIABLE;
    default:
        return 2;
    }
}
