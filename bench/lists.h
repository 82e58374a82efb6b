/* The lists of rules that the comparison runs on: one kind for each way in which a list can be easy or hard, always the same lists. */
#ifndef BENCH_LISTS_H
#define BENCH_LISTS_H

#include <stddef.h>
#include <stdint.h>

#include "sizes.h"

typedef struct {
    size_t n;
    size_t len; /* words, two to a rule */
    uint16_t words[LIMIT_WORDS + 2]; /* one rule past the limit, which is to be refused */
} List;

typedef struct {
    uint64_t state;
} Dice;

/* A number below bound, which is not 0. */
size_t roll(Dice *dice, size_t bound);

/* Rules of two random choices, on a list that has its n already. */
void add_random(List *list, Dice *dice, size_t rules);
void add_rule(List *list, size_t a, size_t b);

typedef struct {
    const char *name;
    int samples; /* how many lists of the kind are worth running */
    void (*make)(List *list, Dice *dice);
} Kind;

extern const Kind kinds[];
extern const size_t kinds_count;

/* The list that asks for nothing: what is left of a time is the way to the call and back. */
extern const Kind no_rules;

void make_list(const Kind *kind, int sample, List *list);

#endif
