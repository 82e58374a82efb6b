/*
 * The lists of rules, made afresh from fixed seeds by a small generator of our own, so that every machine runs the same ones.
 *
 * Random lists are the usual case, below, at and above the place where they turn impossible; planted ones are dense and possible. The
 * others are made to hurt one way of working each: early values that all fail at the end of one long walk (all late, star), walks that
 * meet nothing (chain, cycle), a failure whose cause is two halves that are each fine (star of two), a clash that only shows after half
 * of the choices are settled (deep clash). They fill the limits as far as their form allows.
 */
#include "lists.h"

enum { N = LIMIT_CHOICES };

/* The numbers (splitmix64). The tiny preference of % for low results is of no account here. */
static uint64_t draw(Dice *dice)
{
    uint64_t z = dice->state += 0x9E3779B97F4A7C15u;
    z = (z ^ (z >> 30)) * 0xBF58476D1CE4E5B9u;
    z = (z ^ (z >> 27)) * 0x94D049BB133111EBu;
    return z ^ (z >> 31);
}

size_t roll(Dice *dice, size_t bound)
{
    return (size_t)(draw(dice) % bound);
}

/* Codes and rules. */

static size_t late(size_t v)
{
    return 2 * v;
}

static size_t early(size_t v)
{
    return 2 * v + 1;
}

static size_t opposite(size_t c)
{
    return c ^ 1;
}

static size_t room_left(const List *list)
{
    return (LIMIT_WORDS - list->len) / 2;
}

void add_rule(List *list, size_t a, size_t b)
{
    list->words[list->len++] = (uint16_t)a;
    list->words[list->len++] = (uint16_t)b;
}

/* If a then b. */
static void add_step(List *list, size_t a, size_t b)
{
    add_rule(list, opposite(a), b);
}

/* Numbers of rules are part of the answers and of the order of walks; a list in the order of its making would favour both. */
static void shuffle(List *list, Dice *dice)
{
    for (size_t k = list->len / 2; k > 1; k--) {
        size_t i = 2 * (k - 1);
        size_t j = 2 * roll(dice, k);
        for (size_t end = 0; end < 2; end++) {
            uint16_t word = list->words[i + end];
            list->words[i + end] = list->words[j + end];
            list->words[j + end] = word;
        }
    }
}

/* Random and planted lists. */

/* One roll to a line throughout: compilers differ in which argument they work out first. */
void add_random(List *list, Dice *dice, size_t rules)
{
    for (size_t k = 0; k < rules; k++) {
        size_t v = roll(dice, list->n);
        size_t w = (v + 1 + roll(dice, list->n - 1)) % list->n;
        size_t a = 2 * v + roll(dice, 2);
        size_t b = 2 * w + roll(dice, 2);
        add_rule(list, a, b);
    }
}

static void random_08(List *list, Dice *dice)
{
    add_random(list, dice, N * 8 / 10);
}

static void random_10(List *list, Dice *dice)
{
    add_random(list, dice, N);
}

static void random_12(List *list, Dice *dice)
{
    add_random(list, dice, N * 12 / 10);
}

static void random_80(List *list, Dice *dice)
{
    add_random(list, dice, 8 * N);
}

/* A rota to be allowed, as the code of each choice that holds in it. */
static void plant(size_t holds[N], Dice *dice)
{
    for (size_t v = 0; v < N; v++)
        holds[v] = 2 * v + roll(dice, 2);
}

static void add_planted(List *list, Dice *dice, size_t rules)
{
    size_t holds[N];
    plant(holds, dice);
    for (size_t k = 0; k < rules; k++) {
        size_t v = roll(dice, N);
        size_t w = (v + 1 + roll(dice, N - 1)) % N;
        size_t other = 2 * w + roll(dice, 2);
        if (roll(dice, 2))
            add_rule(list, holds[v], other);
        else
            add_rule(list, other, holds[v]);
    }
}

static void planted_2(List *list, Dice *dice)
{
    add_planted(list, dice, 2 * N);
}

static void planted_8(List *list, Dice *dice)
{
    add_planted(list, dice, 8 * N);
}

static void one_code(List *list, Dice *dice)
{
    size_t holds[N];
    plant(holds, dice);
    for (size_t k = 0; k < LIMIT_RULES; k++)
        add_rule(list, holds[k % N], holds[k % N]);
    shuffle(list, dice);
}

/* Chains and cycles. */

static void chain_up(List *list, Dice *dice)
{
    (void)dice;
    for (size_t v = 0; v + 1 < N; v++)
        add_step(list, late(v), late(v + 1));
}

static void chain_down(List *list, Dice *dice)
{
    (void)dice;
    for (size_t v = N - 1; v > 0; v--)
        add_step(list, late(v), late(v - 1));
}

/* All late or all early, and nothing forced: from each code every walk goes everywhere. */
static void cycle(List *list, Dice *dice)
{
    for (size_t v = 0; v < N; v++)
        add_step(list, late(v), late((v + 1) % N));
    while (room_left(list) > 0) {
        size_t v = roll(dice, N);
        size_t w = roll(dice, N);
        add_step(list, late(v), late(w));
    }
    shuffle(list, dice);
}

/* Early values that fail far away. */

/* Early leads to early from each choice to the next, then to the second next, and so on until that many rules are added. */
static void add_window(List *list, size_t from, size_t end, size_t rules)
{
    for (size_t gap = 1; from + gap < end; gap++)
        for (size_t v = from; v + gap < end && rules > 0; v++, rules--)
            add_step(list, early(v), early(v + gap));
}

static void all_late(List *list, Dice *dice)
{
    (void)dice;
    add_window(list, 0, N, N - 1);
    add_rule(list, late(N - 1), late(N - 1));
}

static void all_late_dense(List *list, Dice *dice)
{
    add_rule(list, late(N - 1), late(N - 1));
    add_window(list, 0, N, room_left(list));
    shuffle(list, dice);
}

/* The first three quarters of the choices, if early, lead into a window that ends in a one-code rule against it. */
static void star(List *list, Dice *dice)
{
    size_t gadget = N - N / 4;
    for (size_t v = 0; v < gadget; v++)
        add_step(list, early(v), early(gadget));
    add_rule(list, late(N - 1), late(N - 1));
    add_window(list, gadget, N, room_left(list));
    shuffle(list, dice);
}

/* The first half, if early, leads into two windows whose ends cannot both be early. */
static void star_of_two(List *list, Dice *dice)
{
    size_t one = N / 2;
    size_t two = N - N / 4;
    for (size_t v = 0; v < one; v++) {
        add_step(list, early(v), early(one));
        add_step(list, early(v), early(two));
    }
    add_rule(list, late(two - 1), late(N - 1));
    add_window(list, one, two, room_left(list) / 2);
    add_window(list, two, N, room_left(list));
    shuffle(list, dice);
}

/* Deep clashes. */

static void add_chain(List *list, size_t from, size_t first, size_t end, size_t to)
{
    size_t a = from;
    for (size_t v = first; v < end; v++) {
        add_step(list, a, early(v));
        a = early(v);
    }
    add_step(list, a, to);
}

/* The first half, if early, leads step by step to the middle choice, which clashes by two chains through a quarter each. */
static void deep_clash(List *list, Dice *dice)
{
    size_t middle = N / 2;
    size_t third = N - N / 4;
    (void)dice;
    add_chain(list, early(0), 1, middle, early(middle));
    add_chain(list, early(middle), middle + 1, third, late(middle));
    add_chain(list, late(middle), third, N, early(middle));
}

/* The same with every rule several times over, so that each step has a lowest rule to be picked. */
static void deep_clash_dense(List *list, Dice *dice)
{
    deep_clash(list, dice);
    size_t once = list->len / 2;
    for (size_t k = 0; room_left(list) > 0; k = (k + 1) % once)
        add_rule(list, list->words[2 * k], list->words[2 * k + 1]);
    shuffle(list, dice);
}

const Kind kinds[] = {
    {"random 0.8", 5, random_08},
    {"random 1.0", 5, random_10},
    {"random 1.2", 5, random_12},
    {"random 8", 3, random_80},
    {"planted 2", 5, planted_2},
    {"planted 8", 3, planted_8},
    {"one-code", 1, one_code},
    {"chain up", 1, chain_up},
    {"chain down", 1, chain_down},
    {"cycle", 1, cycle},
    {"all late", 1, all_late},
    {"all late, dense", 1, all_late_dense},
    {"star", 1, star},
    {"star of two", 1, star_of_two},
    {"deep clash", 1, deep_clash},
    {"deep clash, dense", 1, deep_clash_dense},
};

const size_t kinds_count = sizeof kinds / sizeof *kinds;

static void nothing(List *list, Dice *dice)
{
    (void)list;
    (void)dice;
}

const Kind no_rules = {"no rules", 1, nothing};

void make_list(const Kind *kind, int sample, List *list)
{
    Dice dice = {.state = (uint64_t)sample};
    list->n = N;
    list->len = 0;
    kind->make(list, &dice);
}
