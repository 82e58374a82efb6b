/*
 * Are the peers right? Before the engine is compared with them, they are compared with an exhaustive search: all rotas of up to 10
 * choices in dictionary order, reachability by Floyd and Warshall, chains by trying every list of rule numbers, shorter first, then
 * in dictionary order. Nothing here is shared with the peers but the sizes. An expected outcome is a whole set of areas, so a byte too
 * many written is a difference, and so is a work area left dirty. Refusals are compared too, with several causes at a time.
 */
#include <stdio.h>
#include <stdlib.h>
#include <string.h>

#include "calls.h"

enum { MOST_CHOICES = 10, MOST_CODES = 2 * MOST_CHOICES, LISTS = 20000, STARTS = 12 };

/* All that is true of a list, found the long way. A rota is a number here: its first choice is the highest of n bits. */
typedef struct {
    bool allowed[1 << MOST_CHOICES];
    bool reach[MOST_CODES][MOST_CODES];
    size_t first; /* the first allowed rota, or as many as there are rotas */
    size_t clash; /* the lowest choice that clashes, or n */
} Truth;

static size_t rotas(const List *list)
{
    return (size_t)1 << list->n;
}

static uint8_t value(const List *list, size_t rota, size_t v)
{
    return (uint8_t)(rota >> (list->n - 1 - v) & 1);
}

static bool is_true(const List *list, size_t rota, size_t code)
{
    return value(list, rota, code / 2) == (code % 2 == 0);
}

static bool meets_all(const List *list, size_t rota)
{
    for (size_t i = 0; i < list->len; i += 2)
        if (!is_true(list, rota, list->words[i]) && !is_true(list, rota, list->words[i + 1]))
            return false;
    return true;
}

static size_t first_allowed_from(const List *list, const Truth *truth, size_t rota)
{
    while (rota < rotas(list) && !truth->allowed[rota])
        rota++;
    return rota;
}

static void close_reach(size_t codes, bool reach[MOST_CODES][MOST_CODES])
{
    for (size_t k = 0; k < codes; k++)
        for (size_t a = 0; a < codes; a++)
            for (size_t b = 0; b < codes; b++)
                reach[a][b] = reach[a][b] || (reach[a][k] && reach[k][b]);
}

static bool clashes(const Truth *truth, size_t v)
{
    return truth->reach[2 * v][2 * v + 1] && truth->reach[2 * v + 1][2 * v];
}

static void find_truth(const List *list, Truth *truth)
{
    memset(truth, 0, sizeof *truth);
    for (size_t rota = 0; rota < rotas(list); rota++)
        truth->allowed[rota] = meets_all(list, rota);
    truth->first = first_allowed_from(list, truth, 0);
    for (size_t c = 0; c < 2 * list->n; c++)
        truth->reach[c][c] = true;
    for (size_t i = 0; i < list->len; i++)
        truth->reach[list->words[i] ^ 1][list->words[i ^ 1]] = true;
    close_reach(2 * list->n, truth->reach);
    while (truth->clash < list->n && !clashes(truth, truth->clash))
        truth->clash++;
}

/* What each call has to leave behind. */

static void write_rota(const List *list, size_t rota, uint8_t *bytes)
{
    for (size_t v = 0; v < list->n; v++)
        bytes[v] = value(list, rota, v);
}

static uint8_t forced_value(const List *list, const Truth *truth, size_t v)
{
    bool seen[2] = {false, false};
    for (size_t rota = 0; rota < rotas(list); rota++)
        if (truth->allowed[rota])
            seen[value(list, rota, v)] = true;
    return seen[0] && seen[1] ? 2 : seen[1];
}

static uint16_t tie(const List *list, const Truth *truth, size_t v)
{
    uint16_t c = 0;
    while (c < 2 * list->n && !(truth->reach[2 * v][c] && truth->reach[c][2 * v]))
        c++;
    return c;
}

/* The first list of exactly so many rule numbers, in dictionary order, that leads from a to b. */
static bool find_chain(const List *list, size_t a, size_t b, size_t length, uint16_t *chain)
{
    if (length == 0)
        return a == b;
    for (size_t k = 0; k < list->len / 2; k++)
        for (size_t end = 0; end < 2; end++) {
            chain[0] = (uint16_t)k;
            size_t other = list->words[2 * k + 1 - end];
            if (list->words[2 * k + end] == (a ^ 1) && find_chain(list, other, b, length - 1, chain + 1))
                return true;
        }
    return false;
}

static size_t write_chain(const List *list, size_t a, uint16_t *chain)
{
    uint16_t found[MOST_CODES];
    size_t length = 1;
    while (!find_chain(list, a, a ^ 1, length, found))
        length++;
    memcpy(chain, found, length * sizeof *chain);
    return length;
}

static uint32_t expect_next(const List *list, const Truth *truth, Areas *areas)
{
    size_t given = 0;
    for (size_t v = 0; v < list->n; v++)
        given = 2 * given + areas->bytes[v];
    size_t after = first_allowed_from(list, truth, given + 1);
    if (after == rotas(list))
        return ENDED;
    write_rota(list, after, areas->bytes);
    return DONE;
}

static uint32_t expect_clash(const List *list, const Truth *truth, Areas *areas)
{
    areas->out[0] = truth->clash;
    areas->out[1] = write_chain(list, 2 * truth->clash, areas->items);
    areas->out[2] = write_chain(list, 2 * truth->clash + 1, areas->items + areas->out[1]);
    return IMPOSSIBLE;
}

static uint32_t expect_answer(Call call, const List *list, const Truth *truth, Areas *areas)
{
    memset(areas->work, 0, work_words(list->n, list->len) * sizeof *areas->work);
    if (truth->first == rotas(list)) {
        areas->out[0] = truth->clash;
        return call == CLASH ? expect_clash(list, truth, areas) : IMPOSSIBLE;
    }
    if (call == NEXT)
        return expect_next(list, truth, areas);
    if (call == DECIDE)
        write_rota(list, truth->first, areas->bytes);
    for (size_t v = 0; v < list->n; v++) {
        if (call == FORCED)
            areas->bytes[v] = forced_value(list, truth, v);
        if (call == TIES)
            areas->items[v] = tie(list, truth, v);
    }
    return DONE;
}

/* The first refusal that applies, and its place, in the order 1, 2, 3, 6, 5, 4, 11. */
static uint32_t expect_refusal(Call call, const List *list, Areas *areas, const Lent *lent)
{
    size_t answer_room = call == CLASH ? lent->items / 4 : call == TIES ? lent->items : lent->bytes;
    if (lent->out < 3)
        return OUT_SHORT;
    areas->out[0] = 0;
    if (list->n > LIMIT_CHOICES)
        return 1;
    if (list->len % 2 == 1)
        return 2;
    if (list->len / 2 > LIMIT_RULES)
        return 3;
    if (answer_room < list->n)
        return 6;
    if (lent->work < work_words(list->n, list->len))
        return 5;
    for (size_t i = 0; i < list->len; i++) {
        areas->out[0] = i;
        if (list->words[i] / 2 >= list->n)
            return 4;
    }
    for (size_t v = 0; call == NEXT && v < list->n; v++) {
        areas->out[0] = v;
        if (areas->bytes[v] > 1)
            return 11;
    }
    return 0;
}

/* Comparing. */

static void print_list(const List *list)
{
    fprintf(stderr, "n %zu, words", list->n);
    for (size_t i = 0; i < list->len && i < LIMIT_WORDS; i++)
        fprintf(stderr, " %u", list->words[i]);
    fprintf(stderr, "\n");
}

typedef struct {
    List list;
    Truth truth;
    Areas areas;
    Lent lent;
} Case;

static void compare(Call call, const Case *one)
{
    Areas expected = one->areas;
    Areas given = one->areas;
    uint32_t right = expect_refusal(call, &one->list, &expected, &one->lent);
    if (right == 0)
        right = expect_answer(call, &one->list, &one->truth, &expected);
    uint32_t answer = run_call(&peers, call, &one->list, &given, &one->lent);
    if (same_outcome(call, right, &expected, answer, &given))
        return;
    fprintf(stderr, "the peer of %s is wrong: %u, right is %u; ", call_names[call], answer, right);
    print_list(&one->list);
    exit(1);
}

/* Rules over few choices; every second list leads mostly from a choice to its neighbour, so that chains get long. */
static void make_small(List *list, Dice *dice)
{
    list->n = roll(dice, MOST_CHOICES + 1);
    list->len = 0;
    bool near = roll(dice, 2);
    for (size_t k = list->n > 0 ? roll(dice, 3 * list->n) : 0; k > 0; k--) {
        size_t v = roll(dice, list->n);
        size_t w = near && roll(dice, 8) > 0 ? (v + 1) % list->n : roll(dice, list->n);
        size_t a = 2 * v + roll(dice, 2);
        size_t b = 2 * w + roll(dice, 2);
        add_rule(list, a, b);
    }
}

static void roll_rota(Case *one, Dice *dice)
{
    for (size_t v = 0; v < one->list.n; v++)
        one->areas.bytes[v] = (uint8_t)roll(dice, 2);
}

static void make_case(Case *one, Dice *dice)
{
    make_small(&one->list, dice);
    find_truth(&one->list, &one->truth);
    soil(&one->areas);
    roll_rota(one, dice);
    one->lent = whole;
}

/* Next from several rotas, the other calls once. */
static void check_answers(Case *one, Dice *dice)
{
    for (Call call = DECIDE; call < CALLS; call++)
        for (int start = 0; start < (call == NEXT ? STARTS : 1); start++) {
            roll_rota(one, dice);
            compare(call, one);
        }
}

static void check_refusals(Case *one, Dice *dice)
{
    spoil(&one->list, &one->areas, &one->lent, dice);
    for (Call call = DECIDE; call < CALLS; call++)
        compare(call, one);
}

int main(void)
{
    static Case one;
    Dice dice = {.state = 1};
    size_t possible = 0;
    for (int i = 0; i < LISTS; i++) {
        make_case(&one, &dice);
        possible += one.truth.first < rotas(&one.list);
        check_answers(&one, &dice);
        check_refusals(&one, &dice);
    }
    printf("peers right on %d lists, %zu of them possible, and on the same lists spoiled\n", LISTS, possible);
    return 0;
}
