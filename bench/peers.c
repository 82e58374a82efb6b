/*
 * The five calls as a capable C programmer writes them without a theory of their own: what the engine is measured against.
 *
 * Decide is the greedy search: choice by choice early if unit propagation allows it, else late, and a propagation that fails is taken
 * back. It learns nothing from a failure, so a list where every early value fails far away costs it n long walks. Forced tries each
 * code from an empty set. Next replays the lent rota, retreats to the last early choice that can be late, and searches on. Ties and the
 * lowest clash come from Tarjan's components, in loops instead of recursion. Clash then walks breadth first, once for each chain.
 *
 * The ends of a code are linked, as in the engine, and not laid side by side in a compressed table. That is a trade and not a gain all
 * over: with gcc and clang the table was in the geometric mean some 1.1 times slower for Decide, level to 1.1 times slower for Next and
 * 1.1 times faster for Forced; nearly twice as slow where a list is settled at once (random 8), and twice as fast where dense rules are
 * walked again and again (star). So a ratio far below 1 on such a list is up to a factor of two kinder to the engine than it could be.
 *
 * All of it fits in the lent work area; there is no other room. The tables are, in words,
 *     head [0, 2n)   mark [2n, 4n)   trail [4n, 6n)   spare [6n, 8n)   next [8n, 8n + 2m)   rest (4m + 16)
 * and an end is the place of a code in the list of rules: end e stands in rule e / 2, whose other code is at e ^ 1.
 */
#include "peers.h"

#include <stdbool.h>
#include <string.h>

#include "sizes.h"

enum { NONE = 0xFFFF };

typedef struct {
    size_t n;
    size_t ends;
    const uint16_t *words;
    uint16_t *head;  /* by code: the first end that holds it */
    uint16_t *next;  /* by end: the next end that holds the same code */
    uint16_t *mark;  /* by code: what a walk has found out about it, 0 for nothing */
    uint16_t *trail; /* the marked codes in the order of marking */
    size_t top;      /* how many they are */
    uint16_t *spare;
    uint16_t *rest;
} Room;

static uint16_t late(size_t v)
{
    return (uint16_t)(2 * v);
}

static uint16_t early(size_t v)
{
    return (uint16_t)(2 * v + 1);
}

static uint16_t opposite(uint16_t c)
{
    return c ^ 1;
}

/* Refusals. */

/* Block by block, of a fixed length that compilers turn into wide instructions, and one by one in the block that has a high code. */
static size_t first_bad_code(size_t n, const uint16_t *words, size_t words_len)
{
    enum { BLOCK = 32 };
    size_t i = 0;
    for (; i + BLOCK <= words_len; i += BLOCK) {
        uint16_t most = 0;
        for (size_t j = 0; j < BLOCK; j++)
            most = words[i + j] > most ? words[i + j] : most;
        if (most >= 2 * n)
            break;
    }
    while (i < words_len && words[i] < 2 * n)
        i++;
    return i;
}

static uint32_t refusal(size_t n, const uint16_t *words, size_t words_len, bool answer_fits, size_t work_len, uint64_t *out,
                        size_t out_len)
{
    if (out_len < 3)
        return OUT_SHORT;
    uint32_t number = 0;
    size_t place = 0;
    if (n > LIMIT_CHOICES)
        number = 1;
    else if (words_len % 2 != 0)
        number = 2;
    else if (words_len > LIMIT_WORDS)
        number = 3;
    else if (!answer_fits)
        number = 6;
    else if (work_len < work_words(n, words_len))
        number = 5;
    else if ((place = first_bad_code(n, words, words_len)) < words_len)
        number = 4;
    if (number != 0)
        out[0] = place;
    return number;
}

/* Room. */

/* Links from the last end to the first, so that each code's list runs upward in rule numbers. */
static void link_ends(Room *r)
{
    memset(r->head, 0xFF, 2 * r->n * sizeof *r->head);
    for (size_t e = r->ends; e-- > 0;) {
        uint16_t c = r->words[e];
        r->next[e] = r->head[c];
        r->head[c] = (uint16_t)e;
    }
}

static void clear_marks(Room *r)
{
    memset(r->mark, 0, 2 * r->n * sizeof *r->mark);
    r->top = 0;
}

static Room enter(size_t n, const uint16_t *words, size_t words_len, uint16_t *work)
{
    Room r = {.n = n, .ends = words_len, .words = words, .head = work, .mark = work + 2 * n, .trail = work + 4 * n};
    r.spare = work + 6 * n;
    r.next = work + 8 * n;
    r.rest = r.next + words_len;
    link_ends(&r);
    clear_marks(&r);
    return r;
}

static void leave(Room *r)
{
    memset(r->head, 0, work_words(r->n, r->ends) * sizeof *r->head);
}

/* The greedy search. */

static void push(Room *r, uint16_t c)
{
    r->mark[c] = 1;
    r->trail[r->top++] = c;
}

static void take_back(Room *r, size_t top)
{
    while (r->top > top)
        r->mark[r->trail[--r->top]] = 0;
}

/* Makes c true with all that follows, on top of what is marked. False, and nothing marked, where that meets an opposite. */
static bool hold(Room *r, uint16_t c)
{
    size_t before = r->top;
    size_t at = before;
    push(r, c);
    while (at < r->top) {
        uint16_t off = opposite(r->trail[at++]);
        for (size_t e = r->head[off]; e != NONE; e = r->next[e]) {
            uint16_t b = r->words[e ^ 1];
            if (r->mark[b])
                continue;
            if (r->mark[opposite(b)]) {
                take_back(r, before);
                return false;
            }
            push(r, b);
        }
    }
    return true;
}

static bool settled(const Room *r, size_t v)
{
    return r->mark[late(v)] || r->mark[early(v)];
}

/* The first choice from v on that can be neither early nor late, or n. It is the lowest that clashes. */
static size_t search(Room *r, size_t v)
{
    while (v < r->n && (settled(r, v) || hold(r, early(v)) || hold(r, late(v))))
        v++;
    return v;
}

static void write_rota(const Room *r, uint8_t *rota)
{
    for (size_t v = 0; v < r->n; v++)
        rota[v] = (uint8_t)r->mark[late(v)];
}

uint32_t peer_decide(size_t n, const uint16_t *words, size_t words_len, uint8_t *rota, size_t rota_len, uint16_t *work,
                     size_t work_len, uint64_t *out, size_t out_len)
{
    uint32_t refused = refusal(n, words, words_len, rota_len >= n, work_len, out, out_len);
    if (refused)
        return refused;
    Room r = enter(n, words, words_len, work);
    size_t stuck = search(&r, 0);
    if (stuck == n)
        write_rota(&r, rota);
    else
        out[0] = stuck;
    leave(&r);
    return stuck == n ? DONE : IMPOSSIBLE;
}

/* Forced. */

static bool hold_alone(Room *r, uint16_t c)
{
    bool held = hold(r, c);
    take_back(r, 0);
    return held;
}

/* Leaves each choice's byte in spare; false on an impossible list. */
static bool try_all(Room *r)
{
    for (size_t v = 0; v < r->n; v++) {
        bool can_be_early = hold_alone(r, early(v));
        bool can_be_late = hold_alone(r, late(v));
        if (!can_be_early && !can_be_late)
            return false;
        r->spare[v] = can_be_early && can_be_late ? 2 : can_be_late;
    }
    return true;
}

uint32_t peer_forced(size_t n, const uint16_t *words, size_t words_len, uint8_t *forced, size_t forced_len, uint16_t *work,
                     size_t work_len, uint64_t *out, size_t out_len)
{
    uint32_t refused = refusal(n, words, words_len, forced_len >= n, work_len, out, out_len);
    if (refused)
        return refused;
    Room r = enter(n, words, words_len, work);
    bool possible = try_all(&r);
    for (size_t v = 0; possible && v < n; v++)
        forced[v] = (uint8_t)r.spare[v];
    leave(&r);
    return possible ? DONE : IMPOSSIBLE;
}

/* Next. */

static size_t first_bad_value(size_t n, const uint8_t *rota)
{
    size_t v = 0;
    while (v < n && rota[v] <= 1)
        v++;
    return v;
}

/* Holds the rota's values as far as that goes: to the choice it gives, or n. Spare has the trail's length before each choice. */
static size_t replay(Room *r, const uint8_t *rota)
{
    for (size_t v = 0; v < r->n; v++) {
        uint16_t c = rota[v] ? late(v) : early(v);
        r->spare[v] = (uint16_t)r->top;
        if (!r->mark[c] && (r->mark[opposite(c)] || !hold(r, c)))
            return v;
    }
    return r->n;
}

/* Goes back to the last early choice that can be late after the values before it, and makes it late. That choice, or n for none. */
static size_t retreat(Room *r, const uint8_t *rota, size_t stuck)
{
    for (size_t v = stuck < r->n ? stuck + 1 : r->n; v-- > 0;) {
        take_back(r, r->spare[v]);
        if (!rota[v] && !r->mark[early(v)] && (r->mark[late(v)] || hold(r, late(v))))
            return v;
    }
    return r->n;
}

uint32_t peer_next(size_t n, const uint16_t *words, size_t words_len, uint8_t *rota, size_t rota_len, uint16_t *work,
                   size_t work_len, uint64_t *out, size_t out_len)
{
    uint32_t refused = refusal(n, words, words_len, rota_len >= n, work_len, out, out_len);
    if (refused)
        return refused;
    size_t bad = first_bad_value(n, rota);
    if (bad < n) {
        out[0] = bad;
        return 11;
    }
    Room r = enter(n, words, words_len, work);
    size_t raised = retreat(&r, rota, replay(&r, rota));
    bool possible = search(&r, raised < n ? raised + 1 : 0) == n;
    if (possible && raised < n)
        write_rota(&r, rota);
    leave(&r);
    return !possible ? IMPOSSIBLE : raised < n ? DONE : ENDED;
}

/* Components. Order is kept in mark, the lowest order in trail, the open codes in spare, the path in rest; the heads are used up. */

typedef struct {
    uint16_t *order;
    uint16_t *low;
    uint16_t *open;
    size_t met, open_count;
} Walk;

static void meet(Walk *w, uint16_t c)
{
    w->order[c] = w->low[c] = (uint16_t)++w->met;
    w->open[w->open_count++] = c;
}

/* The open codes from c on are a component. Its smallest code becomes their low, and their order too high to count for anyone. */
static void close_component(Walk *w, uint16_t c)
{
    uint16_t least = c;
    size_t from = w->open_count;
    do {
        from--;
        least = w->open[from] < least ? w->open[from] : least;
    } while (w->open[from] != c);
    for (size_t i = from; i < w->open_count; i++) {
        w->low[w->open[i]] = least;
        w->order[w->open[i]] = NONE;
    }
    w->open_count = from;
}

/* The path behind a is in rest, where it fits: it is no longer than there are steps, two to a rule. */
static void walk_from(Room *r, Walk *w, uint16_t root)
{
    uint16_t a = root;
    size_t depth = 0;
    meet(w, a);
    for (;;) {
        uint16_t e = r->head[opposite(a)];
        if (e != NONE) {
            uint16_t b = r->words[e ^ 1];
            r->head[opposite(a)] = r->next[e];
            if (w->order[b] == 0) {
                r->rest[depth++] = a;
                meet(w, a = b);
            } else if (w->order[b] < w->low[a]) {
                w->low[a] = w->order[b];
            }
            continue;
        }
        uint16_t low = w->low[a];
        if (low == w->order[a])
            close_component(w, a);
        if (depth == 0)
            return;
        a = r->rest[--depth];
        if (low < w->low[a])
            w->low[a] = low;
    }
}

/* For each code the smallest one of its component. */
static const uint16_t *components(Room *r)
{
    Walk w = {.order = r->mark, .low = r->trail, .open = r->spare};
    for (size_t c = 0; c < 2 * r->n; c++)
        if (w.order[c] == 0)
            walk_from(r, &w, (uint16_t)c);
    return w.low;
}

static size_t lowest_clash(size_t n, const uint16_t *least)
{
    size_t v = 0;
    while (v < n && least[late(v)] != least[early(v)])
        v++;
    return v;
}

uint32_t peer_ties(size_t n, const uint16_t *words, size_t words_len, uint16_t *ties, size_t ties_len, uint16_t *work,
                   size_t work_len, uint64_t *out, size_t out_len)
{
    uint32_t refused = refusal(n, words, words_len, ties_len >= n, work_len, out, out_len);
    if (refused)
        return refused;
    Room r = enter(n, words, words_len, work);
    const uint16_t *least = components(&r);
    bool possible = lowest_clash(n, least) == n;
    for (size_t v = 0; possible && v < n; v++)
        ties[v] = least[late(v)];
    leave(&r);
    return possible ? DONE : IMPOSSIBLE;
}

/* Clash. */

/*
 * Breadth first from c until its opposite is met; mark keeps the end through which a code was met, and one more. Codes come to the trail
 * in dictionary order of their chains, since lists run upward in rule numbers, so the first chain found is the one that is asked for.
 */
static void spread_to_opposite(Room *r, uint16_t c)
{
    clear_marks(r);
    r->mark[c] = NONE;
    r->trail[r->top++] = c;
    for (size_t at = 0; !r->mark[opposite(c)]; at++) {
        uint16_t off = opposite(r->trail[at]);
        for (size_t e = r->head[off]; e != NONE; e = r->next[e]) {
            uint16_t b = r->words[e ^ 1];
            if (r->mark[b])
                continue;
            r->mark[b] = (uint16_t)(e + 1);
            r->trail[r->top++] = b;
        }
    }
}

/* Writes the chain from c to its opposite, which there must be, and gives its length. */
static size_t write_chain(Room *r, uint16_t c, uint16_t *chain)
{
    spread_to_opposite(r, c);
    size_t length = 0;
    for (uint16_t b = opposite(c); b != c; b = opposite(r->words[r->mark[b] - 1]))
        r->spare[length++] = (uint16_t)((r->mark[b] - 1) / 2);
    for (size_t i = 0; i < length; i++)
        chain[i] = r->spare[length - 1 - i];
    return length;
}

uint32_t peer_clash(size_t n, const uint16_t *words, size_t words_len, uint16_t *chain, size_t chain_len, uint16_t *work,
                    size_t work_len, uint64_t *out, size_t out_len)
{
    uint32_t refused = refusal(n, words, words_len, chain_len >= 4 * n, work_len, out, out_len);
    if (refused)
        return refused;
    Room r = enter(n, words, words_len, work);
    size_t v = lowest_clash(n, components(&r));
    if (v < n) {
        link_ends(&r);
        out[0] = v;
        out[1] = write_chain(&r, late(v), chain);
        out[2] = write_chain(&r, early(v), chain + out[1]);
    }
    leave(&r);
    return v < n ? IMPOSSIBLE : DONE;
}
