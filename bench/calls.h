/*
 * The five calls behind one door, over one set of lent areas, for whoever answers them: what is timed and compared is then the same
 * for both sides. The areas are at full size and a little more, so that a write past what a call may write shows.
 */
#ifndef BENCH_CALLS_H
#define BENCH_CALLS_H

#include <stdbool.h>
#include <stdint.h>

#include "lists.h"

typedef enum { DECIDE, FORCED, CLASH, NEXT, TIES, CALLS } Call;

extern const char *const call_names[CALLS];

typedef uint32_t ByteCall(size_t n, const uint16_t *words, size_t words_len, uint8_t *bytes, size_t bytes_len,
                          uint16_t *work, size_t work_len, uint64_t *out, size_t out_len);
typedef uint32_t WordCall(size_t n, const uint16_t *words, size_t words_len, uint16_t *items, size_t items_len,
                          uint16_t *work, size_t work_len, uint64_t *out, size_t out_len);

typedef struct {
    ByteCall *decide, *forced, *next;
    WordCall *clash, *ties;
} Side;

extern const Side peers;

enum { SLACK = 8 };

typedef struct {
    uint8_t bytes[LIMIT_CHOICES + SLACK];
    uint16_t items[4 * LIMIT_CHOICES + SLACK];
    uint16_t work[LIMIT_WORK + SLACK];
    uint64_t out[3];
} Areas;

/* The lengths that are lent, which are not always the whole. */
typedef struct {
    size_t bytes, items, work, out;
} Lent;

extern const Lent whole;

/* Something in every byte and word, that no call leaves there. */
void soil(Areas *areas);

/* Breaks some of what a call asks for, often more than one thing at a time, so that refusals and their order can be compared. */
void spoil(List *list, Areas *areas, Lent *lent, Dice *dice);

uint32_t run_call(const Side *side, Call call, const List *list, Areas *areas, const Lent *lent);

/* Whether two answers to one call are the same, areas included. Of out only what the answer says is looked at. */
bool same_outcome(Call call, uint32_t answer, const Areas *areas, uint32_t answer2, const Areas *areas2);

#endif
