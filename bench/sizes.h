/* The limits and the lent areas of the calls on a list, in one place: the areas, the lists and the peers are all measured by them. */
#ifndef BENCH_SIZES_H
#define BENCH_SIZES_H

#include <stddef.h>

enum { LIMIT_CHOICES = 256, LIMIT_RULES = 2048 };

enum { LIMIT_CODES = 2 * LIMIT_CHOICES, LIMIT_WORDS = 2 * LIMIT_RULES, LIMIT_WORK = 8 * LIMIT_CHOICES + 6 * LIMIT_RULES + 16 };

/* What a call answers where it does not refuse. OUT_SHORT is given where the room for numbers has fewer than three. */
enum { DONE = 0, IMPOSSIBLE = 100, ENDED = 101, OUT_SHORT = 200 };

/* The words of the work area that a call on n choices and words_len rule words asks for, and leaves 0. */
static inline size_t work_words(size_t n, size_t words_len)
{
    return 8 * n + 3 * words_len + 16;
}

#endif
