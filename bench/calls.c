/* See calls.h. One switch, so that a new call or a changed argument has one place here. */
#include "calls.h"

#include <string.h>

#include "peers.h"

const char *const call_names[CALLS] = {"decide", "forced", "clash", "next", "ties"};

const Side peers = {.decide = peer_decide, .forced = peer_forced, .clash = peer_clash, .next = peer_next, .ties = peer_ties};

const Lent whole = {LIMIT_CHOICES + SLACK, 4 * LIMIT_CHOICES + SLACK, LIMIT_WORK + SLACK, 3};

void soil(Areas *areas)
{
    memset(areas, 0xA5, sizeof *areas);
}

void spoil(List *list, Areas *areas, Lent *lent, Dice *dice)
{
    size_t n = list->n;
    if (list->len > 0 && roll(dice, 3) == 0)
        list->words[roll(dice, list->len)] = (uint16_t)(2 * n);
    if (n > 0 && roll(dice, 3) == 0)
        areas->bytes[roll(dice, n)] = 2;
    if (roll(dice, 8) == 0)
        lent->work = work_words(n, list->len) - 1;
    if (n > 0 && roll(dice, 8) == 0)
        lent->bytes = n - 1;
    if (n > 0 && roll(dice, 8) == 0)
        lent->items = n - 1 + 3 * n * roll(dice, 2);
    if (roll(dice, 16) == 0)
        list->len = LIMIT_WORDS + 2;
    if (list->len > 0 && roll(dice, 8) == 0)
        list->len--;
    if (roll(dice, 16) == 0)
        list->n = LIMIT_CHOICES + 1;
    if (roll(dice, 16) == 0)
        lent->out = 2;
}

uint32_t run_call(const Side *side, Call call, const List *list, Areas *areas, const Lent *lent)
{
    ByteCall *on_bytes = NULL;
    WordCall *on_items = NULL;
    switch (call) {
    case DECIDE:
        on_bytes = side->decide;
        break;
    case FORCED:
        on_bytes = side->forced;
        break;
    case NEXT:
        on_bytes = side->next;
        break;
    case CLASH:
        on_items = side->clash;
        break;
    default:
        on_items = side->ties;
    }
    if (on_bytes)
        return on_bytes(list->n, list->words, list->len, areas->bytes, lent->bytes, areas->work, lent->work, areas->out, lent->out);
    return on_items(list->n, list->words, list->len, areas->items, lent->items, areas->work, lent->work, areas->out, lent->out);
}

/* How many words of out an answer fills: a refusal its place, an Impossible the choice and Clash's lengths. */
static size_t numbers(Call call, uint32_t answer)
{
    if (answer == DONE || answer == ENDED || answer == OUT_SHORT)
        return 0;
    if (answer != IMPOSSIBLE)
        return 1;
    return call == CLASH ? 3 : call == DECIDE ? 1 : 0;
}

bool same_outcome(Call call, uint32_t answer, const Areas *areas, uint32_t answer2, const Areas *areas2)
{
    return answer == answer2 && memcmp(areas->out, areas2->out, numbers(call, answer) * sizeof *areas->out) == 0 &&
           memcmp(areas->bytes, areas2->bytes, sizeof areas->bytes) == 0 &&
           memcmp(areas->items, areas2->items, sizeof areas->items) == 0 &&
           memcmp(areas->work, areas2->work, sizeof areas->work) == 0;
}
