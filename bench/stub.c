/* Stands in for libthwartpin.a with --stub: every call goes to the peer, so that the comparison can be tried without the engine. */
#include "../include/thwartpin.h"
#include "peers.h"

#define FORWARD(call, item)                                                                                                     \
    uint32_t thwartpin_list_##call(size_t n, const uint16_t *words, size_t words_len, item *area, size_t area_len,              \
                                   uint16_t *work, size_t work_len, uint64_t *out, size_t out_len)                              \
    {                                                                                                                           \
        return peer_##call(n, words, words_len, area, area_len, work, work_len, out, out_len);                                  \
    }

FORWARD(decide, uint8_t)
FORWARD(forced, uint8_t)
FORWARD(next, uint8_t)
FORWARD(clash, uint16_t)
FORWARD(ties, uint16_t)
