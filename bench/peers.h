/*
 * The five calls in plain C, with the engine's own arguments, answers, refusals and areas (see include/thwartpin.h): the two sides do the same
 * job, down to the cleared work area, so that a difference in time is one of method and code.
 */
#ifndef BENCH_PEERS_H
#define BENCH_PEERS_H

#include <stddef.h>
#include <stdint.h>

uint32_t peer_decide(size_t n, const uint16_t *words, size_t words_len, uint8_t *rota, size_t rota_len,
                     uint16_t *work, size_t work_len, uint64_t *out, size_t out_len);
uint32_t peer_forced(size_t n, const uint16_t *words, size_t words_len, uint8_t *forced, size_t forced_len,
                     uint16_t *work, size_t work_len, uint64_t *out, size_t out_len);
uint32_t peer_clash(size_t n, const uint16_t *words, size_t words_len, uint16_t *chain, size_t chain_len,
                    uint16_t *work, size_t work_len, uint64_t *out, size_t out_len);
uint32_t peer_next(size_t n, const uint16_t *words, size_t words_len, uint8_t *rota, size_t rota_len,
                   uint16_t *work, size_t work_len, uint64_t *out, size_t out_len);
uint32_t peer_ties(size_t n, const uint16_t *words, size_t words_len, uint16_t *ties, size_t ties_len,
                   uint16_t *work, size_t work_len, uint64_t *out, size_t out_len);

#endif
