/*
 * The rule book in plain C, with the engine's own arguments, answers and refusals (see include/thwartpin.h), and the host's Decide over it: the
 * book's words and the work area are the call's own, zeroed at full size.
 */
#ifndef BENCH_BOOKS_H
#define BENCH_BOOKS_H

#include <stddef.h>
#include <stdint.h>

#include "lists.h"

enum { BOOK_ROOM = 4 + 2 * LIMIT_WORDS };

uint32_t peer_read_book(const uint8_t *book, size_t book_len, uint16_t *words, size_t words_len, uint64_t *out, size_t out_len);

uint32_t peer_host_decide(const uint8_t *book, size_t book_len, uint8_t *rota, size_t rota_len);

/* Writes the book of a list, and returns its length. */
size_t write_book(const List *list, uint8_t book[BOOK_ROOM]);

#endif
