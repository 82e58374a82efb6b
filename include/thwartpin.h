/*
 * Thwartpin: what a list of two-way rules over early/late choices allows. Link with libthwartpin.a, which needs nothing but the C library's memset.
 * It is made for hosts on x86-64 under Linux, with the instructions of x86-64-v2.
 *
 * Three choices and three rules, as a book, and every rota that they allow, in dictionary order:
 *
 *     #include <stdio.h>
 *     #include "thwartpin.h"
 *
 *     int main(void)
 *     {
 *         const uint8_t book[] = {3, 3, 0, 2, 3, 4, 1, 4};
 *         uint8_t rota[3];
 *         uint32_t answer = thwartpin_decide(book, sizeof book, rota, sizeof rota);
 *
 *         while (answer == THWARTPIN_DONE) {
 *             printf("%d%d%d\n", rota[0], rota[1], rota[2]);
 *             answer = thwartpin_next(book, sizeof book, rota, sizeof rota);
 *         }
 *         return answer == THWARTPIN_ENDED ? 0 : 1;
 *     }
 *
 * It prints 011, 101 and 111. On any good book, with a byte of rota for each choice, the loop goes through every
 * allowed rota, each once, and ends: that is proved.
 *
 *
 * Choices, codes, rules, rotas
 *
 * There are n choices, 0 to n - 1, each 0 (early) or 1 (late). Code 2v says that choice v is late, code 2v + 1 that it is early. A rule is two
 * codes, of which at least one must be true; a list of m rules is 2m words, rule k the words 2k and 2k + 1. A rota is one byte for each
 * choice. It is allowed if it meets every rule. Of two rotas the one that has 0 where they first differ comes first.
 * n is at most THWARTPIN_CHOICES and m at most THWARTPIN_RULES.
 *
 * A book is n, then m, then the 2m codes. A number below 128 is one byte; a larger one is two, the lowest seven bits first with the top bit
 * set. The longest book has 8,196 bytes.
 *
 *
 * Areas
 *
 * An area is a pointer and a length, which counts bytes for uint8_t, words for uint16_t and uint64_t. It is lent for the call and is the caller's
 * again afterwards. Each area is as long as its length says and aligned for its type. Areas of one call that the call may write must not
 * overlap each other or any other area of that call. An area of length 0 may be NULL.
 * Past what a call writes, each byte and word stays as it was; a call that refuses changes nothing but out[0].
 *
 * No call allocates, reads a file, or keeps anything between calls. Calls may run on several threads at once, each with areas of its own; areas
 * that are only read (book, words) may be shared.
 *
 *
 * Refusals
 *
 * The first that applies, in the order given with each call, is the answer. Its place is where the list or the book is wrong.
 *
 *      number                          given when                                                place
 *      1  THWARTPIN_TOO_MANY_CHOICES   n is over 256                                             list: 0; book: first byte of the number
 *      2  THWARTPIN_ODD_WORDS          the list has an odd number of words                       0
 *      3  THWARTPIN_TOO_MANY_RULES     m is over 2,048                                           list: 0; book: first byte of the number
 *      4  THWARTPIN_CODE_TOO_HIGH      a code is 2n or more                                      list: first such word; book: its first byte
 *      5  THWARTPIN_WORK_TOO_SHORT     the work area is too short                                0
 *      6  THWARTPIN_ANSWER_TOO_SHORT   the area for the answer is too short                      0
 *      7  THWARTPIN_BOOK_ENDS          the book ends inside a number or before one               the book's length
 *      8  THWARTPIN_NUMBER_TOO_LONG    the second byte of a number has its top bit set           that byte
 *      9  THWARTPIN_NUMBER_PADDED      the second byte of a number is 0                          that byte
 *      10 THWARTPIN_BYTES_LEFT         bytes are left after the last code                        the first of them
 *      11 THWARTPIN_VALUE_TOO_HIGH     a byte of the rota for Next is over 1, in its first n     the first of them
 */
#ifndef THWARTPIN_H
#define THWARTPIN_H

#include <stddef.h>
#include <stdint.h>

#ifdef __cplusplus
extern "C" {
#endif

#define THWARTPIN_CHOICES 256
#define THWARTPIN_RULES 2048

/* The words of work that a call on a list of n choices and m rules needs. */
#define THWARTPIN_WORK(n, m) (8 * (size_t)(n) + 6 * (size_t)(m) + 16)

/* The words of out that a call on a list needs. */
#define THWARTPIN_OUT 3

/* Answers of the host's calls: 0, a refusal, or one of these. */
#define THWARTPIN_DONE 0
#define THWARTPIN_IMPOSSIBLE 20
#define THWARTPIN_ENDED 21

/* Answers of the calls on a list and of thwartpin_read_book: 0, a refusal, or one of these. */
#define THWARTPIN_LIST_IMPOSSIBLE 100
#define THWARTPIN_LIST_ENDED 101
#define THWARTPIN_OUT_TOO_SHORT 200

/* Refusals. */
#define THWARTPIN_TOO_MANY_CHOICES 1
#define THWARTPIN_ODD_WORDS 2
#define THWARTPIN_TOO_MANY_RULES 3
#define THWARTPIN_CODE_TOO_HIGH 4
#define THWARTPIN_WORK_TOO_SHORT 5
#define THWARTPIN_ANSWER_TOO_SHORT 6
#define THWARTPIN_BOOK_ENDS 7
#define THWARTPIN_NUMBER_TOO_LONG 8
#define THWARTPIN_NUMBER_PADDED 9
#define THWARTPIN_BYTES_LEFT 10
#define THWARTPIN_VALUE_TOO_HIGH 11

/*
 * The host's calls: a book in, a rota out. What they work in is on the stack, 37 KiB when measured: give a thread that calls them 64 KiB for it.
 * Order of refusals: the book's (1 with 7 to 9 for n, 3 with 7 to 9 for m, 4 with 7 to 9 code by code, 10), then 6, then for Next 11.
 * The rota's bytes change only with the answer 0, and then only the first n of them.
 */

/*
 * Writes the first allowed rota. rota: at least n bytes.
 *   THWARTPIN_DONE         the rota is written
 *   THWARTPIN_IMPOSSIBLE   no rota is allowed
 */
uint32_t thwartpin_decide(const uint8_t *book, size_t book_len, uint8_t *rota, size_t rota_len);

/*
 * Replaces the rota by the first allowed one that comes strictly after it. The given one need not be allowed. rota: at least n bytes, of which the
 * first n are 0 or 1.
 *   THWARTPIN_DONE         the next rota is written
 *   THWARTPIN_ENDED        rotas are allowed, but none after the given one
 *   THWARTPIN_IMPOSSIBLE   no rota is allowed
 */
uint32_t thwartpin_next(const uint8_t *book, size_t book_len, uint8_t *rota, size_t rota_len);

/*
 * The calls on a list, for hosts that keep their own areas.
 * words: the 2m words of the list. They are read only.
 * work: at least THWARTPIN_WORK(n, m) words, which may hold anything before. After an answer that is no refusal the first THWARTPIN_WORK(n, m) are 0.
 * out: at least THWARTPIN_OUT words. Where it has fewer the answer is THWARTPIN_OUT_TOO_SHORT, before every refusal, and nothing changes.
 * A refusal puts its place into out[0]. What else is put into out is said with each call; all other words of out stay.
 * Order of refusals: 1, 2, 3, 6, 5, 4, and for Next 11.
 */

/*
 * Decide: the first allowed rota. rota: at least n bytes.
 *   0                           possible: the rota is written
 *   THWARTPIN_LIST_IMPOSSIBLE   no rota is allowed; rota stays. out[0] is the lowest choice v whose two codes each lead to the other by a chain of rules
 */
uint32_t thwartpin_list_decide(size_t n, const uint16_t *words, size_t words_len, uint8_t *rota, size_t rota_len, uint16_t *work,
                               size_t work_len, uint64_t *out, size_t out_len);

/*
 * Forced: for each choice 0 or 1 where every allowed rota has that value, 2 where they differ. forced: at least n bytes.
 *   0                           the n bytes are written
 *   THWARTPIN_LIST_IMPOSSIBLE   no rota is allowed; forced stays
 */
uint32_t thwartpin_list_forced(size_t n, const uint16_t *words, size_t words_len, uint8_t *forced, size_t forced_len, uint16_t *work,
                               size_t work_len, uint64_t *out, size_t out_len);

/*
 * Clash: why no rota is allowed. From code a, a rule that holds the opposite of a leads to its other code; a chain is the numbers of rules that lead
 * from one code to another in turn. chain: at least 4n words.
 *   0                           rotas are allowed; chain stays
 *   THWARTPIN_LIST_IMPOSSIBLE   out[0] is Decide's choice v; chain holds out[1] rule numbers that lead from 2v to 2v + 1, then out[2] that lead back.
 *                               Each chain is of the least length, and of those the first in dictionary order
 */
uint32_t thwartpin_list_clash(size_t n, const uint16_t *words, size_t words_len, uint16_t *chain, size_t chain_len, uint16_t *work,
                              size_t work_len, uint64_t *out, size_t out_len);

/*
 * Next: the first allowed rota strictly after the given one, which need not be allowed. rota: at least n bytes, of which the first n are 0 or 1.
 *   0                           the next rota is written
 *   THWARTPIN_LIST_ENDED        rotas are allowed, but none after the given one; rota stays
 *   THWARTPIN_LIST_IMPOSSIBLE   no rota is allowed; rota stays
 */
uint32_t thwartpin_list_next(size_t n, const uint16_t *words, size_t words_len, uint8_t *rota, size_t rota_len, uint16_t *work,
                             size_t work_len, uint64_t *out, size_t out_len);

/*
 * Ties: for each choice v the smallest code that chains lead to from 2v and back from it, 2v itself included. ties: at least n words.
 *   0                           the n words are written
 *   THWARTPIN_LIST_IMPOSSIBLE   no rota is allowed; ties stays
 */
uint32_t thwartpin_list_ties(size_t n, const uint16_t *words, size_t words_len, uint16_t *ties, size_t ties_len, uint16_t *work,
                             size_t work_len, uint64_t *out, size_t out_len);

/*
 * Reads a book. words: at least 2m words (4,096 do for every book). out: as above.
 *   0   the 2m codes are written at the front of words; out[0] is n, out[1] is m
 * Order of refusals: n's form (7, 8, 9), 1, m's form, 3, 6, then code by code its form and 4, then 10.
 */
uint32_t thwartpin_read_book(const uint8_t *book, size_t book_len, uint16_t *words, size_t words_len, uint64_t *out, size_t out_len);

#ifdef __cplusplus
}
#endif

#endif
