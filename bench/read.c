/*
 * The host's path, from a book to an answer: the reader and the host's Decide beside plain C, and the host's Decide beside the call on the list
 * alone, in one run. The sides take turns and their answers are compared first, as in main.c.
 */
#include <stdbool.h>
#include <stdio.h>
#include <stdlib.h>
#include <string.h>

#include "../include/thwartpin.h"
#include "books.h"
#include "peers.h"
#include "timing.h"

enum { TURNS = 101, SPOILED = 200000 };

typedef struct {
    uint8_t bytes[BOOK_ROOM];
    size_t len;
    List list;
} Book;

/* What is timed, on one book. */
typedef uint32_t Job(const Book *book);

static uint16_t words[LIMIT_WORDS];
static uint16_t work[LIMIT_WORK];
static uint8_t rota[LIMIT_CHOICES];
static uint64_t out[3];

static uint32_t engine_read(const Book *book)
{
    return thwartpin_read_book(book->bytes, book->len, words, LIMIT_WORDS, out, 3);
}

static uint32_t plain_read(const Book *book)
{
    return peer_read_book(book->bytes, book->len, words, LIMIT_WORDS, out, 3);
}

static uint32_t engine_host(const Book *book)
{
    return thwartpin_decide(book->bytes, book->len, rota, LIMIT_CHOICES);
}

static uint32_t plain_host(const Book *book)
{
    return peer_host_decide(book->bytes, book->len, rota, LIMIT_CHOICES);
}

static uint32_t engine_list(const Book *book)
{
    return thwartpin_list_decide(book->list.n, book->list.words, book->list.len, rota, LIMIT_CHOICES, work, LIMIT_WORK, out, 3);
}

/* Answers. */

static void differ(const char *what)
{
    fprintf(stderr, "DIFFERENT: %s\n", what);
    exit(1);
}

static void compare(const Book *book)
{
    static uint16_t words2[LIMIT_WORDS];
    uint8_t rota2[LIMIT_CHOICES];
    uint64_t out2[3] = {7, 7, 7};
    memset(words, 7, sizeof words);
    memset(words2, 7, sizeof words2);
    out[0] = out[1] = out[2] = 7;
    uint32_t answer = engine_read(book);
    if (answer != peer_read_book(book->bytes, book->len, words2, LIMIT_WORDS, out2, 3) || memcmp(words, words2, sizeof words) ||
        memcmp(out, out2, sizeof out))
        differ("reading a book");
    memset(rota, 7, sizeof rota);
    memset(rota2, 7, sizeof rota2);
    answer = engine_host(book);
    if (answer != peer_host_decide(book->bytes, book->len, rota2, LIMIT_CHOICES) || memcmp(rota, rota2, sizeof rota))
        differ("the host's Decide");
}

/* Books with a byte changed, cut off or added. */
static void compare_spoiled(void)
{
    static Book book;
    Dice dice = {.state = 3};
    for (int i = 0; i < SPOILED; i++) {
        book.list.n = 2 + roll(&dice, 100);
        book.list.len = 0;
        add_random(&book.list, &dice, roll(&dice, 12));
        book.len = write_book(&book.list, book.bytes);
        book.bytes[roll(&dice, book.len)] = (uint8_t)roll(&dice, 256);
        book.len += roll(&dice, 3);
        book.len -= roll(&dice, 3);
        compare(&book);
    }
}

/* Times. */

static double time_rounds(Job *job, const Book *book, size_t rounds)
{
    double start = now();
    for (size_t i = 0; i < rounds; i++)
        job(book);
    return (now() - start) / (double)rounds;
}

/* Median seconds of the two, taken in turns. */
static Times measure(Job *engine, Job *other, const Book *book)
{
    static double engine_times[TURNS];
    static double other_times[TURNS];
    size_t rounds = 1 + (size_t)(100e-6 / (1e-9 + time_rounds(engine, book, 3)));
    for (int turn = 0; turn < TURNS; turn++) {
        if (turn % 2 == 0)
            engine_times[turn] = time_rounds(engine, book, rounds);
        other_times[turn] = time_rounds(other, book, rounds);
        if (turn % 2 == 1)
            engine_times[turn] = time_rounds(engine, book, rounds);
    }
    return (Times){median(engine_times, TURNS), median(other_times, TURNS)};
}

/* Books. */

/* Rules over all n choices, of codes of which none is below `from`. */
static void fill(Book *book, size_t n, size_t m, size_t from)
{
    Dice dice = {.state = n + m};
    book->list.n = n;
    book->list.len = 2 * m;
    for (size_t i = 0; i < book->list.len; i++)
        book->list.words[i] = (uint16_t)(from + roll(&dice, 2 * n - from));
    book->len = write_book(&book->list, book->bytes);
}

static void show(const char *name, size_t n, size_t m, size_t from)
{
    static Book book;
    fill(&book, n, m, from);
    compare(&book);
    Times read = measure(engine_read, plain_read, &book);
    Times host = measure(engine_host, plain_host, &book);
    Times list = measure(engine_host, engine_list, &book);
    printf("| %-17s | %3zu | %4zu | %5zu | %7.2f | %7.2f | %7.2f |\n", name, n, m, book.len, read.engine / read.other,
           host.engine / host.other, list.engine / list.other);
}

int main(void)
{
    compare_spoiled();
    printf("| book              |   n |    m | bytes |    read |  decide | to list |\n|---|---|---|---|---|---|---|\n");
    show("no rules", 256, 0, 0);
    show("three rules", 3, 3, 0);
    show("some rules", 100, 100, 0);
    show("codes of one byte", 64, LIMIT_RULES, 0);
    show("of two bytes", 256, LIMIT_RULES, 128);
    show("of both", 256, LIMIT_RULES, 0);
    return 0;
}
