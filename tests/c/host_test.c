/*
 * The contract of the C face, as include/thwartpin.h states it, against the archive: the host's two calls, and each call on a list where C
 * adds something to it (numbers, out, empty areas, threads, the stack). What the answers are for all small lists is compared elsewhere.
 */
#define _XOPEN_SOURCE 600
#include <pthread.h>
#include <stdio.h>
#include <stdlib.h>
#include <string.h>

#include "thwartpin.h"

/* Areas are filled with these before a call, so that a changed byte or word shows. */
#define BYTE 0xA5
#define WORD 0xA5A5
#define LONG 0xA5A5A5A5A5A5A5A5u
#define ROOM 64
#define COUNT(array) (sizeof(array) / sizeof((array)[0]))

static unsigned long passed, failed;

static void expect(int holds, const char *what, const char *which)
{
    if (holds) {
        passed++;
        return;
    }
    failed++;
    printf("failed: %s: %s\n", which, what);
}

/* Areas with room past what a call is lent. */
struct areas {
    uint8_t bytes[ROOM];
    uint16_t words[ROOM];
    uint16_t work[4 * ROOM];
    uint64_t out[8];
};

static void fill(struct areas *a)
{
    size_t i;

    memset(a->bytes, BYTE, sizeof a->bytes);
    for (i = 0; i < COUNT(a->words); i++)
        a->words[i] = WORD;
    for (i = 0; i < COUNT(a->work); i++)
        a->work[i] = WORD;
    for (i = 0; i < COUNT(a->out); i++)
        a->out[i] = LONG;
}

static int bytes_stay(const struct areas *a, size_t from)
{
    for (; from < COUNT(a->bytes); from++)
        if (a->bytes[from] != BYTE)
            return 0;
    return 1;
}

static int words_stay(const uint16_t *words, size_t from, size_t to)
{
    for (; from < to; from++)
        if (words[from] != WORD)
            return 0;
    return 1;
}

static int out_stays(const struct areas *a, size_t from)
{
    for (; from < COUNT(a->out); from++)
        if (a->out[from] != LONG)
            return 0;
    return 1;
}

/* The listed books, and case J's. */
struct book {
    const char *name;
    uint8_t bytes[12];
    size_t length;
    size_t room;          /* words to read into */
    uint32_t read;        /* the reader's answer, */
    uint64_t out0, out1;  /* its place, or n and m, */
    uint32_t host;        /* and the host's Decide, which has room for every book */
};

static const struct book books[] = {
    {"80 02 00", {0x80, 0x02, 0x00}, 3, 1, 0, 256, 0, 6},
    {"81 02", {0x81, 0x02}, 2, 1, 1, 0, LONG, 1},
    {"empty", {0}, 0, 1, 7, 0, LONG, 7},
    {"80", {0x80}, 1, 1, 7, 1, LONG, 7},
    {"80 80", {0x80, 0x80}, 2, 1, 8, 1, LONG, 8},
    {"80 00", {0x80, 0x00}, 2, 1, 9, 1, LONG, 9},
    {"00 81 10", {0x00, 0x81, 0x10}, 3, 1, 3, 1, LONG, 3},
    {"00 00 00", {0x00, 0x00, 0x00}, 3, 1, 10, 2, LONG, 10},
    {"01 01 00 02", {0x01, 0x01, 0x00, 0x02}, 4, 2, 4, 3, LONG, 4},
    {"01 01 00 00", {0x01, 0x01, 0x00, 0x00}, 4, 1, 6, 0, LONG, 0},
    {"01 01", {0x01, 0x01}, 2, 1, 6, 0, LONG, 7},
    {"01 01 02", {0x01, 0x01, 0x02}, 3, 1, 6, 0, LONG, 4},
    {"case D", {0x01, 0x02, 0x00, 0x00, 0x01, 0x01}, 6, 4, 0, 1, 2, 20},
    {"case J", {0x03, 0x03, 0x00, 0x02, 0x03, 0x04, 0x01, 0x04}, 8, 6, 0, 3, 3, 0},
};

static void test_books(void)
{
    struct areas a;
    size_t i;

    for (i = 0; i < COUNT(books); i++) {
        const struct book *b = &books[i];
        uint32_t answer;
        size_t written;

        fill(&a);
        answer = thwartpin_read_book(b->bytes, b->length, a.words, b->room, a.out, THWARTPIN_OUT);
        written = answer == 0 ? 2 * (size_t)b->out1 : 0;
        expect(answer == b->read, "the reader's answer", b->name);
        expect(a.out[0] == b->out0 && a.out[1] == b->out1 && out_stays(&a, 2), "the reader's out", b->name);
        expect(words_stay(a.words, written, COUNT(a.words)), "words past those written stay", b->name);

        fill(&a);
        answer = thwartpin_decide(b->bytes, b->length, a.bytes, 8);
        expect(answer == b->host, "the host's Decide", b->name);
        expect(bytes_stay(&a, answer == 0 ? b->bytes[0] : 0), "the rota changes only with 0, and past n it stays", b->name);

        fill(&a);
        memset(a.bytes, 0, 3);
        answer = thwartpin_next(b->bytes, b->length, a.bytes, 8);
        if (b->host == 6)
            expect(answer == 6, "the host's Next", b->name);
        else
            expect(answer == b->host, "the host's Next", b->name);
        expect(bytes_stay(&a, 3), "Next's bytes past n stay", b->name);
        if (answer != 0)
            expect(a.bytes[0] == 0 && a.bytes[1] == 0 && a.bytes[2] == 0, "the rota changes only with 0", b->name);
    }
}

/* Which refusal comes first in the host's calls: the book's, then 6, then 11. */
static void test_host_order(void)
{
    static const uint8_t one[] = {1, 0}, bad[] = {1, 1, 0, 2}, clash[] = {1, 2, 0, 0, 1, 1}, none[] = {0, 0};
    struct areas a;

    fill(&a);
    expect(thwartpin_decide(bad, sizeof bad, a.bytes, 0) == 4, "the book before the rota's length", "order");
    expect(thwartpin_next(bad, sizeof bad, a.bytes, 0) == 4, "the book before the rota's length, in Next", "order");
    expect(thwartpin_next(bad, sizeof bad, a.bytes, 1) == 4, "the book before the rota's bytes", "order");
    expect(thwartpin_decide(one, sizeof one, a.bytes, 0) == 6, "6 for a short rota", "order");
    expect(thwartpin_decide(clash, sizeof clash, a.bytes, 0) == 6, "6 before Impossible", "order");
    expect(thwartpin_next(one, sizeof one, a.bytes, 0) == 6, "6 for a short rota, in Next", "order");
    expect(thwartpin_next(one, sizeof one, a.bytes, 1) == 11, "11 for a byte over 1", "order");
    expect(thwartpin_next(clash, sizeof clash, a.bytes, 1) == 11, "11 before Impossible", "order");
    expect(thwartpin_next(none, sizeof none, a.bytes, 1) == 21, "a byte past n is not looked at", "order");
    expect(bytes_stay(&a, 0), "no byte changes", "order");
    expect(thwartpin_decide(one, sizeof one, a.bytes, 1) == 0 && a.bytes[0] == 0, "Decide does not look at the rota", "order");
    expect(thwartpin_next(one, sizeof one, a.bytes, 1) == 0 && a.bytes[0] == 1, "Next", "order");
    expect(thwartpin_next(one, sizeof one, a.bytes, 1) == 21 && a.bytes[0] == 1, "Ended, and the rota stays", "order");
    a.bytes[0] = 0;
    expect(thwartpin_next(clash, sizeof clash, a.bytes, 1) == 20 && a.bytes[0] == 0, "Impossible, and the rota stays", "order");
    expect(bytes_stay(&a, 1), "no byte past n changes", "order");
}

/*
 * The longest book: n 256, m 2048, each number in two bytes. Choices 64 to 255 are demanded late, and the others are free, so that the first rotas
 * count up in choices 0 to 63.
 */
#define LONGEST 8196

static void longest_book(uint8_t *book)
{
    size_t k;

    book[0] = 0x80, book[1] = 0x02;
    book[2] = 0x80, book[3] = 0x10;
    for (k = 0; k < 4096; k++) {
        unsigned code = 2 * (64 + (unsigned)(k / 2) % 192);

        book[4 + 2 * k] = (uint8_t)(code % 128 + 128);
        book[5 + 2 * k] = (uint8_t)(code / 128);
    }
}

static int is_counted(const uint8_t *rota, unsigned count)
{
    unsigned v;

    for (v = 0; v < 256; v++) {
        unsigned value = v >= 64 ? 1 : v < 32 ? 0 : count >> (63 - v) & 1;

        if (rota[v] != value)
            return 0;
    }
    return 1;
}

static void test_longest(void)
{
    static uint8_t book[LONGEST + 1];
    static uint16_t words[4096 + 1];
    uint8_t rota[257];
    uint64_t out[3];
    unsigned count;

    longest_book(book);
    memset(rota, BYTE, sizeof rota);
    expect(thwartpin_decide(book, LONGEST, rota, 256) == 0 && is_counted(rota, 0), "the first rota", "longest book");
    for (count = 1; count <= 40; count++)
        expect(thwartpin_next(book, LONGEST, rota, 256) == 0 && is_counted(rota, count), "the next rota", "longest book");
    expect(rota[256] == BYTE, "the byte past the rota stays", "longest book");
    words[4096] = WORD;
    expect(thwartpin_read_book(book, LONGEST, words, 4096, out, 3) == 0 && out[0] == 256 && out[1] == 2048, "n and m", "longest book");
    expect(words[0] == 128 && words[4095] == 2 * (64 + 2047 % 192) && words[4096] == WORD, "words", "longest book");
    expect(thwartpin_read_book(book, LONGEST, words, 4095, out, 3) == 6, "one word too few", "longest book");
    book[LONGEST] = 0;
    memset(rota, BYTE, sizeof rota);
    expect(thwartpin_decide(book, LONGEST + 1, rota, 256) == 10 && rota[0] == BYTE, "a byte more", "longest book");
    expect(thwartpin_decide(book, LONGEST - 1, rota, 256) == 7 && rota[0] == BYTE, "a byte less", "longest book");
}

/* The calls on a list whose areas are bytes, and those whose areas are words. */
typedef uint32_t byte_call(size_t, const uint16_t *, size_t, uint8_t *, size_t, uint16_t *, size_t, uint64_t *, size_t);
typedef uint32_t word_call(size_t, const uint16_t *, size_t, uint16_t *, size_t, uint16_t *, size_t, uint64_t *, size_t);

static byte_call *const byte_calls[] = {thwartpin_list_decide, thwartpin_list_forced, thwartpin_list_next};
static word_call *const word_calls[] = {thwartpin_list_clash, thwartpin_list_ties};
static const char *const byte_names[] = {"decide", "forced", "next"};
static const char *const word_names[] = {"clash", "ties"};

/* out has fewer than 3 words: 200, before every refusal, and nothing changes. */
static void test_short_out(void)
{
    static const uint16_t words[] = {0, 9, 1};
    struct areas a;
    size_t call, room, n;

    for (n = 1; n <= 300; n += 299)
        for (room = 0; room < 3; room++) {
            for (call = 0; call < COUNT(byte_calls); call++) {
                fill(&a);
                expect(byte_calls[call](n, words, 3, a.bytes, 0, a.work, 0, a.out, room) == 200, "out too short", byte_names[call]);
                expect(bytes_stay(&a, 0) && words_stay(a.work, 0, COUNT(a.work)) && out_stays(&a, 0), "all stays", byte_names[call]);
            }
            for (call = 0; call < COUNT(word_calls); call++) {
                fill(&a);
                expect(word_calls[call](n, words, 3, a.words, 0, a.work, 0, a.out, room) == 200, "out too short", word_names[call]);
                expect(words_stay(a.words, 0, COUNT(a.words)) && words_stay(a.work, 0, COUNT(a.work)) && out_stays(&a, 0), "all stays",
                       word_names[call]);
            }
            fill(&a);
            expect(thwartpin_read_book(books[1].bytes, books[1].length, a.words, 0, a.out, room) == 200, "out too short", "read");
            expect(words_stay(a.words, 0, COUNT(a.words)) && out_stays(&a, 0), "all stays", "read");
        }
}

/* A list, a call on it, and what is to be found afterwards: the answer, the values in out, and the items written. */
struct list {
    const char *name;
    size_t n;
    uint16_t words[8];
    size_t length;
};

static const struct list clash_d = {"case D", 1, {0, 0, 1, 1}, 4};
static const struct list tied_f = {"case F", 2, {1, 2, 3, 0}, 4};
static const struct list clash_g = {"case G", 2, {0, 2, 0, 3, 1, 2, 1, 3}, 8};
static const struct list order_i = {"case I", 3, {1, 2, 3, 4}, 4};
static const struct list forced_j = {"case J", 3, {0, 2, 3, 4, 1, 4}, 6};
static const struct list high_k = {"case K", 2, {0, 4}, 2};

static size_t work_of(const struct list *l)
{
    return THWARTPIN_WORK(l->n, l->length / 2);
}

/* The work area is 0 as far as the call needs it and stays past that; with a refusal it stays whole. */
static int work_right(const struct areas *a, const struct list *l, uint32_t answer)
{
    size_t needs = answer == 0 || answer >= 100 ? work_of(l) : 0, i;

    for (i = 0; i < needs; i++)
        if (a->work[i] != 0)
            return 0;
    return words_stay(a->work, needs, COUNT(a->work));
}

static void byte_case(byte_call *call, const struct list *l, const char *before, uint32_t answer, uint64_t out0, const char *after)
{
    struct areas a;
    uint32_t got;
    size_t i;

    fill(&a);
    for (i = 0; before[i]; i++)
        a.bytes[i] = (uint8_t)(before[i] - '0');
    got = call(l->n, l->words, l->length, a.bytes, l->n, a.work, work_of(l), a.out, 3);
    expect(got == answer, "the answer", l->name);
    expect(a.out[0] == out0 && out_stays(&a, 1), "out", l->name);
    for (i = 0; after[i]; i++)
        expect(a.bytes[i] == after[i] - '0', "a byte", l->name);
    expect(bytes_stay(&a, i), "bytes past those written stay", l->name);
    expect(work_right(&a, l, got), "the work area", l->name);
}

static void word_case(word_call *call, const struct list *l, size_t room, uint32_t answer, const uint64_t *out, size_t values, const char *after)
{
    struct areas a;
    uint32_t got;
    size_t i;

    fill(&a);
    got = call(l->n, l->words, l->length, a.words, room, a.work, work_of(l), a.out, 3);
    expect(got == answer, "the answer", l->name);
    for (i = 0; i < values; i++)
        expect(a.out[i] == out[i], "a value in out", l->name);
    expect(out_stays(&a, values), "other words of out stay", l->name);
    for (i = 0; after[i]; i++)
        expect(a.words[i] == after[i] - '0', "a word", l->name);
    expect(words_stay(a.words, i, COUNT(a.words)), "words past those written stay", l->name);
    expect(work_right(&a, l, got), "the work area", l->name);
}

static void test_lists(void)
{
    static const uint64_t d_out[] = {0, 1, 1}, g_out[] = {0, 2, 2}, k_out[] = {1};

    byte_case(thwartpin_list_decide, &forced_j, "", 0, LONG, "011");
    byte_case(thwartpin_list_decide, &clash_d, "", 100, 0, "");
    byte_case(thwartpin_list_decide, &high_k, "", 4, 1, "");
    byte_case(thwartpin_list_forced, &forced_j, "", 0, LONG, "221");
    byte_case(thwartpin_list_forced, &clash_d, "", 100, LONG, "");
    byte_case(thwartpin_list_forced, &high_k, "", 4, 1, "");
    byte_case(thwartpin_list_next, &order_i, "010", 0, LONG, "011");
    byte_case(thwartpin_list_next, &order_i, "001", 0, LONG, "011");
    byte_case(thwartpin_list_next, &order_i, "111", 101, LONG, "111");
    byte_case(thwartpin_list_next, &clash_d, "0", 100, LONG, "0");
    byte_case(thwartpin_list_next, &high_k, "22", 4, 1, "22");
    byte_case(thwartpin_list_next, &order_i, "003", 11, 2, "003");
    word_case(thwartpin_list_clash, &clash_d, 4, 100, d_out, 3, "10");
    word_case(thwartpin_list_clash, &clash_g, 8, 100, g_out, 3, "2301");
    word_case(thwartpin_list_clash, &forced_j, 12, 0, NULL, 0, "");
    word_case(thwartpin_list_clash, &high_k, 8, 4, k_out, 1, "");
    word_case(thwartpin_list_ties, &tied_f, 2, 0, NULL, 0, "00");
    word_case(thwartpin_list_ties, &clash_d, 1, 100, NULL, 0, "");
    word_case(thwartpin_list_ties, &high_k, 2, 4, k_out, 1, "");
}

/* An area of length 0 may be NULL. */
static void test_empty(void)
{
    static const uint8_t none[] = {0, 0};
    struct areas a;
    size_t call;

    fill(&a);
    expect(thwartpin_decide(NULL, 0, NULL, 0) == 7, "no book", "empty");
    expect(thwartpin_next(NULL, 0, NULL, 0) == 7, "no book, in Next", "empty");
    expect(thwartpin_decide(none, sizeof none, NULL, 0) == 0, "no rota", "empty");
    expect(thwartpin_next(none, sizeof none, NULL, 0) == 21, "no rota, in Next", "empty");
    expect(thwartpin_decide(books[13].bytes, books[13].length, NULL, 0) == 6, "no rota where one is needed", "empty");
    expect(thwartpin_read_book(none, sizeof none, NULL, 0, a.out, 3) == 0 && a.out[0] == 0 && a.out[1] == 0, "no words", "empty");
    expect(thwartpin_read_book(NULL, 0, NULL, 0, a.out, 3) == 7 && a.out[0] == 0, "no book, in the reader", "empty");
    expect(thwartpin_read_book(NULL, 0, NULL, 0, NULL, 0) == 200, "no out, in the reader", "empty");
    for (call = 0; call < COUNT(byte_calls); call++) {
        uint32_t done = byte_calls[call] == thwartpin_list_next ? 101 : 0;

        expect(byte_calls[call](0, NULL, 0, NULL, 0, a.work, 16, a.out, 3) == done, "nothing at all", byte_names[call]);
        expect(byte_calls[call](0, NULL, 0, NULL, 0, NULL, 0, a.out, 3) == 5 && a.out[0] == 0, "no work", byte_names[call]);
        expect(byte_calls[call](1, NULL, 0, NULL, 0, NULL, 0, a.out, 3) == 6 && a.out[0] == 0, "no room", byte_names[call]);
        expect(byte_calls[call](0, NULL, 0, NULL, 0, NULL, 0, NULL, 0) == 200, "no out", byte_names[call]);
    }
    for (call = 0; call < COUNT(word_calls); call++) {
        expect(word_calls[call](0, NULL, 0, NULL, 0, a.work, 16, a.out, 3) == 0, "nothing at all", word_names[call]);
        expect(word_calls[call](0, NULL, 0, NULL, 0, NULL, 0, a.out, 3) == 5 && a.out[0] == 0, "no work", word_names[call]);
        expect(word_calls[call](1, NULL, 0, NULL, 0, NULL, 0, a.out, 3) == 6 && a.out[0] == 0, "no room", word_names[call]);
        expect(word_calls[call](0, NULL, 0, NULL, 0, NULL, 0, NULL, 0) == 200, "no out", word_names[call]);
    }
}

/* Two threads walk all rotas of a book of their own, with the book's bytes shared between two more, and get what one thread alone gets. */
struct walk {
    const uint8_t *book;
    size_t length;
    unsigned long steps, sum;
};

/* Choices 0 to 9 are free, or each leads to the one after it. */
static const uint8_t free_book[] = {10, 0};
static const uint8_t chain_book[] = {10, 9, 1, 2, 3, 4, 5, 6, 7, 8, 9, 10, 11, 12, 13, 14, 15, 16, 17, 18};

static void *walk_all(void *given)
{
    struct walk *w = given;
    uint8_t rota[10];
    unsigned round, v;

    w->steps = 0, w->sum = 0;
    for (round = 0; round < 20; round++) {
        uint32_t answer = thwartpin_decide(w->book, w->length, rota, sizeof rota);

        while (answer == 0) {
            w->steps++;
            for (v = 0; v < sizeof rota; v++)
                w->sum = w->sum * 31 + rota[v];
            answer = thwartpin_next(w->book, w->length, rota, sizeof rota);
        }
        if (answer != 21)
            w->steps = 0;
    }
    return NULL;
}

static void test_threads(void)
{
    struct walk alone[2] = {{free_book, sizeof free_book, 0, 0}, {chain_book, sizeof chain_book, 0, 0}};
    struct walk walks[4] = {alone[0], alone[1], alone[0], alone[1]};
    pthread_t threads[4];
    size_t i;

    walk_all(&alone[0]), walk_all(&alone[1]);
    expect(alone[0].steps == 20 * 1024, "all rotas of ten free choices", "threads");
    expect(alone[1].steps == 20 * 11, "all rotas of a chain of ten", "threads");
    for (i = 0; i < COUNT(threads); i++)
        if (pthread_create(&threads[i], NULL, walk_all, &walks[i]) != 0)
            exit(2);
    for (i = 0; i < COUNT(threads); i++) {
        pthread_join(threads[i], NULL);
        expect(walks[i].steps == alone[i % 2].steps && walks[i].sum == alone[i % 2].sum, "the same answers as alone", "threads");
    }
}

/* A book of 256 choices with so many rules, whose codes are random. */
static size_t random_book(uint8_t *book, unsigned rules, uint32_t seed)
{
    size_t length = 0;
    unsigned k;

    book[length++] = 0x80, book[length++] = 0x02;
    book[length++] = (uint8_t)(rules % 128 + 128), book[length++] = (uint8_t)(rules / 128);
    for (k = 0; k < 2 * rules; k++) {
        unsigned code;

        seed = seed * 1664525u + 1013904223u;
        code = seed >> 23;
        book[length++] = (uint8_t)(code < 128 ? code : code % 128 + 128);
        if (code >= 128)
            book[length++] = (uint8_t)(code / 128);
    }
    return length;
}

/*
 * Areas of the exact length on the heap, for a run that watches every access: every beginning of a book, and random lists with every call. What is
 * answered is not looked at here.
 */
static void *exact(const void *from, size_t size)
{
    void *copy = malloc(size);

    if (copy == NULL && size != 0)
        exit(2);
    if (size != 0)
        memcpy(copy, from, size);
    return copy;
}

static void exact_book(const uint8_t *bytes, size_t length, size_t n, size_t m)
{
    static const uint8_t zeros[256];
    static const uint16_t blank[4096];
    uint8_t *book = exact(bytes, length), *rota = exact(zeros, n);
    uint16_t *words = exact(blank, 2 * m * sizeof *words);
    uint64_t out[3];

    thwartpin_decide(book, length, rota, n);
    thwartpin_next(book, length, rota, n);
    thwartpin_read_book(book, length, words, 2 * m, out, 3);
    free(book), free(rota), free(words);
}

static void exact_list(size_t n, const uint16_t *list, size_t length)
{
    static const uint8_t zeros[256];
    static const uint16_t blank[16384];
    uint16_t *words = exact(list, length * sizeof *words), *work = exact(blank, THWARTPIN_WORK(n, length / 2) * sizeof *work);
    size_t work_len = THWARTPIN_WORK(n, length / 2), call;
    uint64_t *out = exact(blank, 3 * sizeof *out);

    for (call = 0; call < COUNT(byte_calls); call++) {
        uint8_t *area = exact(zeros, n);

        byte_calls[call](n, words, length, area, n, work, work_len, out, 3);
        free(area);
    }
    for (call = 0; call < COUNT(word_calls); call++) {
        size_t room = word_calls[call] == thwartpin_list_clash ? 4 * n : n;
        uint16_t *area = exact(blank, room * sizeof *area);

        word_calls[call](n, words, length, area, room, work, work_len, out, 3);
        free(area);
    }
    free(words), free(work), free(out);
}

static void test_exact(void)
{
    static uint8_t book[LONGEST];
    static uint16_t words[4096];
    uint64_t out[3];
    unsigned rules, seed;
    size_t i, length;

    for (i = 0; i < COUNT(books); i++)
        for (length = 0; length <= books[i].length; length++)
            exact_book(books[i].bytes, length, 3, 3);
    for (rules = 128; rules <= 2048; rules *= 2)
        for (seed = 0; seed < 4; seed++) {
            length = random_book(book, rules, seed);
            exact_book(book, length, 256, rules);
            exact_book(book, length - 1, 256, rules);
            if (thwartpin_read_book(book, length, words, COUNT(words), out, 3) != 0)
                exit(2);
            exact_list((size_t)out[0], words, 2 * (size_t)out[1]);
        }
    expect(1, "no access past an area", "exact areas");
}

/* How much stack the host's calls take: a thread's stack is painted, and what is left of the paint is counted. */
#define STACK (256 * 1024)
#define DOCUMENTED (64 * 1024)

static void *on_stack(void *given)
{
    static uint8_t book[LONGEST], rota[256];
    unsigned rules, seed, step;

    for (rules = 128; rules <= 2048; rules += 128)
        for (seed = 0; seed < 20; seed++) {
            size_t length = random_book(book, rules, seed);

            memset(rota, 0, sizeof rota);
            thwartpin_decide(book, length, rota, sizeof rota);
            for (step = 0; step < 3; step++)
                thwartpin_next(book, length, rota, sizeof rota);
        }
    longest_book(book);
    thwartpin_decide(book, LONGEST, rota, sizeof rota);
    thwartpin_next(book, LONGEST, rota, sizeof rota);
    return given;
}

static void *nothing(void *given)
{
    return given;
}

static size_t stack_of(void *(*run)(void *))
{
    uint8_t *stack;
    pthread_attr_t attributes;
    pthread_t thread;
    size_t clean = 0;

    if (posix_memalign((void **)&stack, 4096, STACK) != 0)
        exit(2);
    memset(stack, BYTE, STACK);
    pthread_attr_init(&attributes);
    if (pthread_attr_setstack(&attributes, stack, STACK) != 0 || pthread_create(&thread, &attributes, run, NULL) != 0)
        exit(2);
    pthread_join(thread, NULL);
    pthread_attr_destroy(&attributes);
    while (clean < STACK && stack[clean] == BYTE)
        clean++;
    free(stack);
    return STACK - clean;
}

static void test_stack(void)
{
    size_t takes = stack_of(on_stack) - stack_of(nothing);

    printf("stack of the host's calls: %lu bytes\n", (unsigned long)takes);
    expect(takes <= DOCUMENTED, "no more than the header says", "stack");
}

/* With any argument the stack is not measured: what watches memory does not let a thread's old stack be read. */
int main(int argc, char **argv)
{
    (void)argv;
    test_books();
    test_host_order();
    test_longest();
    test_short_out();
    test_lists();
    test_empty();
    test_threads();
    test_exact();
    if (argc == 1)
        test_stack();
    printf("%lu passed, %lu failed\n", passed, failed);
    return failed == 0 ? 0 : 1;
}
