/*
 * A small host: reads a book, prints its first allowed rota and then the others in dictionary order, and says in words why not where there is none.
 *
 *     host [BOOK [COUNT]]     BOOK is a file, or - or nothing for standard input; COUNT is how many rotas to print at most
 *
 *     cc -std=c99 -I include examples/host.c target/staticlib/libthwartpin.a -o host
 */
#include <errno.h>
#include <stdio.h>
#include <stdlib.h>
#include <string.h>

#include "thwartpin.h"

/* The longest book has 8,196 bytes. One byte more is read, so that a longer file is seen to be too long. */
#define BOOK_ROOM 8197

static const char *meaning_of(uint32_t refusal)
{
    switch (refusal) {
    case THWARTPIN_TOO_MANY_CHOICES: return "it has more than 256 choices";
    case THWARTPIN_TOO_MANY_RULES: return "it has more than 2048 rules";
    case THWARTPIN_CODE_TOO_HIGH: return "a rule speaks of a choice that there is not";
    case THWARTPIN_BOOK_ENDS: return "it ends too early";
    case THWARTPIN_NUMBER_TOO_LONG: return "a number has more than two bytes";
    case THWARTPIN_NUMBER_PADDED: return "a number is not in its shortest form";
    case THWARTPIN_BYTES_LEFT: return "it goes on after the last rule";
    case THWARTPIN_ANSWER_TOO_SHORT: return "the area for the answer is too short";
    case THWARTPIN_VALUE_TOO_HIGH: return "a value of the rota is neither 0 nor 1";
    default: return "of something unknown";
    }
}

static size_t read_all(const char *path, uint8_t *book)
{
    FILE *file = strcmp(path, "-") == 0 ? stdin : fopen(path, "rb");
    size_t count;

    if (file == NULL) {
        fprintf(stderr, "host: %s: %s\n", path, strerror(errno));
        exit(2);
    }
    count = fread(book, 1, BOOK_ROOM, file);
    if (ferror(file)) {
        fprintf(stderr, "host: %s cannot be read\n", path);
        exit(2);
    }
    if (file != stdin)
        fclose(file);
    return count;
}

static void print_rota(const uint8_t *rota, size_t n)
{
    size_t v;

    for (v = 0; v < n; v++)
        putchar(rota[v] ? '1' : '0');
    putchar('\n');
}

static int print_rotas(const uint8_t *book, size_t length, size_t n, unsigned long most)
{
    uint8_t rota[THWARTPIN_CHOICES];
    uint32_t answer = thwartpin_decide(book, length, rota, sizeof rota);
    unsigned long printed = 0;

    while (answer == THWARTPIN_DONE && printed < most) {
        print_rota(rota, n);
        printed++;
        answer = thwartpin_next(book, length, rota, sizeof rota);
    }
    if (answer == THWARTPIN_IMPOSSIBLE)
        printf("impossible: no rota meets every rule\n");
    else if (answer == THWARTPIN_ENDED)
        printf("that is all: %lu\n", printed);
    else if (answer == THWARTPIN_DONE)
        printf("there are more than these: %lu\n", printed);
    else {
        printf("refused: %s\n", meaning_of(answer));
        return 1;
    }
    return 0;
}

int main(int argc, char **argv)
{
    static uint8_t book[BOOK_ROOM];
    static uint16_t words[2 * THWARTPIN_RULES];
    uint64_t out[THWARTPIN_OUT];
    size_t length = read_all(argc > 1 ? argv[1] : "-", book);
    unsigned long most = argc > 2 ? strtoul(argv[2], NULL, 10) : (unsigned long)-1;
    uint32_t answer = thwartpin_read_book(book, length, words, sizeof words / sizeof words[0], out, THWARTPIN_OUT);

    if (answer != 0) {
        printf("refused: %s (refusal %lu, at byte %lu)\n", meaning_of(answer), (unsigned long)answer, (unsigned long)out[0]);
        return 1;
    }
    printf("choices %lu, rules %lu\n", (unsigned long)out[0], (unsigned long)out[1]);
    return print_rotas(book, length, (size_t)out[0], most);
}
