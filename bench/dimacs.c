/* See dimacs.h. The reader takes the whole file at once: it is part of what is timed, and should cost no more than a solver's own. */
#include "dimacs.h"

#include <stdio.h>
#include <stdlib.h>

/* A rule takes 12 bytes at most ("-256 -256 0" and the line's end), and there is one line before them. */
enum { FILE_LIMIT = 12 * LIMIT_RULES + 64 };

static long number_of(uint16_t c)
{
    long v = c / 2 + 1;
    return c % 2 == 0 ? v : -v;
}

static uint16_t code_of(long number)
{
    return (uint16_t)(number > 0 ? 2 * (number - 1) : 2 * (-number - 1) + 1);
}

bool write_dimacs(const List *list, const char *path)
{
    FILE *file = fopen(path, "w");
    if (!file)
        return false;
    fprintf(file, "p cnf %zu %zu\n", list->n, list->len / 2);
    for (size_t i = 0; i < list->len; i += 2) {
        fprintf(file, "%ld ", number_of(list->words[i]));
        if (list->words[i + 1] != list->words[i])
            fprintf(file, "%ld ", number_of(list->words[i + 1]));
        fprintf(file, "0\n");
    }
    bool good = !ferror(file);
    return fclose(file) == 0 && good;
}

/* The whole file, and a 0 behind it. */
static bool read_text(const char *path, char text[FILE_LIMIT + 1])
{
    FILE *file = fopen(path, "r");
    if (!file)
        return false;
    size_t length = fread(text, 1, FILE_LIMIT, file);
    bool good = !ferror(file) && fgetc(file) == EOF;
    text[length] = 0;
    fclose(file);
    return good;
}

/* One clause of one or two numbers, and the place after its 0. NULL where it is anything else. */
static char *read_rule(char *at, long n, uint16_t rule[2])
{
    long numbers[3] = {0, 0, 0};
    size_t count = 0;
    do
        numbers[count] = strtol(at, &at, 10);
    while (numbers[count] != 0 && ++count < 3);
    if (count == 0 || count == 3 || labs(numbers[0]) > n || labs(numbers[1]) > n)
        return NULL;
    rule[0] = code_of(numbers[0]);
    rule[1] = code_of(numbers[count - 1]);
    return at;
}

bool read_dimacs(const char *path, List *list)
{
    static char text[FILE_LIMIT + 1];
    size_t rules = 0;
    int start = 0;
    if (!read_text(path, text) || sscanf(text, "p cnf %zu %zu%n", &list->n, &rules, &start) != 2)
        return false;
    if (list->n > LIMIT_CHOICES || rules > LIMIT_RULES)
        return false;
    char *at = text + start;
    for (list->len = 0; at && list->len < 2 * rules; list->len += 2)
        at = read_rule(at, (long)list->n, list->words + list->len);
    return at != NULL;
}
