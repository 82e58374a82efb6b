/* See books.h. */
#include "books.h"

#include "peers.h"

enum { TOO_MANY_CHOICES = 1, TOO_MANY_RULES = 3, CODE_TOO_HIGH = 4, ANSWER_TOO_SHORT = 6, BOOK_ENDS = 7, NUMBER_TOO_LONG = 8, NUMBER_PADDED = 9, BYTES_LEFT = 10 };

enum { TOP = 128, OUT_NEEDS = 3, HOST_IMPOSSIBLE = 20 };

/* A book, the place where it goes on, and the first refusal with its place, once there is one. */
typedef struct {
    const uint8_t *bytes;
    size_t len, at;
    uint32_t refusal;
    size_t place;
} Reader;

static size_t refuse(Reader *reader, uint32_t refusal, size_t place)
{
    reader->refusal = refusal;
    reader->place = place;
    return 0;
}

/* The next number, which has to be below a limit, or the refusal `over` at its first byte. */
static size_t read_number(Reader *reader, size_t limit, uint32_t over)
{
    size_t first = reader->at;
    if (first >= reader->len)
        return refuse(reader, BOOK_ENDS, first);
    size_t value = reader->bytes[first];
    reader->at++;
    if (value >= TOP) {
        size_t second = first + 1;
        if (second >= reader->len)
            return refuse(reader, BOOK_ENDS, second);
        if (reader->bytes[second] >= TOP)
            return refuse(reader, NUMBER_TOO_LONG, second);
        if (reader->bytes[second] == 0)
            return refuse(reader, NUMBER_PADDED, second);
        value = value - TOP + TOP * (size_t)reader->bytes[second];
        reader->at++;
    }
    return value < limit ? value : refuse(reader, over, over == TOO_MANY_CHOICES ? 0 : first);
}

/* All codes are checked before the first is written. */
static void check_codes(Reader reader, size_t count, size_t limit, Reader *result)
{
    for (size_t i = 0; i < count && !reader.refusal; i++)
        read_number(&reader, limit, CODE_TOO_HIGH);
    if (!reader.refusal && reader.at < reader.len)
        refuse(&reader, BYTES_LEFT, reader.at);
    result->refusal = reader.refusal;
    result->place = reader.place;
}

static void write_codes(Reader reader, size_t count, uint16_t *words)
{
    for (size_t i = 0; i < count; i++) {
        size_t low = reader.bytes[reader.at++];
        words[i] = (uint16_t)(low < TOP ? low : low - TOP + TOP * (size_t)reader.bytes[reader.at++]);
    }
}

static Reader read_whole(const uint8_t *book, size_t book_len, uint16_t *words, size_t words_len, size_t *n, size_t *m)
{
    Reader reader = {.bytes = book, .len = book_len};
    *n = read_number(&reader, LIMIT_CHOICES + 1, TOO_MANY_CHOICES);
    if (reader.refusal)
        return reader;
    *m = read_number(&reader, LIMIT_RULES + 1, TOO_MANY_RULES);
    if (reader.refusal)
        return reader;
    if (words_len < 2 * *m) {
        refuse(&reader, ANSWER_TOO_SHORT, 0);
        return reader;
    }
    check_codes(reader, 2 * *m, 2 * *n, &reader);
    if (!reader.refusal)
        write_codes(reader, 2 * *m, words);
    return reader;
}

uint32_t peer_read_book(const uint8_t *book, size_t book_len, uint16_t *words, size_t words_len, uint64_t *out, size_t out_len)
{
    if (out_len < OUT_NEEDS)
        return OUT_SHORT;
    size_t n = 0;
    size_t m = 0;
    Reader reader = read_whole(book, book_len, words, words_len, &n, &m);
    if (reader.refusal) {
        out[0] = reader.place;
        return reader.refusal;
    }
    out[0] = n;
    out[1] = m;
    return DONE;
}

uint32_t peer_host_decide(const uint8_t *book, size_t book_len, uint8_t *rota, size_t rota_len)
{
    uint16_t words[LIMIT_WORDS] = {0};
    uint16_t work[LIMIT_WORK] = {0};
    uint64_t out[OUT_NEEDS];
    size_t n = 0;
    size_t m = 0;
    Reader reader = read_whole(book, book_len, words, LIMIT_WORDS, &n, &m);
    if (reader.refusal)
        return reader.refusal;
    uint32_t answer = peer_decide(n, words, 2 * m, rota, rota_len, work, LIMIT_WORK, out, OUT_NEEDS);
    return answer == IMPOSSIBLE ? HOST_IMPOSSIBLE : answer;
}

static size_t put_number(size_t value, uint8_t *bytes)
{
    if (value < TOP) {
        bytes[0] = (uint8_t)value;
        return 1;
    }
    bytes[0] = (uint8_t)(TOP + value % TOP);
    bytes[1] = (uint8_t)(value / TOP);
    return 2;
}

size_t write_book(const List *list, uint8_t book[BOOK_ROOM])
{
    size_t len = put_number(list->n, book);
    len += put_number(list->len / 2, book + len);
    for (size_t i = 0; i < list->len; i++)
        len += put_number(list->words[i], book + len);
    return len;
}
