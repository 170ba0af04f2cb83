/*
 * What the benchmark's plain C programs share: they read whole files and the cells of tables, and write cells.
 * They end with 0 done, 1 no memory, 2 refused, 3 read fault, 4 write fault, 7 over a limit.
 */
#ifndef CELLS_H
#define CELLS_H

#include <fcntl.h>
#include <stdbool.h>
#include <stdint.h>
#include <stdio.h>
#include <stdlib.h>
#include <string.h>
#include <sys/stat.h>
#include <unistd.h>

enum { MOST_ROWS = 1048576, MOST_BYTES = 67108864 };
enum { CELL_TEXT = 22 };     /* the longest cell: 21 bytes with its comma or line end */
enum { CELL_COPY = 20 };     /* each cell is copied as 20 bytes, and what follows it is written over */

static _Noreturn void stop(int status, const char *note)
{
    fprintf(stderr, "%s\n", note);
    exit(status);
}

static _Noreturn void refuse(void)
{
    stop(2, "refused: table");
}

static void *room(size_t bytes)
{
    void *start = malloc(bytes);
    if (!start)
        stop(1, "no memory");
    return start;
}

/* The whole file and a 0 after it, at which every loop of the parser stops. */
static char *read_file(const char *name, size_t *length)
{
    int file = open(name, O_RDONLY);
    struct stat about;
    if (file < 0 || fstat(file, &about) < 0)
        stop(3, "read fault");
    if (about.st_size > MOST_BYTES)
        stop(7, "limit: a table is over 67108864 bytes");
    size_t size = (size_t)about.st_size, got = 0;
    char *text = room(size + 1);
    while (got < size) {
        ssize_t count = read(file, text + got, size - got);
        if (count < 0)
            stop(3, "read fault");
        if (count == 0)
            break;
        got += (size_t)count;
    }
    close(file);
    text[got] = 0;
    *length = got;
    return text;
}

static inline bool is_digit(char byte)
{
    return byte >= '0' && byte <= '9';
}

static inline bool is_line_end(char byte)
{
    return byte == '\n' || byte == '\r';
}

static inline const char *skip_spaces(const char *at)
{
    while (*at == ' ')
        at++;
    return at;
}

static inline const char *skip_line_ends(const char *at)
{
    while (is_line_end(*at))
        at++;
    return at;
}

static inline uint64_t with_digit(uint64_t size, char digit)
{
    if (size > INT64_MAX / 10)
        refuse();
    return 10 * size + (uint64_t)(digit - '0');
}

/* Reads a number of the signed range with the spaces round it as units of a scale; of the decimals past the scale zeros are let
 * pass. */
static inline const char *read_cell(const char *at, int scale, uint64_t *word)
{
    at = skip_spaces(at);
    bool negative = *at == '-';
    at += negative;
    if (!is_digit(*at))
        refuse();
    uint64_t size = 0;
    for (; is_digit(*at); at++)
        size = with_digit(size, *at);
    int left = scale;
    if (*at == '.') {
        if (!is_digit(*++at))
            refuse();
        for (; left > 0 && is_digit(*at); at++, left--)
            size = with_digit(size, *at);
        while (*at == '0')
            at++;
    }
    for (; left > 0; left--)
        size = with_digit(size, '0');
    if (size > (uint64_t)INT64_MAX + negative)
        refuse();
    *word = negative ? -size : size;
    return skip_spaces(at);
}

static const char *read_name(const char *at, const char *name)
{
    size_t length = strlen(name);
    at = skip_spaces(at);
    if (strncmp(at, name, length) != 0)
        refuse();
    return skip_spaces(at + length);
}

static const char *read_comma(const char *at)
{
    if (*at != ',')
        refuse();
    return at + 1;
}

static const char *read_line_end(const char *at, const char *end)
{
    if (at != end && !is_line_end(*at))
        refuse();
    return skip_line_ends(at);
}

static inline const char *skip_mark(const char *at)
{
    return strncmp(at, "\xEF\xBB\xBF", 3) == 0 ? at + 3 : at;
}

/* As many rows as so many bytes can have: the last may have no line end. */
static size_t most_rows(size_t length, size_t row)
{
    size_t most = length / row + 1;
    return most > MOST_ROWS ? MOST_ROWS : most;
}

static char pairs[200];  /* 00 01 02 and so on to 99 */

static void fill_pairs(void)
{
    for (int i = 0; i < 100; i++) {
        pairs[2 * i] = (char)('0' + i / 10);
        pairs[2 * i + 1] = (char)('0' + i % 10);
    }
}

/* Writes a number in digits. */
static inline char *write_digits(char *out, uint64_t word)
{
    char digits[2 * CELL_COPY];
    char *end = digits + CELL_COPY, *first = end;
    while (word >= 10000) {
        uint32_t low = (uint32_t)(word % 10000);
        word /= 10000;
        first -= 4;
        memcpy(first, pairs + 2 * (low / 100), 2);
        memcpy(first + 2, pairs + 2 * (low % 100), 2);
    }
    uint32_t rest = (uint32_t)word;
    if (rest >= 100) {
        first -= 2;
        memcpy(first, pairs + 2 * (rest % 100), 2);
        rest /= 100;
    }
    if (rest >= 10) {
        first -= 2;
        memcpy(first, pairs + 2 * rest, 2);
    } else {
        *--first = (char)('0' + rest);
    }
    memcpy(out, first, CELL_COPY);
    return out + (end - first);
}

/* Writes a word in its signed reading with as many decimals as its scale; unit is 10^scale. */
static inline char *write_cell(char *out, uint64_t word, int scale, uint64_t unit)
{
    if (word >> 63) {
        *out++ = '-';
        word = -word;
    }
    if (scale == 0)
        return write_digits(out, word);
    out = write_digits(out, word / unit);
    *out++ = '.';
    uint64_t rest = word % unit;
    for (int i = scale; i-- > 0; rest /= 10)
        out[i] = (char)('0' + rest % 10);
    return out + scale;
}

static char *write_head(char *out, const char *head, size_t length)
{
    memcpy(out, head, length);
    return out + length;
}

static void put_all(const char *from, size_t length)
{
    while (length > 0) {
        ssize_t count = write(STDOUT_FILENO, from, length);
        if (count < 0)
            stop(4, "write fault");
        from += count;
        length -= (size_t)count;
    }
}

#endif
