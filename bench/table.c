/*
 * The benchmark's plain C program: reads a table of the fields x and f in one pass, runs the four
 * statements of four.sim over it modulo 2^64, and prints the table.
 *
 * Usage: table TABLE
 */
#include "cells.h"

static const char HEAD[] = "set points\nx,f\n";

/* The number of rows, whose words are put into the two columns. Blank lines are passed over. */
static size_t read_table(const char *at, const char *end, uint64_t *x, uint64_t *f)
{
    at = read_comma(read_name(skip_line_ends(skip_mark(at)), "x"));
    at = read_line_end(read_name(at, "f"), end);
    size_t rows = 0;
    for (; at != end; rows++) {
        if (rows == MOST_ROWS)
            refuse();
        at = read_comma(read_cell(at, 0, &x[rows]));
        at = read_line_end(read_cell(at, 0, &f[rows]), end);
    }
    return rows;
}

/* The four statements, each over the whole columns before the next. */
static void run(uint64_t *restrict x, uint64_t *restrict f, size_t rows)
{
    for (size_t i = 0; i < rows; i++)
        f[i] = 2 * x[i] - f[i] * f[i];
    for (size_t i = 0; i < rows; i++)
        x[i] = -x[i] + f[i];
    for (size_t i = 0; i < rows; i++)
        f[i] = 3 * f[i] - 5 * x[i] * f[i] + x[i];
    for (size_t i = 0; i < rows; i++)
        x[i] = x[i] * x[i] - 7 * f[i];
}

static size_t write_table(char *out, const uint64_t *x, const uint64_t *f, size_t rows)
{
    char *at = write_head(out, HEAD, sizeof HEAD - 1);
    for (size_t i = 0; i < rows; i++) {
        at = write_cell(at, x[i], 0, 1);
        *at++ = ',';
        at = write_cell(at, f[i], 0, 1);
        *at++ = '\n';
    }
    return (size_t)(at - out);
}

int main(int count, char **words)
{
    if (count != 2)
        stop(2, "usage: table TABLE");
    size_t length;
    char *text = read_file(words[1], &length);
    size_t most = most_rows(length, 4);
    uint64_t *x = room(most * sizeof *x), *f = room(most * sizeof *f);
    size_t rows = read_table(text, text + length, x, f);
    free(text);
    run(x, f, rows);
    fill_pairs();
    char *out = room(sizeof HEAD + rows * 2 * CELL_TEXT + CELL_COPY);
    put_all(out, write_table(out, x, f, rows));
    return 0;
}
