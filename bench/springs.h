/*
 * What the benchmark's C programs over springs share: they read a table of points and one of the springs between them in one
 * pass each, and print both. The scales are those of the fields; unit is 10^scale.
 */
#ifndef SPRINGS_H
#define SPRINGS_H

#include "cells.h"

static const char POINTS[] = "set points\nx,f\n";
static const char SPRINGS[] = "set springs\np0,p1,k\n";

struct points {
    size_t count;
    uint64_t *x, *f;
};

struct springs {
    size_t count;
    uint32_t *ends;
    uint64_t *k;
};

static inline struct points read_points(const char *name, int scale)
{
    size_t length;
    char *text = read_file(name, &length);
    const char *at = skip_mark(text), *end = text + length;
    size_t most = most_rows(length, 4);
    struct points points = {0, room(most * sizeof(uint64_t)), room(most * sizeof(uint64_t))};
    at = read_comma(read_name(skip_line_ends(at), "x"));
    at = read_line_end(read_name(at, "f"), end);
    for (; at != end; points.count++) {
        if (points.count == MOST_ROWS)
            refuse();
        at = read_comma(read_cell(at, scale, &points.x[points.count]));
        at = read_line_end(read_cell(at, scale, &points.f[points.count]), end);
    }
    free(text);
    return points;
}

static const char *read_end(const char *at, size_t bound, uint32_t *end)
{
    uint64_t word;
    at = read_comma(read_cell(at, 0, &word));
    if (word >= bound)
        refuse();
    *end = (uint32_t)word;
    return at;
}

static inline struct springs read_springs(const char *name, size_t bound, int scale)
{
    size_t length;
    char *text = read_file(name, &length);
    const char *at = skip_mark(text), *end = text + length;
    size_t most = most_rows(length, 6);
    struct springs springs = {0, room(2 * most * sizeof(uint32_t)), room(most * sizeof(uint64_t))};
    at = read_comma(read_name(skip_line_ends(at), "p0"));
    at = read_comma(read_name(at, "p1"));
    at = read_line_end(read_name(at, "k"), end);
    for (; at != end; springs.count++) {
        if (springs.count == MOST_ROWS)
            refuse();
        at = read_end(at, bound, &springs.ends[2 * springs.count]);
        at = read_end(at, bound, &springs.ends[2 * springs.count + 1]);
        at = read_line_end(read_cell(at, scale, &springs.k[springs.count]), end);
    }
    free(text);
    return springs;
}

static inline void put_points(struct points points, int scale, uint64_t unit)
{
    char *out = room(sizeof POINTS + points.count * 2 * CELL_TEXT + CELL_COPY);
    char *at = write_head(out, POINTS, sizeof POINTS - 1);
    for (size_t i = 0; i < points.count; i++) {
        at = write_cell(at, points.x[i], scale, unit);
        *at++ = ',';
        at = write_cell(at, points.f[i], scale, unit);
        *at++ = '\n';
    }
    put_all(out, (size_t)(at - out));
    free(out);
}

static inline void put_springs(struct springs springs, int scale, uint64_t unit)
{
    char *out = room(sizeof SPRINGS + springs.count * 3 * CELL_TEXT + CELL_COPY);
    char *at = write_head(out, SPRINGS, sizeof SPRINGS - 1);
    for (size_t i = 0; i < springs.count; i++) {
        at = write_cell(at, springs.ends[2 * i], 0, 1);
        *at++ = ',';
        at = write_cell(at, springs.ends[2 * i + 1], 0, 1);
        *at++ = ',';
        at = write_cell(at, springs.k[i], scale, unit);
        *at++ = '\n';
    }
    put_all(out, (size_t)(at - out));
    free(out);
}

#endif
