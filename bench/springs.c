/*
 * The benchmark's plain C program over springs: reads a table of points and one of the springs between them, adds up what
 * each spring pulls at its two points modulo 2^64, and prints both tables.
 *
 * Usage: springs POINTS SPRINGS
 */
#include "springs.h"

/* What each spring pulls at its two points. */
static void pull(struct points points, struct springs springs)
{
    memset(points.f, 0, points.count * sizeof *points.f);
    for (size_t i = 0; i < springs.count; i++) {
        uint32_t from = springs.ends[2 * i], to = springs.ends[2 * i + 1];
        uint64_t force = springs.k[i] * (points.x[to] - points.x[from]);
        points.f[from] += force;
        points.f[to] -= force;
    }
}

int main(int count, char **words)
{
    if (count != 3)
        stop(2, "usage: springs POINTS SPRINGS");
    struct points points = read_points(words[1], 0);
    struct springs springs = read_springs(words[2], points.count, 0);
    pull(points, springs);
    fill_pairs();
    put_points(points, 0, 1);
    put_springs(springs, 0, 1);
    return 0;
}
