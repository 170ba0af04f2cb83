/*
 * The benchmark's plain C program over tables with decimals: reads a table of points with two fields of scale 4 and one of
 * the springs between them with a field of scale 2, and prints both tables.
 *
 * Usage: scales POINTS SPRINGS
 */
#include "springs.h"

int main(int count, char **words)
{
    if (count != 3)
        stop(2, "usage: scales POINTS SPRINGS");
    struct points points = read_points(words[1], 4);
    struct springs springs = read_springs(words[2], points.count, 2);
    fill_pairs();
    put_points(points, 4, 10000);
    put_springs(springs, 2, 100);
    return 0;
}
