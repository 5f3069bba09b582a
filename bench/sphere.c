/* Writes a sphere of 2 * SEGMENTS * (RINGS - 1) facets as ASCII STL to standard output. */
#include <math.h>
#include <stdio.h>
#include <stdlib.h>

struct corner { double x, y, z; };

static struct corner corner(int ring, int rings, int segment, int segments)
{
    double down = M_PI * ring / rings, round = 2 * M_PI * segment / segments;
    struct corner c = { 50 + 40 * sin(down) * cos(round), 50 + 40 * sin(down) * sin(round), 40 - 40 * cos(down) };
    return c;
}

static void facet(struct corner a, struct corner b, struct corner c)
{
    printf("  facet normal 0 0 0\n    outer loop\n");
    printf("      vertex %.4f %.4f %.4f\n", a.x, a.y, a.z);
    printf("      vertex %.4f %.4f %.4f\n", b.x, b.y, b.z);
    printf("      vertex %.4f %.4f %.4f\n", c.x, c.y, c.z);
    printf("    endloop\n  endfacet\n");
}

int main(int count, char **words)
{
    int segments = count > 1 ? atoi(words[1]) : 1000, rings = count > 2 ? atoi(words[2]) : 501;
    printf("solid sphere\n");
    for (int k = 0; k < rings; k++)
        for (int j = 0; j < segments; j++) {
            struct corner a = corner(k, rings, j, segments), b = corner(k, rings, j + 1, segments);
            struct corner c = corner(k + 1, rings, j + 1, segments), d = corner(k + 1, rings, j, segments);
            if (k + 1 < rings)
                facet(a, c, d);
            if (k > 0)
                facet(a, b, c);
        }
    printf("endsolid sphere\n");
    return 0;
}
