/* Meshes from standard input through ternaglup_check; one line of output for each: number first second third.
 * With an argument N the check is run N times, and the line ends with the least time in nanoseconds.
 *
 * A mesh is, in the machine's byte order: ten 64-bit numbers (v, e, f, then the lengths of outs, edges, faces, vmarks, emarks,
 * fmarks, points), then these seven slices, elements of 4, 4, 4, 1, 1, 1 and 8 bytes.
 */
#include "ternaglup.h"

#include <stdio.h>
#include <stdlib.h>
#include <time.h>

/* A slice of its own block of memory, no byte longer than it says. */
static void *take(uint64_t count, size_t size)
{
    void *slice = malloc(count ? count * size : 1);
    if (!slice || fread(slice, size, count, stdin) != count) {
        fprintf(stderr, "driver: the input ends within a mesh\n");
        exit(2);
    }
    return slice;
}

static double now(void)
{
    struct timespec t;
    clock_gettime(CLOCK_MONOTONIC, &t);
    return 1e9 * (double)t.tv_sec + (double)t.tv_nsec;
}

int main(int words, char **word)
{
    int runs = words > 1 ? atoi(word[1]) : 1;
    uint64_t n[10];

    while (fread(n, sizeof n[0], 10, stdin) == 10) {
        uint32_t *outs = take(n[3], 4), *edges = take(n[4], 4), *faces = take(n[5], 4);
        uint8_t *vmarks = take(n[6], 1), *emarks = take(n[7], 1), *fmarks = take(n[8], 1);
        double *points = take(n[9], 8);
        struct ternaglup_answer a = {0, 0, 0, 0};
        double least = 0;

        for (int i = 0; i < runs; i++) {
            double start = now();
            a = ternaglup_check(outs, n[3], edges, n[4], faces, n[5], vmarks, n[6], emarks, n[7], fmarks, n[8], points, n[9], n[0], n[1], n[2]);
            double spent = now() - start;
            if (i == 0 || spent < least)
                least = spent;
        }
        printf("%u %u %u %u", a.number, a.first, a.second, a.third);
        if (words > 1)
            printf(" %.0f", least);
        putchar('\n');
        free(outs), free(edges), free(faces), free(vmarks), free(emarks), free(fmarks), free(points);
    }
    return 0;
}
