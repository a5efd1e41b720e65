/* Mesh files and meshes from standard input through ternaglup_read and ternaglup_write; the answers and all that was handed over, as it is
 * afterwards, to standard output.
 *
 * A case is, in the machine's byte order: 13 64-bit numbers (1 if a file is read first, else 0; v, e, f; the lengths of the file to read, of outs,
 * edges, faces, vmarks, emarks, fmarks, points, and of the file to write), then these nine slices, elements of 1, 4, 4, 4, 1, 1, 1, 8 and 1 bytes.
 * If a file is read first, v, e and f are those that the reader answered, and what it left is written.
 * Output: the reader's record, zeros if no file is read first, and the writer's, then the nine slices.
 */
#include "ternaglup.h"

#include <stdio.h>
#include <stdlib.h>
#include <string.h>

enum { SLICES = 9, GUARD = 64 };

static const size_t sizes[SLICES] = {1, 4, 4, 4, 1, 1, 1, 8, 1};

/* A slice in a block of its own, with GUARD bytes of 165 after it. */
static void *take(uint64_t count, size_t size)
{
    unsigned char *slice = malloc(count * size + GUARD);
    if (!slice || fread(slice, size, count, stdin) != count) {
        fprintf(stderr, "files: the input ends within a case\n");
        exit(2);
    }
    memset(slice + count * size, 165, GUARD);
    return slice;
}

/* Writes a slice out, after a look at the bytes behind it. */
static void give(unsigned char *slice, uint64_t count, size_t size)
{
    for (int i = 0; i < GUARD; i++) {
        if (slice[count * size + i] != 165) {
            fprintf(stderr, "files: a byte past the end of a slice was written\n");
            exit(3);
        }
    }
    fwrite(slice, size, count, stdout);
    free(slice);
}

int main(void)
{
    uint64_t head[13];
    const uint64_t *n = head + 4; /* the lengths */

    while (fread(head, sizeof head[0], 13, stdin) == 13) {
        void *s[SLICES];
        struct ternaglup_reading r;
        struct ternaglup_writing w;

        for (int i = 0; i < SLICES; i++)
            s[i] = take(n[i], sizes[i]);
        memset(&r, 0, sizeof r);
        if (head[0]) {
            r = ternaglup_read(s[0], n[0], s[1], n[1], s[2], n[2], s[3], n[3], s[4], n[4], s[5], n[5], s[6], n[6], s[7], n[7]);
            head[1] = r.v, head[2] = r.e, head[3] = r.f;
        }
        w = ternaglup_write(s[1], n[1], s[2], n[2], s[3], n[3], s[4], n[4], s[5], n[5], s[6], n[6], s[7], n[7], head[1], head[2], head[3], s[8], n[8]);
        fwrite(&r, sizeof r, 1, stdout);
        fwrite(&w, sizeof w, 1, stdout);
        for (int i = 0; i < SLICES; i++)
            give(s[i], n[i], sizes[i]);
    }
    return 0;
}
