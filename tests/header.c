/* The header and the library fit together: one triangle, whole and damaged, through every call. Exit status 0 if all is as expected. */
#include "ternaglup.h"

#include <stdio.h>
#include <string.h>

#define NONE TERNAGLUP_NONE

static const uint32_t outs[3] = {5, 1, 3};
static const uint32_t last_not_rim[3] = {5, 1, 4};
static const uint32_t edges[24] = {
    /* face head next prev of 2e, then of 2e + 1 */
    0, 1, 2, 4, NONE, 0, 5, 3,
    0, 2, 4, 0, NONE, 1, 1, 5,
    0, 0, 0, 2, NONE, 2, 3, 1,
};
static const uint32_t faces[1] = {0};
static const uint8_t in_use[3] = {0, 0, 0};
static const uint8_t deleted[3] = {255, 0, 0};
static const double points[9] = {0, 0, 0, 8, 0, 0, 0, 8, 0};

static int tests = 0, wrong = 0;

static void expect(const char *what, struct ternaglup_answer is, uint32_t number, uint32_t first, uint32_t second, uint32_t third)
{
    tests++;
    if (is.number == number && is.first == first && is.second == second && is.third == third)
        return;
    printf("%s: answer %u (%u %u %u), not %u (%u %u %u)\n", what, is.number, is.first, is.second, is.third, number, first, second, third);
    wrong++;
}

static struct ternaglup_answer check(const uint32_t *links, const uint8_t *fmarks, size_t numbers, size_t v)
{
    return ternaglup_check(links, 3, edges, 24, faces, 1, in_use, 3, in_use, 3, fmarks, 1, points, numbers, v, 3, 1);
}

enum { FILE_LENGTH = 64 + 29 * 3 + 33 * 3 + 5 };

static uint8_t file[FILE_LENGTH];

static struct ternaglup_writing write_file(const double *numbers, size_t v, size_t room)
{
    return ternaglup_write(outs, 3, edges, 24, faces, 1, in_use, 3, in_use, 3, in_use, 1, numbers, 9, v, 3, 1, file, room);
}

/* Slices for what is read, each with one element more than the triangle needs. */
static uint32_t read_outs[4], read_edges[25], read_faces[2];
static uint8_t read_vmarks[4], read_emarks[4], read_fmarks[2];
static double read_points[10];

static struct ternaglup_reading read_file(size_t length, size_t room)
{
    return ternaglup_read(file, length, read_outs, room, read_edges, 25, read_faces, 2, read_vmarks, 4, read_emarks, 4, read_fmarks, 2, read_points, 10);
}

/* The slices hold the triangle and zeros after it. */
static int is_triangle(void)
{
    return memcmp(read_outs, outs, sizeof outs) == 0 && read_outs[3] == 0
        && memcmp(read_edges, edges, sizeof edges) == 0 && read_edges[24] == 0
        && memcmp(read_points, points, sizeof points) == 0 && read_points[9] == 0;
}

static void expect_that(const char *what, int holds)
{
    tests++;
    if (holds)
        return;
    printf("not so: %s\n", what);
    wrong++;
}

static void checks(void)
{
    expect("a triangle", check(outs, in_use, 9, 3), 0, 0, 0, 0);
    expect("its last vertex names no rim halfedge", check(last_not_rim, in_use, 9, 3), 3, 9, TERNAGLUP_VERTEX, 2);
    expect("its face deleted", check(outs, deleted, 9, 3), 3, 1, TERNAGLUP_HALFEDGE, 0);
    expect("eight numbers for three points", check(outs, in_use, 8, 3), 2, 0, 0, 0);
    expect("a vertex too many", check(outs, in_use, 9, 4), 2, 0, 0, 0);
}

static void files(void)
{
    double infinite[9] = {0};
    infinite[8] = 1e300 * 1e300;
    expect("written into a byte too few", write_file(points, 3, FILE_LENGTH - 1).answer, 5, 0, 0, 0);
    expect_that("then nothing is written", file[0] == 0);
    expect("an infinite coordinate written", write_file(infinite, 3, FILE_LENGTH).answer, 16, 0, 0, 0);
    expect("a vertex too many written", write_file(points, 4, FILE_LENGTH).answer, 2, 0, 0, 0);
    struct ternaglup_writing w = write_file(points, 3, FILE_LENGTH);
    expect("written", w.answer, 0, 0, 0, 0);
    expect_that("the file's length", w.length == FILE_LENGTH);

    struct ternaglup_reading r = read_file(FILE_LENGTH, 4);
    expect("read", r.answer, 0, 0, 0, 0);
    expect_that("the counts read", r.v == 3 && r.e == 3 && r.f == 1);
    expect_that("the mesh read is the triangle", is_triangle());
    expect("read with a byte missing", read_file(FILE_LENGTH - 1, 4).answer, 15, 0, 0, 0);
    expect_that("then the slices are zero", read_edges[0] == 0 && read_edges[4] == 0 && read_points[3] == 0);
    expect("read into two vertex links", read_file(FILE_LENGTH, 2).answer, 2, 0, 0, 0);
}

/* Room for one Catmull-Clark pass of the triangle: 7 vertices, 9 edges, 3 faces, and 42 numbers of work. */
static uint32_t new_outs[7], new_edges[72], new_faces[3];
static uint8_t new_vmarks[7], new_emarks[9], new_fmarks[3];
static double new_points[21], work[42];

static struct ternaglup_subdivided catmull(uint32_t passes, const uint32_t *links, size_t v, size_t work_length)
{
    return ternaglup_catmull(passes, 7, links, 3, edges, 24, faces, 1, in_use, 3, in_use, 3, in_use, 1, points, 9, v, 3, 1,
        new_outs, 7, new_edges, 72, new_faces, 3, new_vmarks, 7, new_emarks, 9, new_fmarks, 3, new_points, 21, work, work_length);
}

static void subdivisions(void)
{
    new_points[20] = 5;
    expect("thirteen passes", catmull(13, outs, 3, 42).answer, 1, 0, 0, 0);
    expect("a vertex too many subdivided", catmull(1, outs, 4, 42).answer, 2, 0, 0, 0);
    expect("no rim halfedge named", catmull(1, last_not_rim, 3, 42).answer, 3, 9, TERNAGLUP_VERTEX, 2);
    expect_that("then all is as it was", new_points[20] == 5);
    expect("two passes without room", catmull(2, outs, 3, 42).answer, 5, 0, 0, 0);
    expect_that("then all is zero", new_points[20] == 0);
    expect("a number of work too few", catmull(1, outs, 3, 41).answer, 5, 0, 0, 0);
    struct ternaglup_subdivided s = catmull(1, outs, 3, 42);
    expect("one pass", s.answer, 0, 0, 0, 0);
    expect_that("its counts and flag", s.v == 7 && s.e == 9 && s.f == 3 && s.flag == 1);
    expect_that("its first vertex moves to (4/3, 4/3, 0)", new_points[0] == 4.0 / 3 && new_points[1] == 4.0 / 3 && new_points[2] == 0);
    expect("none", catmull(0, outs, 3, 0).answer, 0, 0, 0, 0);
    expect_that("which copies the mesh", memcmp(new_edges, edges, sizeof edges) == 0 && new_edges[24] == 0);
}

int main(void)
{
    checks();
    files();
    subdivisions();
    printf("%d tests, %d differences\n", tests, wrong);
    return wrong != 0;
}
