/* Ternaglup for C: what the static library target/staticlib/libexports.a offers (`tests/archive.sh` proves and writes it).
 *
 * A mesh of v vertices, e edges and f faces lies in slices; each is handed over as a pointer and the number of its elements.
 *
 *   outs     v numbers     a halfedge that leaves the vertex, or TERNAGLUP_NONE
 *   edges    8 e numbers   face (or TERNAGLUP_NONE), head, next, prev of halfedge 2e, then the same of halfedge 2e + 1, its partner
 *   faces    f numbers     a halfedge of the face
 *   vmarks   v bytes       0 in use, any other value deleted
 *   emarks   e bytes       the same of the edges
 *   fmarks   f bytes       the same of the faces
 *   points   3 v numbers   x, y, z of each vertex
 *
 * A slice may be longer: what is past the count is not part of the mesh. Each pointer has to be valid for its length, also if
 * that is 0 (any address of an object will do, not NULL), and a slice that a call writes has to overlap no other slice of that
 * call. Nothing else is asked of the caller: every input gets an answer.
 */
#ifndef TERNAGLUP_H
#define TERNAGLUP_H

#include <stddef.h>
#include <stdint.h>

#ifdef __cplusplus
extern "C" {
#endif

#define TERNAGLUP_NONE UINT32_C(4294967295)

/* The kind of a place. */
enum { TERNAGLUP_VERTEX = 0, TERNAGLUP_HALFEDGE = 1, TERNAGLUP_EDGE = 2, TERNAGLUP_FACE = 3 };

/* An answer: its number in document 01, section 4, and the values that come with it (0 where there are none). */
struct ternaglup_answer {
    uint32_t number;
    uint32_t first;
    uint32_t second;
    uint32_t third;
};

/* The consistency check of document 01, section 2, over undeleted elements. It changes nothing. Answers:
 *
 *   0  the mesh is consistent: C1 to C9 hold
 *   2  a slice is shorter than its count, or a count is over 1,048,576
 *   3  not consistent. first: the lowest broken rule, 1 for C1 to 9 for C9; second and third: the kind and the index of the
 *      first place under it, vertices, then halfedges, then faces, lowest index first
 */
struct ternaglup_answer ternaglup_check(
    const uint32_t *outs, size_t outs_length,
    const uint32_t *edges, size_t edges_length,
    const uint32_t *faces, size_t faces_length,
    const uint8_t *vmarks, size_t vmarks_length,
    const uint8_t *emarks, size_t emarks_length,
    const uint8_t *fmarks, size_t fmarks_length,
    const double *points, size_t points_length,
    size_t v, size_t e, size_t f);

/* What the reader answers. v, e and f: the counts of the mesh that was read if answer.number is 0, else zeros. */
struct ternaglup_reading {
    struct ternaglup_answer answer;
    size_t v;
    size_t e;
    size_t f;
};

/* The reader of a mesh file (document 01, section 5), for any bytes. All seven slices are written: they are zero past what is
 * read, and wholly zero after a refusal. Answers, in this order:
 *
 *   15  the file's contents are wrong
 *    2  a slice is shorter than its count, or a count is over 1,048,576
 *   16  a coordinate in the file is infinite or a NaN
 *    3  not consistent; first, second and third as for ternaglup_check
 *    0  the mesh is in the slices
 */
struct ternaglup_reading ternaglup_read(
    const uint8_t *file, size_t file_length,
    uint32_t *outs, size_t outs_length,
    uint32_t *edges, size_t edges_length,
    uint32_t *faces, size_t faces_length,
    uint8_t *vmarks, size_t vmarks_length,
    uint8_t *emarks, size_t emarks_length,
    uint8_t *fmarks, size_t fmarks_length,
    double *points, size_t points_length);

/* What the writer answers. length: the number of bytes that were written if answer.number is 0, else 0. */
struct ternaglup_writing {
    struct ternaglup_answer answer;
    size_t length;
};

/* The writer of a mesh file: 64 + 29 v + 33 e + 5 f bytes. It does not check the mesh; a mark that is not 0 is written as 1.
 * A refusal writes nothing, and past the file's end the slice is as it was. Answers, in this order:
 *
 *    2  a slice is shorter than its count, or a count is over 1,048,576
 *   16  a coordinate is infinite or a NaN
 *    5  the file's slice is too short
 *    0  the file is written
 */
struct ternaglup_writing ternaglup_write(
    const uint32_t *outs, size_t outs_length,
    const uint32_t *edges, size_t edges_length,
    const uint32_t *faces, size_t faces_length,
    const uint8_t *vmarks, size_t vmarks_length,
    const uint8_t *emarks, size_t emarks_length,
    const uint8_t *fmarks, size_t fmarks_length,
    const double *points, size_t points_length,
    size_t v, size_t e, size_t f,
    uint8_t *file, size_t file_length);

/* What a subdivision answers. v, e, f and flag: the counts of the result and the flag for the next call if answer.number is 0,
 * else zeros. */
struct ternaglup_subdivided {
    struct ternaglup_answer answer;
    size_t v;
    size_t e;
    size_t f;
    uint32_t flag;
};

/* So many Catmull-Clark passes of a mesh into the new slices (document 01, sections 3 and 4). With update 0 the old points stay,
 * with any other they move; the flag that comes back is 1 or 0 for it. Zero passes copy the mesh, marks included. One pass makes
 * v + e + f vertices, 2 e + s edges and s faces, s being the sum of the face lengths; the work slice needs 6 numbers for each
 * vertex, edge and face of the mesh that the last pass starts from. Answers, in this order:
 *
 *    1  more than 12 passes
 *    2  a slice of the mesh is shorter than its count, or a count is over 1,048,576
 *    3  not consistent; first, second and third as for ternaglup_check
 *    4  one pass or more and something is marked deleted. first and second: its kind and index; faces, then edges, then
 *       vertices, lowest index
 *    5  a new slice or the work slice is too short, or a count of the result is over 1,048,576
 *    0  done
 *
 * Answers 1 to 4 leave the new slices and the work slice as they were, 5 leaves zeros in all of them; when done the new slices
 * are zero past the result, and the work slice is zero.
 */
struct ternaglup_subdivided ternaglup_catmull(
    uint32_t passes, uint32_t update,
    const uint32_t *outs, size_t outs_length,
    const uint32_t *edges, size_t edges_length,
    const uint32_t *faces, size_t faces_length,
    const uint8_t *vmarks, size_t vmarks_length,
    const uint8_t *emarks, size_t emarks_length,
    const uint8_t *fmarks, size_t fmarks_length,
    const double *points, size_t points_length,
    size_t v, size_t e, size_t f,
    uint32_t *new_outs, size_t new_outs_length,
    uint32_t *new_edges, size_t new_edges_length,
    uint32_t *new_faces, size_t new_faces_length,
    uint8_t *new_vmarks, size_t new_vmarks_length,
    uint8_t *new_emarks, size_t new_emarks_length,
    uint8_t *new_fmarks, size_t new_fmarks_length,
    double *new_points, size_t new_points_length,
    double *work, size_t work_length);

#ifdef __cplusplus
}
#endif

#endif
