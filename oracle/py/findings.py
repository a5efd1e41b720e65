"""Prints the inputs of docs/DIFFERENCES.md, under its numbers: what document 01 answers and what the Rust does.
After them: inputs at which document 01 can be read in two ways, errors that look right, and collapse (left out)."""
import subprocess

import doc01
import gen
from mesh import Mesh, NONE, ORACLE, ask_one, bits, check, real

PATIENCE = 4    # seconds until an endless loop is called one


def title(text):
    print("\n## " + text)


def show_mesh(mesh, about=""):
    """The mesh's lines; that of the points only if they are not all zero."""
    if about:
        print(about)
    print("".join("    %s\n" % line for line in mesh.text().splitlines() if any(mesh.points) or line[0] != "p"), end="")


def show(mesh, op):
    """Document 01's answer (a dash for collapse, which it leaves out) and the Rust's, one line."""
    words = "-"
    if "collapse" not in op:
        answer, place = doc01.answer(mesh, op, ask_one)
        words = " ".join(map(str, (answer, *(place or ()))))
    try:
        status, text, after = ask_one(mesh, op, PATIENCE)
    except subprocess.TimeoutExpired:
        status, text, after = "no answer in %d s" % PATIENCE, "", None
    outcome = "%s %s" % (status, text) if text else status
    if after:
        broken = check(after)
        state = "as given" if after == mesh else "breaks C%d at %s %d" % broken if broken else "consistent"
        outcome += "; mesh then " + state
    print("  %-18s document 01: %-8s  Rust: %s" % (op, words, outcome))
    return after


def show_counts(mesh, op):
    """As show(), for results that are too large to read: only their counts."""
    answer, _ = doc01.answer(mesh, op, ask_one)
    with subprocess.Popen([ORACLE], stdin=subprocess.PIPE, stdout=subprocess.PIPE, text=True) as run:
        run.stdin.write(mesh.text() + "op " + op + "\n")
        run.stdin.close()
        status, counts = run.stdout.readline().strip(), run.stdout.readline().strip()
        run.kill()
    print("  %-18s document 01: %-8d  Rust: %s; %s then" % (op, answer, status, counts))


def with_deleted_face(mesh, halfedge):
    """The mesh with a deleted face that names the halfedge, after its other faces."""
    out = mesh.copy()
    out.faces.append(halfedge)
    out.marks.append(1)
    return out


def with_vertex(mesh, mark):
    """The mesh with an isolated vertex of that mark, after its other vertices."""
    out = mesh.copy()
    out.outs.append(NONE)
    out.points += [0, 0, 0]
    out.marks.insert(mesh.V, mark)
    return out


TRIANGLE = gen.from_faces(gen.ngon(3))
PILLOW = gen.pillow(3)                              # two triangles glued along all sides
RING = gen.glue([4, 4], [(1, 4), (3, 6)])           # two quads glued along two opposite sides
LONE_VERTEX = Mesh([NONE], [], [], [0, 0, 0])


def answers():
    title("1 Inconsistent meshes (answer 3)")
    wrong = Mesh([0], [], [], [0, 0, 0])
    show_mesh(wrong, "one vertex that names a halfedge which is not there")
    for op in ("catmull 0 0", "catmull 1 0", "catmull 1 1"):
        show(wrong, op)
    both = with_deleted_face(wrong, 0)
    show_mesh(both, "the same with a deleted face")
    show(both, "catmull 1 0")
    rho = Mesh([], [NONE, 0, 0, 0, NONE, 0, 0, 0], [1])
    show_mesh(rho, "one edge, one face: next never comes back to the face's halfedge")
    show(rho, "catmull 1 0")

    title("2 More than 12 passes (answer 1)")
    print("no elements at all")
    show(Mesh(), "catmull 12 0")
    show(Mesh(), "catmull 13 0")

    title("3 A count over 1,048,576 (answer 2)")
    for n in (doc01.LIMIT, doc01.LIMIT + 1):
        print("%d isolated vertices" % n)
        show_counts(Mesh([NONE] * n, [], [], [0] * (3 * n)), "catmull 1 0")

    title("4 Final counts over 1,048,576 (answer 5)")
    show_mesh(TRIANGLE, "one triangle")
    for op in ("catmull 9 0", "catmull 10 0", "sqrt3 12 0"):
        show_counts(TRIANGLE, op)
    show_mesh(PILLOW, "two triangles glued along all sides")
    print("  sqrt3 12 0 would have %d vertices, %d edges, %d faces" % doc01.final_counts(PILLOW, "sqrt3", 12, False))

    title("5 Triangulate with something deleted (answer 4)")
    lone = LONE_VERTEX.copy()
    lone.marks = [1]
    show_mesh(lone, "one deleted vertex")
    show(lone, "triangulate")
    face = with_deleted_face(Mesh(), 0)
    show_mesh(face, "one deleted face")
    show(face, "triangulate")
    both = with_deleted_face(TRIANGLE, 0)
    show_mesh(both, "a triangle, and a deleted face that names its halfedge 0")
    show(both, "triangulate")

    title("6 Valence 64 and more (answer 6)")
    print("wheels of n triangles; the hub is vertex 0")
    for n in (63, 64):
        print("n = %d" % n)
        for op in ("loop 1 1", "sqrt3 1 0", "loop 1 0", "catmull 1 1"):
            show(gen.from_faces(gen.wheel(n)), op)
    for n in (31, 32):
        wheel = gen.from_faces(gen.wheel(n))
        hub = len(ask_one(wheel, "sqrt3 1 1")[2].turn(0))
        print("n = %d; after one pass of sqrt3 with flag true the hub has valence %d" % (n, hub))
        show(wheel, "sqrt3 2 1")

    title("7 Handles (answer 7)")
    print("no elements at all")
    for op in ("split_edge 0 0", "split_face 0 0", "insert_edge 0 0 -", "swap_ccw 0", "swap_cw 0"):
        show(Mesh(), op)
    edge = Mesh([], [NONE, 0, 0, 0, NONE, 0, 0, 0], [], [], [1])
    show_mesh(edge, "one deleted edge")
    show(edge, "swap_ccw 0")
    three = with_vertex(TRIANGLE, 1)
    show_mesh(three, "a triangle and a deleted vertex")
    show(three, "split_face 0 3")


def edits():
    title("8 Split edge wants an isolated vertex (answer 11)")
    show_mesh(TRIANGLE, "one triangle; with a fourth vertex that is isolated, for comparison, the last line")
    show(TRIANGLE, "split_edge 0 2")
    show(TRIANGLE, "split_face 0 2")
    show(with_vertex(TRIANGLE, 0), "split_edge 0 3")

    title("9 Insert edge between two rim loops (answer 9)")
    show_mesh(RING, "two quads in a ring: the rim loops are %s and %s" % (RING.loop(1), RING.loop(5)))
    show(RING, "insert_edge 1 5 -")
    more = with_deleted_face(RING, 0)
    show_mesh(more, "the same with a deleted face 2")
    after = show(more, "insert_edge 1 5 2")
    print("    the marks of the faces then: %s" % after.marks[-3:])
    show(more, "insert_edge 1 5 0")

    title("10 Swap cw of a rim edge (answer 12)")
    show_mesh(TRIANGLE, "one triangle")
    show(TRIANGLE, "swap_cw 0")
    show(TRIANGLE, "swap_ccw 0")

    title("11 Insert edge that cuts off one halfedge (answer 14)")
    show_mesh(TRIANGLE, "one triangle")
    show(TRIANGLE, "insert_edge 0 4 -")

    title("12 Swap that leaves an end with one edge (answer 14)")
    show_mesh(PILLOW, "two triangles glued along all sides")
    show(PILLOW, "swap_ccw 0")
    show(PILLOW, "swap_cw 0")

    title("13 Swap whose new end already lies on the other face (answer 14)")
    show_mesh(RING, "two quads in a ring")
    show(RING, "swap_ccw 1")
    show(RING, "swap_cw 1")

    title("14 DegenerateEdge and CannotSplitFace")
    edge = Mesh([], [0] * 8, [])
    show_mesh(edge, "one edge")
    show(edge, "swap_ccw 0")
    odd = Mesh([NONE], [NONE, 0, 2, 3, 0, 0, 1, 2, NONE, 0, 3, 0, 1, 0, 0, 1], [2, 1], [0, 0, 0])
    show_mesh(odd, "one vertex, two edges, two faces")
    show(odd, "sqrt3 1 1")


def numbers():
    title("15 NaN")
    signalling = LONE_VERTEX.copy()
    signalling.points = [0x7ff0000000000001, 0, 0]
    show_mesh(signalling, "an isolated vertex with a signalling NaN; x afterwards")
    for op in ("catmull 1 1", "loop 1 1", "sqrt3 1 1"):
        print("  %-18s %016x" % (op, ask_one(signalling, op)[2].points[0]))
    infinite = TRIANGLE.copy()
    infinite.points[0], infinite.points[3] = bits(float("inf")), bits(float("-inf"))
    show_mesh(infinite, "a triangle with both infinities; x of the face point afterwards (zero + inf - inf)")
    print("  %-18s %016x" % ("catmull 1 0", ask_one(infinite, "catmull 1 0")[2].points[18]))


def errors_that_look_right():
    title("Section 8: no moved point is read")
    corners = TRIANGLE.copy()
    corners.points = [bits(float(x)) for x in (0, 0, 0, 8, 0, 0, 0, 8, 0)]
    after = ask_one(corners, "loop 1 1")[2]
    print("  loop 1 1 takes (0,0,0), (8,0,0), (0,8,0) to",
          ", ".join("(%g,%g,%g)" % tuple(real(b) for b in after.points[3 * v:3 * v + 3]) for v in range(3)))

    title("Section 8: sums start at zero")
    corners.points = [bits(-0.0)] * 9
    print("  catmull 1 0, all coordinates -0.0: x of the face point %016x"
          % ask_one(corners, "catmull 1 0")[2].points[18])

    title("Section 8: two rim edges are looked for after triangulating")
    show_mesh(RING, "two quads in a ring; each has two rim edges, each triangle of theirs one")
    after = show(RING, "sqrt3 1 1")
    print("    counts %s; by the table with flag true %s, with flag false %s" % (
        after.counts, doc01.final_counts(RING, "sqrt3", 1, True), doc01.final_counts(RING, "sqrt3", 1, False)))


def readings():
    title("Readings: the place of C2, for a triangle with one wrong prev word (prev of h := h)")
    for h in range(6):
        m = TRIANGLE.copy()
        m.edges[4 * h + 3] = h
        after_next = next(g for g in range(6) if m.prev(m.next(g)) != g)
        after_prev = next(g for g in range(6) if m.next(m.prev(g)) != g)
        print("  h = %d: first with prev(next g) != g: %d; with next(prev g) != g: %d; with either: %d"
              % (h, after_next, after_prev, check(m)[2]))

    title("Readings: an insert across the rim may leave a rim loop of two: done, two edges join the same vertices")
    show(TRIANGLE, "insert_edge 1 3 -")


def collapse():
    title("Collapse (left out): the Rust's own test says yes, the collapse never ends")
    folded = gen.glue([3, 3], [(1, 3), (2, 5)])
    show_mesh(folded, "two triangles glued along two sides")
    show(folded, "check_collapse 0")
    show(folded, "collapse 0")

    title("Collapse (left out): the Rust's own test says yes, the result is inconsistent")
    torus = gen.small_torus(2, 2)
    show_mesh(torus, "a closed torus of 2 x 2 quads")
    show(torus, "check_collapse 0")
    show(torus, "collapse 0")


if __name__ == "__main__":
    answers()
    edits()
    numbers()
    errors_that_look_right()
    readings()
    collapse()
