"""Checks the Rust against document 01: K1..K12, counts, points, composition, consistency, edits.
Usage: probe.py [SEED] [N]"""
import random
import sys
import time

import doc01
import gen
from mesh import Mesh, NONE, ask, ask_one, bits, check, real, same_points

failures = []


def want(holds, text, mesh=None):
    """Notes a failure; the first ones are printed."""
    if holds:
        return
    failures.append(text)
    if len(failures) < 15:
        print("FAIL", text)
        print(mesh.text() if mesh else "", end="")


# K1..K12.

def hand_cases():
    def coords(*points): return [bits(float(x)) for p in points for x in p]
    def point(m, v): return m.points[3 * v:3 * v + 3]

    def run(m, op):
        status, text, after = ask_one(m, op)
        want(status == "ok", op)
        return text, after

    def corner_names(faces):
        """The names of the vertices in the order in which from_faces numbers them."""
        return list(dict.fromkeys(v for f in faces for v in f))

    cube = gen.from_faces(gen.cube())
    corners = [(x, y, z) for z in (-1, 1) for x, y in ((-1, -1), (1, -1), (1, 1), (-1, 1))]
    cube.points = coords(*[corners[n] for n in corner_names(gen.cube())])
    at = {tuple(real(b) for b in point(cube, v)): v for v in range(8)}
    want(len(at) == 8, "cube corners")
    refined = run(cube, "catmull 1 1")[1]
    want(refined.counts == (26, 48, 24), "K1")
    want(run(cube, "loop 1 1")[1].counts == (26, 72, 48), "K2")
    want(run(cube, "sqrt3 1 0")[1].counts == (20, 54, 36), "K3")

    triangle = gen.from_faces(gen.ngon(3))
    triangle.points = coords((0, 0, 0), (8, 0, 0), (0, 8, 0))
    want(run(triangle, "catmull 1 1")[1].counts == (7, 9, 3), "K4")
    flag, once = run(triangle, "sqrt3 1 1")
    want(once.counts == (4, 6, 3) and flag == "1", "K5")
    flag, twice = run(once, "sqrt3 1 1")
    want(twice.counts == (10, 18, 9) and flag == "0", "K6")
    flag, twice = run(triangle, "sqrt3 2 1")
    want(twice.counts == (10, 18, 9) and flag == "0", "K6 as two passes")
    for op in ("catmull 3 1", "loop 3 1", "sqrt3 3 1"):
        want(run(Mesh(), op)[1].counts == (0, 0, 0), "K7")

    ends = {at[1, 1, 1], at[-1, 1, 1]}
    e = next(e for e in range(12) if {cube.head(2 * e), cube.head(2 * e + 1)} == ends)
    want(point(refined, 8 + e) == coords((0, .75, .75)), "K8")
    square = gen.from_faces(gen.ngon(4))
    square.points = coords((0, 0, 0), (6, 0, 0), (6, 6, 0), (0, 6, 0))
    want(point(run(square, "catmull 1 1")[1], 0) == coords((1, 1, 0)), "K9")
    want(point(run(triangle, "loop 1 1")[1], 0) == coords((1, 1, 0)), "K10")
    octa = gen.from_faces(gen.octa())
    tips = [(1, 0, 0), (-1, 0, 0), (0, 1, 0), (0, -1, 0), (0, 0, 1), (0, 0, -1)]
    names = corner_names(gen.octa())
    octa.points = coords(*[tips[n] for n in names])
    want(point(run(octa, "loop 1 1")[1], names.index(0)) == coords((0.515625, 0, 0)), "K11")
    for n in (3, 4, 5):     # K12 on wheels: discs of triangles with one rim edge each, so that the flag stays true
        wheel = gen.from_faces(gen.wheel(n))
        v = next(v for v in range(wheel.V) if wheel.rim_vertex(v))
        h = wheel.outs[v]
        for neighbour, where in ((wheel.head(h), (27, 0, 0)), (wheel.tail(wheel.prev(h)), (0, 27, 0))):
            wheel.points[3 * neighbour:3 * neighbour + 3] = coords(where)
        want(point(run(wheel, "sqrt3 1 1")[1], v) == coords((4, 4, 0)), "K12 wheel %d" % n)


# Schemes on random meshes.

def edited(rng, n, steps=25):
    """Meshes after random walks of edits that document 01 answers with 0, all walks side by side."""
    meshes = [m for m in (gen.mesh(rng) for _ in range(n)) if 0 < m.E <= 30]
    for _ in range(steps):
        ops = [next_step(m, rng) for m in meshes]
        answers = ask(list(zip(meshes, ops)))
        for m, op, (status, _text, after) in zip(meshes, ops, answers):
            want(status == "ok" and check(after) is None, "edit " + op, m)
        meshes = [after for _status, _text, after in answers]
    return meshes


def next_step(m, rng):
    """An edit that document 01 answers with 0, or copy after six drawn in vain. m may get isolated vertices."""
    for _ in range(6):
        op = gen.random_edit(m, rng)
        if rng.random() < .5:
            m.outs.append(NONE)
            m.points += [bits(rng.uniform(-9, 9)) for _ in range(3)]
            m.marks.insert(m.V - 1, 0)
        small_enough = m.E < 60 or op.startswith("swap")
        if small_enough and doc01.edit_answer(m, op.split())[0] == 0:
            return op
    return "copy"


def schemes(meshes):
    """One pass of each scheme with either flag, and triangulate, on each mesh."""
    triangulated = [after for _status, _text, after in ask([(m, "triangulate") for m in meshes])]
    for m, t in zip(meshes, triangulated):
        want(check(m) is None, "input", m)
        right = t.counts == doc01.triangulated_counts(m) and check(t) is None and t.points == m.points
        want(right, "triangulate", m)
        for f in range(m.F):    # the fan starts at the tail of the face's halfedge, the last triangle keeps the index
            loop = m.face_loop(f)
            last = {m.tail(loop[0]), m.tail(loop[-1]), m.tail(loop[-2])}
            want({t.head(h) for h in t.face_loop(f)} == last, "fan", m)
    for scheme in ("catmull", "loop", "sqrt3"):
        for flag in (0, 1):
            answers = ask([(m, "%s 1 %d" % (scheme, flag)) for m in meshes])
            for m, t, answer in zip(meshes, triangulated, answers):
                one_pass(m, m if scheme == "catmull" else t, scheme, flag, answer)
    return len(meshes)


def one_pass(m, base, scheme, flag, answer):
    """The Rust's answer to one pass on m against document 01; base is m, triangulated for Loop and sqrt3."""
    status, text, after = answer
    name = "%s %d" % (scheme, flag)
    want(status == "ok", "%s %s %s" % (name, status, text), m)
    if status != "ok":
        return
    if scheme == "sqrt3":
        flag = doc01.sqrt3_flag(base, flag)
        want(int(text) == (not flag), name + " flag", m)
    want(check(after) is None, name + " consistent", m)
    want(after.counts == doc01.counts(base, scheme, flag), name + " counts", m)
    want(not any(after.marks), name + " marks", m)
    if doc01.heavy(base) is None or not doc01.needs_weights(scheme, flag):
        want(same_points(after.points, doc01.points(base, scheme, flag)), name + " points", m)
    if scheme == "catmull":
        want(all(len(after.face_loop(f)) == 4 for f in range(after.F)), "quads", m)


def composition(rng, n):
    """a passes and then b are a + b passes."""
    meshes = [m for m in (gen.mesh(rng) for _ in range(n)) if m.E <= 40]
    for scheme in ("catmull", "loop", "sqrt3"):
        for a, b in ((1, 1), (0, 2), (2, 0), (1, 2), (2, 1), (0, 0)):
            flag = rng.randrange(2)
            first = ask([(m, "%s %d %d" % (scheme, a, flag)) for m in meshes])
            second = ask([(after, "%s %d %s" % (scheme, b, text if scheme == "sqrt3" else flag))
                          for _status, text, after in first])
            whole = ask([(m, "%s %d %d" % (scheme, a + b, flag)) for m in meshes])
            for m, s, w in zip(meshes, second, whole):
                same = s[0] == w[0] == "ok" and s[1] == w[1] and s[2].agrees(w[2])
                want(same, "composition %s %d %d" % (scheme, a, b), m)
                want(check(w[2]) is None, "consistent after %s %d" % (scheme, a + b), m)
    return len(meshes)


# Every edit on small meshes.

def all_edits(m):
    """Every edit with undeleted handles; of the vertices and of the faces given for reuse, one of each kind."""
    isolated = [v for v in range(m.V) if m.outs[v] == NONE and not m.vertex_deleted(v)]
    used = [v for v in range(m.V) if m.outs[v] != NONE and not m.vertex_deleted(v)]
    halfedges = [h for h in range(2 * m.E) if not m.halfedge_deleted(h)]
    faces = [f for f in range(m.F) if not m.face_deleted(f)]
    deleted = [f for f in range(m.F) if m.face_deleted(f)]
    ops = []
    for v in isolated[:1]:
        ops += ["split_edge %d %d" % (h, v) for h in halfedges]
    for v in isolated[:1] + used[:1]:
        ops += ["split_face %d %d" % (f, v) for f in faces]
    for f in ["-"] + deleted[:1] + faces[:1]:
        ops += ["insert_edge %d %d %s" % (p, n, f) for p in halfedges for n in halfedges]
    ops += ["swap_%s %d" % (way, e) for e in range(m.E) if not m.edge_deleted(e) for way in ("ccw", "cw")]
    return ops


# What the Rust may do for each answer of document 01; where it does not refuse, its result is inconsistent.
RUST = {
    0: {"consistent"},
    8: {"CannotInsertEdge"},
    9: {"HalfedgesNotInTheSameLoop", "breaks C7"},
    10: {"NotDeletedFace"},
    11: {"ComplexVertex"},
    12: {"CannotSwapBoundaryEdge", "false"},
    14: {"breaks C6", "breaks C7"},
}


def edits(meshes):
    """Every edit on each mesh; how often each outcome of the Rust met each answer of document 01."""
    counts = {}
    for m in meshes:
        ops = all_edits(m)
        for op, (status, text, after) in zip(ops, ask([(m, op) for op in ops])):
            words = op.split()
            answer = doc01.edit_answer(m, words)[0]
            broken = check(after) if after else None
            if status == "panic":
                outcome = "panic"
            elif status == "err":
                outcome = text.split("(")[0]
            elif words[0] == "swap_cw" and text == "0":
                outcome = "false"
            else:
                outcome = "breaks C%d" % broken[0] if broken else "consistent"
            want(outcome in RUST[answer], "%s: %d here, the Rust %s" % (op, answer, outcome), m)
            rim = words[0] == "insert_edge" and m.face(int(words[1])) == NONE
            key = (words[0], "rim" if rim else "", answer, outcome)
            counts[key] = counts.get(key, 0) + 1
    return counts


def main(seed, n):
    rng, start = random.Random(seed), time.time()

    def report(*words):
        print(*words, "failures", len(failures), "%.0f s" % (time.time() - start))

    hand_cases()
    report("K1..K12,")
    report("schemes on", schemes([gen.mesh(rng) for _ in range(n)]), "meshes,")
    report("schemes on", schemes(edited(rng, n // 4)), "meshes after random edits,")
    report("composition on", composition(rng, n // 4), "meshes,")
    small = [m for m in (gen.mesh(rng) for _ in range(n // 8)) if m.E <= 25]
    counts = edits(small + [gen.with_deleted(m, rng) for m in small])
    for key in sorted(counts):
        print("edit %-12s %-3s document %2d, Rust: %-28s %7d times" % (*key, counts[key]))
    report("all,")
    return 1 if failures else 0


if __name__ == "__main__":
    numbers = [int(word) for word in sys.argv[1:]] + [1, 2000][len(sys.argv) - 1:]
    sys.exit(main(*numbers))
