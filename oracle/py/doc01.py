"""Document 01 written out in Python: counts, points, answers of edits and schemes.
Links are not modelled here (the oracle gives them). The weight tables are read from alum's files, whose folder the
environment variable ALUM_SRC names; only what works out points needs it."""
import functools
import os
import re
import sys

from mesh import NONE, bits, check, real

LIMIT = 1048576
PASSES = 12


# Section 3: counts.

def counts(m, scheme, flag):
    """The counts after one pass; m is triangulated already for Loop and sqrt3."""
    V, E, F = m.counts
    if scheme == "catmull":
        return (V + E + F, 2 * E + m.S(), m.S())
    if scheme == "loop":
        return (V + E, 2 * E + 3 * F, 4 * F)
    b = m.b() if flag else 0
    return (V + F + b, E + 3 * F + b, 3 * F)


def triangulated_counts(m):
    V, E, F = m.counts
    S = m.S()
    return (V, E + S - 3 * F, S - 2 * F)


def final_counts(m, scheme, passes, flag):
    """The counts after all passes, by the table alone. m is undeleted and consistent; flag only matters for sqrt3."""
    V, E, F = m.counts
    if passes == 0:
        return (V, E, F)
    S, b = m.S(), m.b()
    if scheme != "catmull":
        E, F = E + S - 3 * F, S - 2 * F
    for _ in range(passes):
        if scheme == "catmull":
            V, E, F, S = V + E + F, 2 * E + S, S, 4 * S
        elif scheme == "loop":
            V, E, F = V + E, 2 * E + 3 * F, 4 * F
        elif flag:
            V, E, F, b, flag = V + F + b, E + 3 * F + b, 3 * F, 3 * b, False
        else:
            V, E, F, flag = V + F, E + 3 * F, 3 * F, True
    return (V, E, F)


def sqrt3_flag(m, flag):
    """The flag at the start of a call: false if any face of the triangulated m has more than one rim edge."""
    rim = [0] * m.F
    for h in range(2 * m.E):
        if m.face(h) != NONE and m.face(h ^ 1) == NONE:
            rim[m.face(h)] += 1
    return flag and max(rim, default=0) <= 1


# Section 3: the points of one pass, in the order of the result's vertices. Each coordinate goes by itself.

@functools.cache
def weights(scheme):
    """The rows 1 to 63 of the scheme's table; row 0 is never read."""
    folder = os.environ.get("ALUM_SRC") or sys.exit("set ALUM_SRC to the folder of alum's files")
    name = {"loop": "loop_subd", "sqrt3": "sqrt3"}[scheme]
    places = ["subdiv/%s.rs" % name, "src/subdiv/%s.rs" % name, "src--src--subdiv--%s.rs.txt" % name]
    path = next(p for p in (os.path.join(folder, place) for place in places) if os.path.exists(p))
    with open(path) as file:
        rows = re.findall(r"^    \(([0-9.]+), ([0-9.]+)\),", file.read(), re.M)
    assert len(rows) == 63
    return [None] + [(float(a), float(b)) for a, b in rows]


def points(m, scheme, flag):
    """The bits of all points after one pass; m is triangulated already for Loop and sqrt3."""
    rule = {"catmull": catmull_points, "loop": loop_points, "sqrt3": sqrt3_points}[scheme]
    columns = [rule(m, flag, [real(x) for x in m.points[k::3]]) for k in range(3)]
    return [bits(x) for point in zip(*columns) for x in point]


def total(numbers):
    """Zero plus the numbers in order, one rounding each (Python's own sum may add otherwise)."""
    t = 0.0
    for x in numbers:
        t = t + x
    return t


def face_point(m, f, P):
    loop = m.face_loop(f)
    return total(P[m.head(h)] for h in loop) / float(len(loop))


def weighted(m, v, P, scheme):
    """An interior vertex of Loop or sqrt3."""
    turn = m.turn(v)
    first, second = weights(scheme)[len(turn)]
    return total(P[m.head(h)] for h in turn) * second + P[v] * first


def catmull_points(m, flag, P):
    face_points = [face_point(m, f, P) for f in range(m.F)]
    edge_points = []
    for e in range(m.E):
        ends = P[m.head(2 * e)] + P[m.head(2 * e + 1)]
        if flag and not m.rim_edge(e):
            edge_points.append((ends + face_points[m.face(2 * e)] + face_points[m.face(2 * e + 1)]) * 0.25)
        else:
            edge_points.append(ends * 0.5)
    vertex_points = []
    for v in range(m.V):
        p, turn = P[v], m.turn(v)
        if not flag:
            vertex_points.append(p)
        elif m.rim_vertex(v):
            rim = [h >> 1 for h in turn if m.rim_edge(h >> 1)]
            for e in rim:
                p = p + edge_points[e]
            vertex_points.append(p / float(1 + len(rim)))
        else:
            n = float(len(turn))
            around = total(face_points[m.face(h)] for h in turn) + total(P[m.head(h)] for h in turn)
            vertex_points.append((around / n + p * (n - 2.0)) / n)
    return vertex_points + edge_points + face_points


def loop_points(m, flag, P):
    edge_points = []
    for e in range(m.E):
        ends = P[m.head(2 * e)] + P[m.head(2 * e + 1)]
        if flag and not m.rim_edge(e):
            corners = P[m.head(m.next(2 * e))] + P[m.head(m.next(2 * e + 1))]
            edge_points.append((ends * 3.0 + corners) / 8.0)
        else:
            edge_points.append(ends * 0.5)
    vertex_points = []
    for v in range(m.V):
        p, h = P[v], m.outs[v]
        if not flag or h == NONE:
            vertex_points.append(p)
        elif m.rim_vertex(v):
            vertex_points.append((p * 6.0 + P[m.head(h)] + P[m.tail(m.prev(h))]) / 8.0)
        else:
            vertex_points.append(weighted(m, v, P, "loop"))
    return vertex_points + edge_points


def sqrt3_points(m, flag, P):
    vertex_points = []
    for v in range(m.V):
        p, h = P[v], m.outs[v]
        if not m.rim_vertex(v):
            vertex_points.append(weighted(m, v, P, "sqrt3"))
        elif flag and h != NONE:
            vertex_points.append(((P[m.head(h)] + P[m.tail(m.prev(h))]) * 4.0 + p * 19.0) / 27.0)
        else:
            vertex_points.append(p)
    face_points = []
    for f in range(m.F):
        rim = [h ^ 1 for h in m.face_loop(f) if m.face(h ^ 1) == NONE]
        if flag and rim:
            r = rim[0]
            p1, p2, p3, p4 = P[m.head(m.next(r))], P[m.head(r)], P[m.tail(r)], P[m.tail(m.prev(r))]
            face_points.append((p1 + p2 * 16.0 + p3 * 10.0) / 27.0)
            face_points.append((p2 * 10.0 + p3 * 16.0 + p4) / 27.0)
        else:
            face_points.append(face_point(m, f, P))
    return vertex_points + face_points


# Section 4: answers. Slices are taken as large enough, so 5 only comes from the limit.

def deleted_place(m):
    """The place of answer 4: faces, then edges, then vertices, lowest index."""
    kinds = (("f", m.F, m.face_deleted), ("e", m.E, m.edge_deleted), ("v", m.V, m.vertex_deleted))
    return next(((kind, i) for kind, n, deleted in kinds for i in range(n) if deleted(i)), None)


def heavy(m):
    """The lowest interior vertex of valence 64 or more, or None."""
    return next((v for v in range(m.V) if not m.rim_vertex(v) and len(m.turn(v)) >= 64), None)


def needs_weights(scheme, flag):
    """Whether a pass moves points by a weight table."""
    return scheme == "sqrt3" or (scheme == "loop" and bool(flag))


def prepared(m, scheme, flag, step):
    """The mesh that the first pass starts from, and its flag."""
    if scheme == "catmull":
        return m, flag
    t = step(m, "triangulate")[2]
    return t, int(sqrt3_flag(t, flag)) if scheme == "sqrt3" else flag


def scheme_answer(m, scheme, passes, flag, step):
    """(answer, place) of a scheme. step(mesh, operation) runs the oracle and gives (status, text, mesh after)."""
    if passes > PASSES:
        return 1, None
    if max(m.counts) > LIMIT:
        return 2, None
    broken = check(m)
    if broken:
        return 3, broken
    if passes == 0:
        return 0, None
    deleted = deleted_place(m)
    if deleted:
        return 4, deleted
    t, flag = prepared(m, scheme, flag, step)
    if max(final_counts(m, scheme, passes, flag)) > LIMIT:
        return 5, None
    if not needs_weights(scheme, flag):
        return 0, None
    for k in range(1, passes + 1):
        v = heavy(t)
        if v is not None:
            return 6, (k, v)
        if k < passes:
            _, text, t = step(t, "%s 1 %d" % (scheme, flag))
            if scheme == "sqrt3":
                flag = int(text)
    return 0, None


def edit_answer(m, op):
    """(answer, place) of an edit, op being its words as in the oracle's protocol.
    Readings taken: 10 comes before the 9 of two different rim loops (the source's order);
    swaps answer 14 if the new end lies on the face that would get it (this covers 'one edge left')."""
    name, handles = op[0], [NONE if word == "-" else int(word) for word in op[1:]]
    if max(m.counts) > LIMIT:
        return 2, None
    broken = check(m)
    if broken:
        return 3, broken
    if name == "triangulate":
        deleted = deleted_place(m)
        return (4, deleted) if deleted else (0, None)
    rule = {"split_edge": split_answer, "split_face": split_answer, "insert_edge": insert_answer,
            "swap_ccw": swap_answer, "swap_cw": swap_answer}[name]
    return rule(m, name, *handles), None


def has_halfedge(m, h): return h < 2 * m.E and not m.halfedge_deleted(h)


def split_answer(m, name, place, v):
    if name == "split_edge":
        there = has_halfedge(m, place)
    else:
        there = place < m.F and not m.face_deleted(place)
    if not there or v >= m.V or m.vertex_deleted(v):
        return 7
    return 0 if m.outs[v] == NONE else 11


def insert_answer(m, _name, prev, next_, new_face):
    if not has_halfedge(m, prev) or not has_halfedge(m, next_) or (new_face != NONE and new_face >= m.F):
        return 7
    if prev == next_ or m.next(prev) == next_:
        return 8
    if m.face(prev) != m.face(next_):
        return 9
    if new_face != NONE and not m.face_deleted(new_face):
        return 10
    if m.face(prev) == NONE:
        return 0 if next_ in m.loop(prev) else 9
    return 14 if m.next(m.next(prev)) == next_ else 0


def swap_answer(m, name, e):
    if e >= m.E or m.edge_deleted(e):
        return 7
    if m.rim_edge(e):
        return 12
    h, o = 2 * e, 2 * e + 1
    if name == "swap_ccw":
        for_h, for_o = m.head(m.next(o)), m.head(m.next(h))
    else:
        for_h, for_o = m.tail(m.prev(o)), m.tail(m.prev(h))
    on_h = any(m.head(g) == for_h for g in m.loop(h))
    on_o = any(m.head(g) == for_o for g in m.loop(o))
    return 14 if on_h or on_o else 0


def answer(m, op, step):
    """(answer, place) of any operation of a recorded case."""
    words = op.split()
    if words[0] == "check":
        broken = check(m)
        return (3, broken) if broken else (0, None)
    if words[0] in ("catmull", "loop", "sqrt3"):
        return scheme_answer(m, words[0], int(words[1]), int(words[2]), step)
    return edit_answer(m, words)


def scheme_result(m, scheme, passes, flag, step):
    """(counts, points, next flag) of a scheme that is answered 0: the counts by the table alone, the points of each
    pass by points(), the links that they need by step."""
    if passes == 0:
        return m.counts, m.points, flag
    t, flag = prepared(m, scheme, flag, step)
    final = final_counts(m, scheme, passes, flag)
    for _ in range(passes):
        new = points(t, scheme, flag)
        t = step(t, "%s 1 %d" % (scheme, flag))[2]
        t.points = new
        if scheme == "sqrt3":
            flag = 1 - flag
    return final, t.points, flag
