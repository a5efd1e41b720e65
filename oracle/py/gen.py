"""Meshes and edits drawn at random. A mesh is polygons plus a partial gluing of their sides; its numbers are then drawn.
The order of the draws is part of the recorded cases: changing it changes what a seed gives."""
from mesh import Mesh, NONE, QUIET_NAN, bits


# From polygons to a mesh.

def glue(sizes, pairs, rng=None, isolated=0):
    """Polygons with the given numbers of sides; pairs glue side s to side t against each other (sides are numbered
    through all polygons, corner s is the tail of side s). Without rng the elements are numbered in the order of the
    sides, with it at random. None if C7 would break."""
    first, owner = [], []
    for f, n in enumerate(sizes):
        first.append(len(owner))
        owner += [f] * n
    sides = range(len(owner))

    def succ(s):
        """The side after s in its polygon."""
        start, n = first[owner[s]], sizes[owner[s]]
        return start + (s - start + 1) % n

    # Corners that become one vertex, by union and find.
    parent = list(sides)

    def root(c):
        while parent[c] != c:
            parent[c] = parent[parent[c]]
            c = parent[c]
        return c

    mate = [None] * len(sides)
    for s, t in pairs:
        mate[s], mate[t] = t, s
        parent[root(s)] = root(succ(t))
        parent[root(t)] = root(succ(s))
    for f, n in enumerate(sizes):
        if n < 3 or len({root(first[f] + i) for i in range(n)}) != n:
            return None

    # Numbers of the vertices, faces and edges.
    corners = list(dict.fromkeys(root(s) for s in sides))
    V = len(corners) + isolated
    vertex_number, face_number = list(range(V)), list(range(len(sizes)))
    edges = [(s, mate[s]) for s in sides if mate[s] is None or s < mate[s]]
    if rng:
        rng.shuffle(vertex_number)
        rng.shuffle(face_number)
        rng.shuffle(edges)
        edges = [(b, a) if rng.random() < .5 else (a, b) for a, b in edges]
    vertex_of_root = {r: vertex_number[i] for i, r in enumerate(corners)}
    halfedge = {}
    for e, (a, b) in enumerate(edges):
        if a is not None:
            halfedge[a] = 2 * e
        if b is not None:
            halfedge[b] = 2 * e + 1

    # Links: of the sides first, then of the rim.
    m = Mesh([NONE] * V, [NONE] * (8 * len(edges)), [NONE] * len(sizes), [0] * (3 * V))
    leaving = [[] for _ in range(V)]
    rim_leaving = {}

    def link(h, n):
        m.edges[4 * h + 2] = n
        m.edges[4 * n + 3] = h

    for s in sides:
        h, tail, head = halfedge[s], vertex_of_root[root(s)], vertex_of_root[root(succ(s))]
        m.edges[4 * h] = face_number[owner[s]]
        m.edges[4 * h + 1] = head
        link(h, halfedge[succ(s)])
        leaving[tail].append(h)
        if mate[s] is None:
            m.edges[4 * (h ^ 1) + 1] = tail
            rim_leaving[head] = h ^ 1
            leaving[head].append(h ^ 1)
    for s in sides:
        if mate[s] is None:
            r = halfedge[s] ^ 1
            link(r, rim_leaving[m.head(r)])
    for f, n in enumerate(sizes):
        m.faces[face_number[f]] = halfedge[first[f] + (rng.randrange(n) if rng else 0)]
    for v in range(V):
        if v in rim_leaving:
            m.outs[v] = rim_leaving[v]
        elif leaving[v]:
            m.outs[v] = rng.choice(leaving[v]) if rng else min(leaving[v])
    return m


def from_faces(faces, rng=None, isolated=0):
    """Faces as vertex loops; sides u->v and v->u are glued. Vertex copies come apart where only a point is shared."""
    waiting, pairs, s = {}, [], 0
    for f in faces:
        for i in range(len(f)):
            u, v = f[i], f[(i + 1) % len(f)]
            if (v, u) in waiting:
                pairs.append((waiting.pop((v, u)), s))
            else:
                assert (u, v) not in waiting
                waiting[u, v] = s
            s += 1
    return glue([len(f) for f in faces], pairs, rng, isolated)


# Face lists.

def tetra(): return [(0, 1, 2), (0, 3, 1), (1, 3, 2), (2, 3, 0)]


def cube(): return [(0, 3, 2, 1), (4, 5, 6, 7), (0, 1, 5, 4), (1, 2, 6, 5), (2, 3, 7, 6), (3, 0, 4, 7)]


def octa(): return [(0, 2, 4), (2, 1, 4), (1, 3, 4), (3, 0, 4), (2, 0, 5), (1, 2, 5), (3, 1, 5), (0, 3, 5)]


def ngon(n): return [tuple(range(n))]


def prism(n):
    bottom, top = tuple(reversed(range(n))), tuple(range(n, 2 * n))
    return [bottom, top] + [(i, (i + 1) % n, n + (i + 1) % n, n + i) for i in range(n)]


def tube(n, k):
    """k rings of n quads, open at both ends."""
    def at(j, i): return j * n + i % n
    return [(at(j, i), at(j, i + 1), at(j + 1, i + 1), at(j + 1, i)) for j in range(k) for i in range(n)]


def wheel(n):
    """n triangles round the vertex n, which from_faces numbers 0."""
    return [(n, i, (i + 1) % n) for i in range(n)]


def bipyramid(n): return wheel(n) + [(n + 1, (i + 1) % n, i) for i in range(n)]


def torus(a, b):
    """Closed, a x b quads, a and b at least 3."""
    def at(i, j): return i % a * b + j % b
    return [(at(i, j), at(i + 1, j), at(i + 1, j + 1), at(i, j + 1)) for i in range(a) for j in range(b)]


def tritorus(a, b): return [t for q in torus(a, b) for t in ((q[0], q[1], q[2]), (q[0], q[2], q[3]))]


def grid(a, b):
    def at(i, j): return i * (b + 1) + j
    return [(at(i, j), at(i + 1, j), at(i + 1, j + 1), at(i, j + 1)) for i in range(a) for j in range(b)]


# Meshes that no face list gives: two edges may join the same two vertices.

def pillow(n, rng=None):
    """Two n-gons glued along all sides."""
    return glue([n, n], [(i, n + (n - i) % n) for i in range(n)], rng)


def small_torus(a, b, rng=None):
    """Closed, a x b quads, a and b at least 2."""
    def side(i, j, k): return 4 * ((i % a) * b + j % b) + k
    pairs = []
    for i in range(a):
        for j in range(b):
            pairs += [(side(i, j, 1), side(i + 1, j, 3)), (side(i, j, 2), side(i, j + 1, 0))]
    return glue([4] * (a * b), pairs, rng)


# Random consistent meshes.

def random_glue(rng):
    """One to seven random polygons, sides glued one pair after the other as long as C7 holds."""
    sizes = [rng.choice((3, 3, 3, 4, 4, 5, 6, 7)) for _ in range(rng.randint(1, 7))]
    pairs, free = [], list(range(sum(sizes)))
    for _ in range(rng.randint(0, sum(sizes))):
        if len(free) < 2:
            break
        s, t = rng.sample(free, 2)
        if glue(sizes, pairs + [(s, t)]):
            pairs.append((s, t))
            free.remove(s)
            free.remove(t)
    return glue(sizes, pairs, rng, rng.choice((0, 0, 0, 1, 2)))


def structured(rng):
    """One of the shapes above, sometimes with faces taken out, a second piece, isolated vertices."""
    k = rng.randrange(14)
    if k == 0: faces = tetra()
    elif k == 1: faces = cube()
    elif k == 2: faces = octa()
    elif k == 3: faces = ngon(rng.randint(3, 9))
    elif k == 4: faces = prism(rng.randint(3, 7))
    elif k == 5: faces = tube(rng.randint(3, 6), rng.randint(1, 3))
    elif k == 6: faces = wheel(rng.randint(3, 9))
    elif k == 7: faces = bipyramid(rng.randint(3, 8))
    elif k == 8: faces = torus(rng.randint(3, 4), rng.randint(3, 4))
    elif k == 9: faces = tritorus(3, rng.randint(3, 4))
    elif k == 10: return pillow(rng.randint(3, 7), rng)
    elif k == 11: return small_torus(rng.randint(2, 3), rng.randint(2, 4), rng)
    else:
        faces = grid(rng.randint(1, 5), rng.randint(1, 5))
        faces = [f for f in faces if rng.random() < rng.choice((1, .9, .7, .5))] or faces[:1]
    if rng.random() < .3 and len(faces) > 1:
        faces = [f for f in faces if rng.random() > .15] or faces[:1]
    if rng.random() < .25:
        piece = rng.choice((tetra(), ngon(3), ngon(5), cube(), wheel(4)))
        faces = faces + [tuple(1000 + v for v in f) for f in piece]
    if rng.random() < .5:
        rng.shuffle(faces)
    return from_faces(faces, rng, rng.choice((0, 0, 0, 1, 3)))


ODD = [QUIET_NAN, 0xfff8000000000000, 0x7ff0000000000000, 0xfff0000000000000, 0x8000000000000000, 0, 1,
       0x8000000000000001, 0x000fffffffffffff, 0x0010000000000000, 0x7fefffffffffffff, 0xffefffffffffffff,
       0x3ff0000000000000, 0x7fe0000000000000]


def coords(m, rng, kind=None):
    """Fills in the points: 0 small integers, 1 uniform, 2 all exponents, 3 with infinities, zeros, NaN, subnormals."""
    kind = rng.choice((0, 1, 1, 2, 3)) if kind is None else kind
    for i in range(3 * m.V):
        if kind == 0:
            x = bits(float(rng.randint(-20, 20)))
        elif kind == 1:
            x = bits(rng.uniform(-10, 10))
        else:
            x = rng.getrandbits(64)
            if kind == 3 and rng.random() < .35:
                x = rng.choice(ODD)
            if x >> 52 & 2047 == 2047 and x & (1 << 52) - 1:
                x = QUIET_NAN if kind == 3 else bits(1.5)
        m.points[i] = x
    return m


def mesh(rng, kind=None):
    m = random_glue(rng) if rng.random() < .5 else structured(rng)
    return coords(m, rng, kind)


# Deleted elements, damage, edits.

def with_deleted(m, rng):
    """The same mesh with deleted vertices, edges, faces of arbitrary content put in between."""
    more_v, more_e, more_f = rng.randint(0, 2), rng.randint(0, 2), rng.randint(0, 3)
    if more_v + more_e + more_f == 0:
        more_f = 1
    V, E, F = m.V + more_v, m.E + more_e, m.F + more_f
    new_vertex = sorted(rng.sample(range(V), m.V))
    new_edge = sorted(rng.sample(range(E), m.E))
    new_face = sorted(rng.sample(range(F), m.F))

    def any_word(): return rng.choice((NONE, 0, rng.randrange(40), rng.getrandbits(32)))
    def halfedge(h): return NONE if h == NONE else 2 * new_edge[h >> 1] + (h & 1)
    def face(f): return NONE if f == NONE else new_face[f]

    out = Mesh([any_word() for _ in range(V)], [any_word() for _ in range(8 * E)],
               [rng.randrange(40) for _ in range(F)], [rng.getrandbits(62) for _ in range(3 * V)], [1] * (V + E + F))
    for v in range(m.V):
        w = new_vertex[v]
        out.outs[w] = halfedge(m.outs[v])
        out.points[3 * w:3 * w + 3] = m.points[3 * v:3 * v + 3]
        out.marks[w] = 0
    for h in range(2 * m.E):
        g = halfedge(h)
        out.edges[4 * g:4 * g + 4] = [face(m.face(h)), new_vertex[m.head(h)], halfedge(m.next(h)), halfedge(m.prev(h))]
        out.marks[V + (g >> 1)] = 0
    for f in range(m.F):
        out.faces[new_face[f]] = halfedge(m.faces[f])
        out.marks[V + E + new_face[f]] = 0
    return out


def spoil(m, rng):
    """A small damage, usually inconsistent: a mark turned, a vertex link changed, one or two faces taken out, or one to
    three words changed."""
    m = m.copy()
    k = rng.random()
    if k < .1 and m.marks:
        m.marks[rng.randrange(len(m.marks))] ^= 1
    elif k < .2 and m.V:
        m.outs[rng.randrange(m.V)] = rng.choice((NONE, 2 * m.E, rng.randrange(2 * m.E + 3)))
    elif k < .45 and m.F:
        for f in rng.sample(range(m.F), min(m.F, rng.choice((1, 1, 2)))):
            if m.face_deleted(f):
                continue
            for h in range(2 * m.E):
                if not m.halfedge_deleted(h) and m.face(h) == f:
                    m.edges[4 * h] = NONE
            m.marks[m.V + m.E + f] = 1
    else:
        for _ in range(rng.choice((1, 1, 1, 2, 3))):
            words = rng.choice([x for x in (m.outs, m.edges, m.edges, m.edges, m.faces) if x] or [[0]])
            limit = rng.choice((m.V, 2 * m.E, m.F)) + 1
            word = rng.choice((rng.randrange(limit), rng.randrange(limit), NONE, rng.randrange(limit + 5)))
            words[rng.randrange(len(words))] = word
    return m


def random_edit(m, rng):
    """One edit as the oracle's words, with handles that may be one past the last; m has an edge."""
    H = 2 * m.E
    isolated = [v for v in range(m.V) if m.outs[v] == NONE]
    h, v = rng.randrange(H + 1), rng.choice(isolated + [rng.randrange(m.V + 1)])
    f, e = rng.randrange(m.F + 1), rng.randrange(m.E + 1)
    k = rng.randrange(6)
    if k == 0:
        return "split_edge %d %d" % (h, v)
    if k == 1:
        return "split_face %d %d" % (f, v)
    if k == 2:
        return "swap_ccw %d" % e
    if k == 3:
        return "swap_cw %d" % e
    if k == 4 and rng.random() < .25:
        return "triangulate"
    prev = rng.randrange(H)
    same_face = [g for g in range(H) if m.face(g) == m.face(prev) and not m.halfedge_deleted(g)]
    next_ = rng.choice(same_face) if same_face and rng.random() < .9 else rng.randrange(H + 1)
    if any(m.marks):
        new_face = rng.choice(("-", "-", str(rng.randrange(m.F + 1))))
    else:
        new_face = "-" if rng.random() < .95 else "0"
    return "insert_edge %d %d %s" % (prev, next_, new_face)
