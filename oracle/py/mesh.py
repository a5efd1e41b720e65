"""A mesh as plain numbers, its text form, the check C1..C9 of document 01, and the oracle as a child process."""
import os
import struct
import subprocess

NONE = 4294967295
QUIET_NAN = 0x7ff8000000000000

FOLDER = os.path.dirname(os.path.dirname(os.path.abspath(__file__)))     # oracle/
TARGET = os.environ.get("CARGO_TARGET_DIR") or os.path.join(FOLDER, "target")
ORACLE = os.environ.get("ORACLE") or os.path.join(TARGET, "release", "oracle")


def bits(x):
    """The 64 bits of a float."""
    return struct.unpack("<Q", struct.pack("<d", x))[0]


def real(b):
    """The float of these 64 bits."""
    return struct.unpack("<d", struct.pack("<Q", b))[0]


def is_nan(b):
    return b & 0x7fffffffffffffff > 0x7ff0000000000000


def same_points(a, b):
    """Every bit agrees, except that any NaN stands for any other."""
    return len(a) == len(b) and all(x == y or (is_nan(x) and is_nan(y)) for x, y in zip(a, b))


class Mesh:
    """outs, faces: one halfedge each (of a vertex, of a face); edges: eight words an edge (face head next prev of
    halfedge 2e, then of 2e+1); points: three words of f64 bits a vertex; marks: V + E + F bytes."""
    __slots__ = ("outs", "edges", "faces", "points", "marks")

    def __init__(self, outs=(), edges=(), faces=(), points=(), marks=None):
        self.outs, self.edges, self.faces, self.points = list(outs), list(edges), list(faces), list(points)
        self.marks = [0] * sum(self.counts) if marks is None else list(marks)

    def copy(self):
        return Mesh(self.outs, self.edges, self.faces, self.points, self.marks)

    def links(self):
        return (self.outs, self.edges, self.faces, self.marks)

    def __eq__(self, other):
        return self.links() == other.links() and self.points == other.points

    def agrees(self, other):
        """Every word and bit is the same, except that any NaN stands for any other."""
        return self.links() == other.links() and same_points(self.points, other.points)

    # Counts.

    @property
    def V(self): return len(self.outs)

    @property
    def E(self): return len(self.edges) // 8

    @property
    def F(self): return len(self.faces)

    @property
    def counts(self): return (self.V, self.E, self.F)

    def S(self):
        """The sum of the face lengths."""
        return sum(1 for h in range(2 * self.E) if self.face(h) != NONE)

    def b(self):
        """The number of edges with a rim halfedge."""
        return sum(1 for e in range(self.E) if self.rim_edge(e))

    # One element.

    def face(self, h): return self.edges[4 * h]
    def head(self, h): return self.edges[4 * h + 1]
    def next(self, h): return self.edges[4 * h + 2]
    def prev(self, h): return self.edges[4 * h + 3]
    def tail(self, h): return self.head(h ^ 1)

    def vertex_deleted(self, v): return self.marks[v] != 0
    def edge_deleted(self, e): return self.marks[self.V + e] != 0
    def halfedge_deleted(self, h): return self.edge_deleted(h >> 1)
    def face_deleted(self, f): return self.marks[self.V + self.E + f] != 0

    def rim_edge(self, e): return NONE in (self.face(2 * e), self.face(2 * e + 1))
    def rim_vertex(self, v): return self.outs[v] == NONE or self.face(self.outs[v]) == NONE

    # The two walks of section 2. They end on consistent meshes.

    def loop(self, h):
        """The halfedges from h by next."""
        out, g = [h], self.next(h)
        while g != h:
            out.append(g)
            g = self.next(g)
        return out

    def face_loop(self, f): return self.loop(self.faces[f])

    def turn(self, v):
        """The halfedges leaving v, from its own halfedge h to partner(prev(h))."""
        h = self.outs[v]
        if h == NONE:
            return []
        out, g = [h], self.prev(h) ^ 1
        while g != h:
            out.append(g)
            g = self.prev(g) ^ 1
        return out

    # Text.

    def text(self, prefix="", nan=False):
        """The lines mesh, v, e, f, p and, if anything is marked, m. With nan, each NaN is written as the word nan."""
        lines = ["mesh %d %d %d" % self.counts]
        for name, words in (("v", self.outs), ("e", self.edges), ("f", self.faces)):
            lines.append(name + "".join(" -" if w == NONE else " %d" % w for w in words))
        lines.append("p" + "".join(" nan" if nan and is_nan(p) else " %016x" % p for p in self.points))
        if any(self.marks):
            lines.append("m " + "".join("1" if k else "0" for k in self.marks))
        return "".join(prefix + line + "\n" for line in lines)


def parse(lines):
    """The mesh of its text lines (without prefix). Lines of other kinds are passed over; the word nan is a NaN."""
    def number(word): return NONE if word == "-" else int(word)
    def coordinate(word): return QUIET_NAN if word == "nan" else int(word, 16)
    mesh, marks = Mesh(), None
    for line in lines:
        kind, *words = line.split()
        if kind == "v":
            mesh.outs = [number(w) for w in words]
        elif kind == "e":
            mesh.edges = [number(w) for w in words]
        elif kind == "f":
            mesh.faces = [number(w) for w in words]
        elif kind == "p":
            mesh.points = [coordinate(w) for w in words]
        elif kind == "m":
            marks = [int(c) for c in words[0]]
    mesh.marks = [0] * sum(mesh.counts) if marks is None else marks
    return mesh


def ask(cases, timeout=120):
    """Runs the oracle on pairs (mesh, operation). Gives for each (status, text, mesh after); the status is ok, err or
    panic, the text what was returned, the error or the panic's text. After a panic there is no mesh (None)."""
    text = "".join(mesh.text() + "op " + op + "\n" for mesh, op in cases)
    run = subprocess.run([ORACLE], input=text, stdout=subprocess.PIPE, text=True, timeout=timeout, check=True)
    answers, lines = [], []
    for line in run.stdout.splitlines():
        if line != "end":
            lines.append(line)
            continue
        status, _, rest = lines[0].partition(" ")
        answers.append((status, rest, None if status == "panic" else parse(lines[1:])))
        lines = []
    assert len(answers) == len(cases)
    return answers


def ask_one(mesh, op, timeout=120):
    return ask([(mesh, op)], timeout)[0]


def check(m):
    """The check of document 01: None, or (rule, kind, index) with the lowest broken rule and its first place.
    Reading taken for C2: a halfedge h is a broken place if prev(next h) or next(prev h) is not h."""
    vertices = [v for v in range(m.V) if not m.vertex_deleted(v)]
    halfedges = [h for h in range(2 * m.E) if not m.halfedge_deleted(h)]
    faces = [f for f in range(m.F) if not m.face_deleted(f)]

    def vertex(v): return v < m.V and not m.vertex_deleted(v)
    def halfedge(h): return h < 2 * m.E and not m.halfedge_deleted(h)
    def face(f): return f < m.F and not m.face_deleted(f)

    # C1 each link is in range and reaches an undeleted element
    for v in vertices:
        if m.outs[v] != NONE and not halfedge(m.outs[v]):
            return (1, "v", v)
    for h in halfedges:
        right_face = m.face(h) == NONE or face(m.face(h))
        if not (right_face and vertex(m.head(h)) and halfedge(m.next(h)) and halfedge(m.prev(h))):
            return (1, "h", h)
    for f in faces:
        if not halfedge(m.faces[f]):
            return (1, "f", f)
    # C2 next and prev undo each other
    for h in halfedges:
        if m.prev(m.next(h)) != h or m.next(m.prev(h)) != h:
            return (2, "h", h)
    # C3 next starts at this head and has the same face
    for h in halfedges:
        n = m.next(h)
        if m.tail(n) != m.head(h) or m.face(n) != m.face(h):
            return (3, "h", h)
    # C4 a face's halfedge bears that face, and one loop holds all that bear it
    bearers = {}
    for h in halfedges:
        bearers[m.face(h)] = bearers.get(m.face(h), 0) + 1
    for f in faces:
        if m.face(m.faces[f]) != f or len(m.face_loop(f)) != bearers[f]:
            return (4, "f", f)
    # C5 every edge has at least one face
    for h in halfedges:
        if m.face(h) == NONE and m.face(h ^ 1) == NONE:
            return (5, "h", h)
    # C6 no halfedge is followed by its partner
    for h in halfedges:
        if m.next(h) == h ^ 1:
            return (6, "h", h)
    # C7 a face has three or more halfedges, with heads all different
    for f in faces:
        heads = [m.head(h) for h in m.face_loop(f)]
        if len(heads) < 3 or len(set(heads)) != len(heads):
            return (7, "f", f)
    # C8 a vertex's halfedge leaves it and the turn around it meets all that leave; none is named exactly if none leaves
    leaving = {v: [] for v in vertices}
    for h in halfedges:
        leaving[m.tail(h)].append(h)
    for v in vertices:
        h = m.outs[v]
        if h == NONE:
            if leaving[v]:
                return (8, "v", v)
        elif m.tail(h) != v or sorted(m.turn(v)) != leaving[v]:
            return (8, "v", v)
    # C9 at most one rim halfedge leaves a vertex, and the vertex then names it
    for v in vertices:
        rim = [h for h in leaving[v] if m.face(h) == NONE]
        if len(rim) > 1 or (rim and m.outs[v] != rim[0]):
            return (9, "v", v)
    return None
