#!/usr/bin/env python3
"""Writes the theorems of crates/scope_cases: K1 to K12 of document 01, and recorded cases of the Rust, both by computation on the definitions of crates/scope.

    tools/theorems.py            from the repository's top; reads oracle/vectors, writes crates/scope_cases/specs/{Pieces,Schemes,Edits,Checks}.antt
                              and, a few of the same, crates/scope/proofs/Witness.antt, with their words in Recorded.antt beside it; then rt fmt in both crates
"""
import glob, re, sys
sys.path.insert(0, "oracle/py")
from mesh import Mesh, NONE
import cases as recorded
import gen

SPECS = "crates/scope/specs/"
OUT = "crates/scope_cases/specs/"
LIMIT_EDGES = 30        # a done case is taken where its result has at most so many edges


# ---- what a theorem by computation has to open: every definition of scope, and the arithmetic of floats
OPERATIONS = "of_int, of_bits, add, sub, mul, div"
# the library's words: as specs/ import them, and as proofs/ do
LIBRARY = {"specs": """use Rattle.std.specs.Prelude.{◌≡◌, refl, Bool, true, false, List, [], ◌∷◌, ◌++◌, map, ℕ, ◌+◌, ◌*◌, ℤ, pos, negsuc, length, replicate, Float, Option, None, Some, Ok, Err}
use Rattle.std.specs.Float.{binary64, nan}
use Rattle.std.specs.Float.Ieee.{%s}
use Rattle.std.specs.Float.Ieee as Ieee
""" % OPERATIONS, "proofs": """use mathlib.Core.Path.{◌≡◌, refl}
use mathlib.Core.Bool.{Bool, true, false}
use mathlib.Core.List.{List, [], ◌∷◌, ◌++◌, map}
use Rattle.std.specs.Prelude.{Option, None, Some, Ok, Err}
use Prim.Native.Nat.{ℕ, ◌+◌, ◌*◌}
use lib.IntN.{ℤ, pos, negsuc}
use lib.ListN.{length, replicate}
use lib.Ieee.{Float, binary64, nan, %s}
use lib.Ieee as Ieee
""" % OPERATIONS}
DECLARED = """use Rattle.scope.specs.declared.records.Point.{Point}
use Rattle.scope.specs.declared.records.Counts.{Counts}
use Rattle.scope.specs.declared.answers.Place.{Place}
use Rattle.scope.specs.declared.answers.Place.TheVariants.{AtVertex, AtHalfedge, AtEdge, AtFace}
use Rattle.scope.specs.declared.answers.Fault.{Fault}
use Rattle.scope.specs.declared.answers.Refusal.{Refusal}
use Rattle.scope.specs.declared.answers.Refusal.TheVariants.{TooManyPasses, ShortSlice, NotConsistent, MarkedDeleted, NoRoom, NoWeight, BadHandle, CannotInsertEdge, HalfedgesNotInTheSameLoop, NotDeletedFace, ComplexVertex, CannotSwapBoundaryEdge, WouldBreak}
use Rattle.scope.specs.Answers.{Subdivided, Edited}
"""


def uses(where="specs"):
    lines, names = [], []
    for f in sorted(glob.glob(SPECS + "*.antt")):
        mod = f[len(SPECS):-5]
        text = open(f).read()
        opened = re.findall(r"^ *unfoldable pub (\S+) :", text, re.M)
        shown = [n for n in ("Given", "Buffers", "Slices", "Own", "Sizes", "Outcome", "EditOutcome", "Scheme", "Edit") if re.search(r"^pub record %s\b" % n, text, re.M)]
        shown += [n for n in ("NONE",) if re.search(r"^abbrev pub %s :" % n, text, re.M)]
        shown += ["point_at"] if mod == "Points" else []
        if opened or shown: lines.append("use Rattle.scope.specs.%s.{%s}" % (mod, ", ".join(shown + opened)))
        names += opened
    return LIBRARY[where] + DECLARED + "\n".join(lines) + "\n", OPERATIONS.replace(",", "") + " Ieee.round " + " ".join(names)


def tidied(text):
    """The text with those imports alone that its own lines name, as rt tidy leaves it (which keeps lib.Ieee's Float)."""
    lines = text.split("\n")
    own = "\n".join(l.split("--")[0] for l in lines if not l.startswith("use "))
    own = re.sub(r"(?m)(^ *|[{;] *)[^\s{};]+ =(?= )", r"\1", own)      # fields and left sides
    named = set(re.findall(r"(?<![.\w])[^\s(){};:,.]+", own))
    used = lambda n: n in named or n.startswith("◌") and n.strip("◌") in named
    out = []
    for l in lines:
        m = re.fullmatch(r"(use .*\.)\{(.*)\}", l)
        if m:
            names = [n for n in m[2].split(", ") if used(n) or m[1] + n == "use lib.Ieee.Float"]
            if not names: continue
            l = "%s{%s}" % (m[1], ", ".join(names))
        elif l.startswith("use ") and not used(l.split()[-1]): continue
        out.append(l)
    return "\n".join(out)


# ---- lists as antt writes them
def word(x): return "NONE" if x == NONE else str(x)
def ints(xs): return "".join("%s ∷ " % word(x) for x in xs) + "[]"
def rows(xs, n): return "(" + "".join("\n    " + "".join("%s ∷ " % word(x) for x in xs[i:i + n]) for i in range(0, len(xs), n)) + "\n    [])"
def coordinate(b): return "nan" if b & 0x7fffffffffffffff > 0x7ff0000000000000 else "of_bits binary64 %d" % b
def coordinates(bs): return "".join(coordinate(b) + " ∷ " for b in bs) + "[]"
def signed(n): return "pos %d" % n if n >= 0 else "negsuc %d" % (-n - 1)
def marks(m): return m.marks[:m.V], m.marks[m.V:m.V + m.E], m.marks[m.V + m.E:]


def mesh_term(m):
    return "mesh %d %d %d (%s) (%s) (%s) (%s) (%s) (%s) (%s)" % (
        m.V, m.E, m.F, ints(m.outs), ints(m.edges), ints(m.faces), *(ints(k) for k in marks(m)), coordinates(m.points))


MESH = """
abbrev pub mesh : ℕ → ℕ → ℕ → List ℕ → List ℕ → List ℕ → List ℕ → List ℕ → List ℕ → List Float → Given
mesh v e f outs edges faces vm em fm ps = record {
  counts = record { v = v; e = e; f = f };
  slices = record { outs = outs; edges = edges; faces = faces; vmarks = vm; emarks = em; fmarks = fm };
  points = ps;
}
"""

VOCABULARY = "mesh", "zero", "seven", "all_of", "lent", "zeros", "done", "refused", "refuses", "own", "gives", "wrong"


def vocabulary():
    head, opened = uses("proofs")
    return """-- The words in which recorded cases are put: meshes, lent slices that hold sevens, what a call leaves. Written by tools/theorems.py. Assumes nothing.
""" + head + MESH + LENT + OUTCOMES + OWN + WRONG


def words():
    return "use Rattle.scope.proofs.Recorded.{%s}\n" % ", ".join(VOCABULARY)


# slices that hold sevens, so that what is not written shows
LENT = """
abbrev pub zero : Float
zero = of_int binary64 (pos 0)

abbrev pub seven : Float
seven = of_int binary64 (pos 7)

-- slices for v vertices, e edges and f faces and three words more each, and w numbers of work, all of them x or y
abbrev pub all_of : ℕ → Float → ℕ → ℕ → ℕ → ℕ → Buffers
all_of x y v e f w = record {
  result = record {
    outs = replicate (v + 3) x;
    edges = replicate (8 * e + 3) x;
    faces = replicate (f + 3) x;
    vmarks = replicate (v + 3) x;
    emarks = replicate (e + 3) x;
    fmarks = replicate (f + 3) x;
  };
  points = replicate (3 * v + 3) y;
  work = replicate w y;
}

-- what is lent holds sevens
abbrev pub lent : ℕ → ℕ → ℕ → ℕ → Buffers
lent = all_of 7 seven
"""


# ---- K1 to K12
def names(faces): return list(dict.fromkeys(v for f in faces for v in f))


def pieces():
    cube = gen.from_faces(gen.cube())
    corners = [(x, y, z) for z in (-1, 1) for x, y in ((-1, -1), (1, -1), (1, 1), (-1, 1))]
    cube_points = [corners[n] for n in names(gen.cube())]
    a, b = cube_points.index((1, 1, 1)), cube_points.index((-1, 1, 1))
    k8 = next(e for e in range(12) if {cube.head(2 * e), cube.head(2 * e + 1)} == {a, b})
    octa, octa_names = gen.from_faces(gen.octa()), names(gen.octa())
    tips = {0: (1, 0, 0), 1: (-1, 0, 0), 2: (0, 1, 0), 3: (0, -1, 0), 4: (0, 0, 1), 5: (0, 0, -1)}
    wheel = gen.from_faces(gen.wheel(3))
    k12 = next(v for v in range(wheel.V) if wheel.rim_vertex(v))
    h = wheel.outs[k12]
    wheel_points = [(0, 0, 0)] * wheel.V
    wheel_points[wheel.head(h)], wheel_points[wheel.tail(wheel.prev(h))] = (27, 0, 0), (0, 27, 0)
    meshes = [("cube", "the cube with corners at ±1", cube, cube_points),
              ("triangle", "one triangle, (0,0), (8,0), (0,8)", gen.from_faces(gen.ngon(3)), [(0, 0, 0), (8, 0, 0), (0, 8, 0)]),
              ("square", "the square (0,0), (6,0), (6,6), (0,6)", gen.from_faces(gen.ngon(4)), [(0, 0, 0), (6, 0, 0), (6, 6, 0), (0, 6, 0)]),
              ("octahedron", "the octahedron of radius 1", octa, [tips[n] for n in octa_names]),
              ("wheel", "a hub with three spokes; vertex %d is (0,0,0) and on the rim, its rim neighbours are (27,0,0) and (0,27,0)" % k12, wheel, wheel_points),
              ("nothing", "no elements at all", Mesh(), [])]
    head, opened = uses()
    t = "-- K1 to K12 (document 01, section 6), proved in one table under one statement about whole calls. Written by tools/theorems.py. Assumes nothing.\n" + head + "use Rattle.scope.proofs.Recorded.{lent}\n"
    t += """
abbrev mesh : ℕ → ℕ → ℕ → List ℕ → List ℕ → List ℕ → List ℤ → Given
mesh v e f outs edges faces ps = record {
  counts = record { v = v; e = e; f = f };
  slices = record { outs = outs; edges = edges; faces = faces; vmarks = replicate v 0; emarks = replicate e 0; fmarks = replicate f 0 };
  points = map (of_int binary64) ps;
}
"""
    for n, what, m, ps in meshes:
        t += "\n-- %s\nabbrev pub %s : Given\n%s = mesh %d %d %d\n    (%s)\n    %s\n    (%s)\n    (%s)\n" % (
            what, n, n, m.V, m.E, m.F, ints(m.outs), rows(m.edges, 8), ints(m.faces), "".join(signed(c) + " ∷ " for p in ps for c in p) + "[]")
    t += """
-- one pass
abbrev one : Scheme → Bool → Given → Outcome
one S flag g = call S 1 flag g (lent 40 80 60 600)

-- a row of the table: what a call answers, or where it puts vertex v
pub data Row : Type 0 where
  says : Subdivided → Row
  puts : Point → Row

abbrev said : Outcome → Row
said o = says o.answer

abbrev put_at : Outcome → ℕ → Row
put_at o v = puts (point_at o.left.points v)

abbrev counts : ℕ → ℕ → ℕ → Bool → Row
counts v e f flag = says (Ok (record { v = v; e = e; f = f }, flag))

abbrev at : Float → Float → Float → Row
at x y z = puts (record { x = x; y = y; z = z })

abbrev n : ℕ → Float
n k = of_int binary64 (pos k)

-- three quarters, and 0.515625
abbrev three_quarters : Float
three_quarters = of_bits binary64 0x3fe8_0000_0000_0000

abbrev k11 : Float
k11 = of_bits binary64 0x3fe0_8000_0000_0000
"""
    table = [
        ("K1", "said (one catmull true cube)", "counts 26 48 24 true"),
        ("K2", "said (one loop_scheme true cube)", "counts 26 72 48 true"),
        ("K3", "said (one sqrt3 false cube)", "counts 20 54 36 true"),
        ("K4", "said (one catmull true triangle)", "counts 7 9 3 true"),
        ("K5", "said (one sqrt3 true triangle)", "counts 4 6 3 true"),
        ("K6", "said (onward sqrt3 1 (one sqrt3 true triangle) (lent 10 18 9 600))", "counts 10 18 9 false"),
        ("K7", "said (one catmull true nothing)", "counts 0 0 0 true"),
        ("K7", "said (one loop_scheme true nothing)", "counts 0 0 0 true"),
        ("K7", "said (one sqrt3 false nothing)", "counts 0 0 0 true"),
        ("K8", "put_at (one catmull true cube) %d" % (8 + k8), "at (n 0) three_quarters three_quarters"),
        ("K9", "put_at (one catmull true square) 0", "at (n 1) (n 1) (n 0)"),
        ("K10", "put_at (one loop_scheme true triangle) 0", "at (n 1) (n 1) (n 0)"),
        ("K11", "put_at (one loop_scheme true octahedron) %d" % octa_names.index(0), "at k11 (n 0) (n 0)"),
        ("K12", "put_at (one sqrt3 true wheel) %d" % k12, "at (n 4) (n 4) (n 0)"),
    ]
    side = lambda i: "".join("    -- %s\n    %s ∷\n" % (r[0], r[i]) for r in table)
    t += "\npub pieces :\n    ◌≡◌ {A = List Row} (\n%s    []\n    ) (\n%s    []\n    )\nunfolding %s\npieces = refl\n" % (side(1), side(2), opened)
    return t


# ---- recorded cases
def blocks(f):
    """Name, mesh, operation, answer with its place, value and resulting mesh of each case of a file."""
    for c in recorded.read("oracle/vectors/" + f):
        yield c.name, c.mesh, c.op.split(), [str(c.answer), *c.place], c.value, c.result or Mesh()


KIND = {"v": "AtVertex", "h": "AtHalfedge", "e": "AtEdge", "f": "AtFace"}
PLAIN = {"1": "TooManyPasses", "2": "ShortSlice", "5": "NoRoom", "7": "BadHandle", "8": "CannotInsertEdge", "9": "HalfedgesNotInTheSameLoop",
         "10": "NotDeletedFace", "11": "ComplexVertex", "12": "CannotSwapBoundaryEdge", "14": "WouldBreak"}


def refusal(a):
    if a[0] == "3": return "NotConsistent (record { rule = %s; place = %s %s })" % (a[1], KIND[a[2]], a[3])
    if a[0] == "4": return "MarkedDeleted (%s %s)" % (KIND[a[1]], a[2])
    if a[0] == "6": return "NoWeight %s %s" % (a[1], a[2])
    return PLAIN[a[0]]


def padded(m, over, sevens):
    """The mesh in slices with words after it: so many for vertices, edges, faces."""
    tail = lambda l, n: "(%s) ++ replicate %d %s" % (ints(l), n, sevens) if n else "(%s)" % ints(l)
    v, e, f = over
    k = marks(m)
    return [tail(m.outs, v), tail(m.edges, e * 8), tail(m.faces, f), tail(k[0], v), tail(k[1], e), tail(k[2], f)]


SCHEME = {"catmull": "catmull", "loop": "loop_scheme", "sqrt3": "sqrt3"}
TRUTH = {"0": "false", "1": "true"}


def take(cases, wanted):
    """The smallest cases, so many of each kind as wanted says."""
    out, left = [], dict(wanted)
    for size, kind, text in sorted(cases, key=lambda c: c[0]):
        if left.get(kind, 0) > 0:
            left[kind] -= 1
            out.append(text)
    missing = {k: n for k, n in left.items() if n > 0}
    assert not missing, missing
    return out


def scheme_cases(opened):
    cases = []
    for f in ("schemes.txt", "refusals.txt"):
        for name, m, op, a, value, r in blocks(f):
            if op[0] not in SCHEME: continue
            passes, flag = op[1], TRUTH[op[2]]
            call = "call %s %s %s (%s)" % (SCHEME[op[0]], passes, flag, mesh_term(m))
            if a[0] == "0":
                if r.E > LIMIT_EDGES or any(m.marks) and passes != "0": continue
                lent = "lent %d %d %d %d" % (r.V, r.E, r.F, 6 * (r.V + r.E + r.F))
                left = "done (%s) %s %d" % (mesh_term(r), TRUTH[value] if value else flag, 6 * (r.V + r.E + r.F))
                key = (op[0], flag, min(int(passes), 2), "rim" if m.b() else "closed")
            else:
                size = (m.V, m.E, m.F, 6)
                lent = "lent %d %d %d %d" % size
                left = "refused (%s) (%s %d %d %d %d)" % (refusal(a), "lent" if int(a[0]) < 5 else "zeros", *size)
                key = (op[0], a[0])
            says = "%s (%s) ≡\n    %s" % (call, lent, left)
            if a[0] == "6": says = "refuses %s %s %s (%s) ≡ Some (%s)" % (SCHEME[op[0]], passes, flag, mesh_term(m), refusal(a))
            cases.append((m.E + r.E, key, "%s :\n    %s\nunfolding %s\n%s = refl\n" % (name, says, opened, name)))
    return cases


def schemes():
    head, opened = uses()
    cases = scheme_cases(opened)
    wanted = {}
    for size, key, _ in cases:
        if len(key) == 4: wanted[key] = 1
    wanted.update({("catmull", "1"): 1, ("loop", "4"): 1, ("sqrt3", "4"): 1, ("catmull", "4"): 1, ("loop", "6"): 1, ("sqrt3", "6"): 1})
    wanted = {k: n for k, n in wanted.items() if any(c[1] == k for c in cases)}
    return """-- Recorded cases of the three schemes in the Rust, by computation on whole calls: every link, mark and point bit, the next flag, what is lent beyond
-- what is used, refusals with their places. Written by tools/theorems.py from oracle/vectors. Assumes nothing.
""" + head + words() + "\n" + "\n".join(take(cases, wanted))


OUTCOMES = """
abbrev pub zeros : ℕ → ℕ → ℕ → ℕ → Buffers
zeros = all_of 0 zero

abbrev pub three-more : List ℕ → List ℕ
three-more l = l ++ replicate 3 0

-- the mesh with zeros after it, and w zeros of work
abbrev pub done : Given → Bool → ℕ → Outcome
done g flag w =
    let s = g.slices in
    record {
      answer = Ok (g.counts, flag);
      left = record {
        result = record {
          outs = three-more s.outs;
          edges = three-more s.edges;
          faces = three-more s.faces;
          vmarks = three-more s.vmarks;
          emarks = three-more s.emarks;
          fmarks = three-more s.fmarks;
        };
        points = g.points ++ replicate 3 zero;
        work = replicate w zero;
      };
    }

abbrev pub refused : Refusal → Buffers → Outcome
refused r b = record { answer = Err r; left = b }

-- the refusal where there is room for a million of each
abbrev pub vast : Sizes
vast = record { outs = 1000000; edges = 8000000; faces = 1000000; vmarks = 1000000; emarks = 1000000; fmarks = 1000000 }

abbrev pub refuses : Scheme → ℕ → Bool → Given → Option Refusal
refuses S k flag g =
    refusal S k flag (links_of g.counts g.slices) (marks_of g.counts g.slices) (sizes g.slices) (length g.points) vast 3000000 18000000

"""


EDIT = {"split_edge": "split_edge_edit", "split_face": "split_face_edit", "insert_edge": "insert_edge_edit", "swap_ccw": "swap_ccw_edit", "swap_cw": "swap_cw_edit", "triangulate": "triangulate_all"}


def edit_cases(opened):
    cases = []
    for name, m, op, a, value, r in blocks("edits.txt"):
        edit = " ".join([EDIT[op[0]]] + ["NONE" if x == "-" else x for x in op[1:]])
        done = a[0] == "0"
        if m.E > LIMIT_EDGES: continue
        after = r if done else m
        room = (after.V - m.V + 2, after.E - m.E + 1, after.F - m.F + 1)
        own = "own %d %d %d (%s)" % (*m.counts, ") (".join(padded(m, room, "7")))
        left = "own %d %d %d (%s)" % (*after.counts, ") (".join(padded(after, (2, 1, 1) if done else room, "7")))
        answer = "Ok (record { v = %d; e = %d; f = %d }, %s)" % (*after.counts, value or "0") if done else "Err (%s)" % refusal(a)
        if op[0] in ("swap_ccw", "swap_cw"): answer = answer.replace("}, 1)", "}, 0)") if done else answer
        key = (op[0], a[0], op[0] == "insert_edge" and done and m.face(int(op[1])) == NONE, op[0] == "insert_edge" and done and op[3] != "-")
        cases.append((m.E + after.E, key, "%s :\n    edit (%s) (%s) ≡\n    gives (%s) (%s)\nunfolding %s\n%s = refl\n" % (name, edit, own, answer, left, opened, name)))
    return cases


def edits():
    head, opened = uses()
    cases = edit_cases(opened)
    return """-- Recorded cases of the edits in the Rust, by computation on whole calls: every link and mark, the value, what is lent beyond what is used, refusals.
-- Written by tools/theorems.py from oracle/vectors. Assumes nothing.
""" + head + words() + "\n" + "\n".join(take(cases, {c[1]: 1 for c in cases}))


OWN = """
abbrev pub own : ℕ → ℕ → ℕ → List ℕ → List ℕ → List ℕ → List ℕ → List ℕ → List ℕ → Own
own v e f outs edges faces vm em fm = record {
  counts = record { v = v; e = e; f = f };
  slices = record { outs = outs; edges = edges; faces = faces; vmarks = vm; emarks = em; fmarks = fm };
}

abbrev pub gives : Edited → Own → EditOutcome
gives a o = record { answer = a; left = o }

"""


def check_cases(opened):
    cases = []
    for name, m, op, a, value, r in blocks("check.txt"):
        wrong = "None" if a[0] == "0" else "Some (record { rule = %s; place = %s %s })" % (a[1], KIND[a[2]], a[3])
        cases.append((m.E, tuple(a[:3]), "%s :\n    wrong (%s) ≡ %s\nunfolding %s\n%s = refl\n" % (name, mesh_term(m), wrong, opened, name)))
    return cases


def checks():
    head, opened = uses()
    cases = check_cases(opened)
    return """-- Recorded cases of the consistency check, by computation: the lowest broken rule and its first place. Written by tools/theorems.py from oracle/vectors. Assumes nothing.
""" + head + words() + "\n" + "\n".join(take(cases, {c[1]: 1 for c in cases}))


WRONG = """
abbrev pub wrong : Given → Option Fault
wrong g = fault (links_of g.counts g.slices) (marks_of g.counts g.slices)

"""


def room(opened):
    """One triangle: the room that one pass needs is enough, and one word less in any slice is not."""
    need = {"catmull": (7, 9, 3, 42), "loop_scheme": (6, 9, 4, 42), "sqrt3": (4, 6, 3, 42)}
    m = gen.from_faces(gen.ngon(3))
    t = """
abbrev one-triangle : Given
one-triangle = mesh 3 3 1 (%s) (%s) (%s) (0 ∷ 0 ∷ 0 ∷ []) (0 ∷ 0 ∷ 0 ∷ []) (0 ∷ []) (replicate 9 zero)

-- what one pass answers with so many words in outs, edges, faces, their marks, the points and the work
abbrev with-room : Scheme → List ℕ → Option Refusal
with-room S l =
    let n : ℕ → ℕ = λ i. get_or l i 0 in
    let g = one-triangle in
    refusal S 1 true (links_of g.counts g.slices) (marks_of g.counts g.slices) (sizes g.slices) 9
    (record { outs = n 0; edges = n 1; faces = n 2; vmarks = n 3; emarks = n 4; fmarks = n 5 }) (n 6) (n 7)

-- exact room, and one word less in each slice
pub rooms :
    ◌≡◌ {A = List (Option Refusal)} (
""" % (ints(m.outs), ints(m.edges), ints(m.faces))
    wanted = []
    for S, (v, e, f, w) in need.items():
        exact = [v, 8 * e, f, v, e, f, 3 * v, w]
        for short in [None] + list(range(8)):
            l = [x - (i == short) for i, x in enumerate(exact)]
            t += "    with-room %s (%s) ∷\n" % (S, ints(l))
            wanted.append("None" if short is None else "Some NoRoom")
    return t + "    []\n    ) (\n    " + " ∷ ".join(wanted) + " ∷ []\n    )\nunfolding %s\nrooms = refl\n" % opened


def witness():
    head, opened = uses("proofs")
    cases = scheme_cases(opened) + edit_cases(opened) + check_cases(opened)
    pick = {k: 1 for k in [(s, f, 1, "rim") for s in SCHEME for f in ("true", "false")] + [("sqrt3", "true", 2, "rim"), ("catmull", "true", 1, "closed")]}
    pick.update({c[1]: 1 for c in cases if c[1][0] in EDIT and (c[1][1] == "0" or c[1][1] in ("9", "14"))})
    pick.update({("3", "1", "v"): 1, ("3", "2", "h"): 1, ("3", "4", "f"): 1, ("3", "8", "v"): 1})
    return """-- A few recorded cases of the Rust by computation, and the room that a pass asks for, beside the definitions themselves: a definition that is changed is refused here.
-- Written by tools/theorems.py from oracle/vectors; crates/scope_cases has more. Assumes nothing.
""" + head.replace("ListN.{length", "ListN.{get_or, length") + words() + "\n" + "\n".join(take(cases, {k: n for k, n in pick.items() if any(c[1] == k for c in cases)})) + room(opened)


for path, text in ((OUT + "Pieces", pieces()), (OUT + "Schemes", schemes()), (OUT + "Edits", edits()), (OUT + "Checks", checks()), ("crates/scope/proofs/Witness", witness()), ("crates/scope/proofs/Recorded", vocabulary())):
    open(path + ".antt", "w").write(tidied(text))
    print("%s: %d theorems" % (path, len(re.findall(r"= refl$", text, re.M))))
