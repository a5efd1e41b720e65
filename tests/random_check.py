"""random_check.py N SEED: N random and damaged meshes through the static library, against the check in oracle/py/mesh.py,
which was written from document 01 and not from the code. Every answer, rule, kind and index is compared."""
import random
import sys
from collections import Counter

from library import Handed, answers, driver
import gen
from mesh import NONE, Mesh, check

LIMIT = 1048576
KINDS = {"v": 0, "h": 1, "e": 2, "f": 3}
COPIES = 8        # damaged copies of each mesh that is drawn
BATCH = 4000      # meshes for one run of the driver


def expected(s):
    """Document 01's answer: its number, and the rule, kind and index of answer 3."""
    if max(s.counts) > LIMIT or any(len(slice_) < wanted for slice_, wanted in s.slices()):
        return (2, 0, 0, 0)
    outs, edges, faces, vmarks, emarks, fmarks, points = (slice_[:wanted] for slice_, wanted in s.slices())
    broken = check(Mesh(outs, edges, faces, points, vmarks + emarks + fmarks))
    if broken is None:
        return (0, 0, 0, 0)
    rule, kind, index = broken
    return (3, rule, KINDS[kind], index)


# Damage to the links of a mesh that the counts still fit.

def renumber(words, offset, step, old, new):
    """new for old in every step-th word."""
    for i in range(offset, len(words), step):
        if words[i] == old:
            words[i] = new


def follow(s, h, n):
    """n follows h."""
    s.edges[4 * h + 2] = n
    s.edges[4 * n + 3] = h


def odd_link(s, rng):
    """A link that is none, nearly none, just out of range or just within."""
    v, e, f = s.counts
    words = rng.choice((s.outs, s.edges, s.edges, s.faces))
    if words:
        words[rng.randrange(len(words))] = rng.choice((NONE, NONE - 1, NONE - 2, 2**31, 2**31 - 1, 0, 2 * e - 1, 2 * e, 2 * e + 1, v - 1, v, f - 1, f)) % 2**32


def mark(s, rng):
    """Something is marked deleted, by any byte but 0; links to it may be left."""
    marks = rng.choice((s.vmarks, s.emarks, s.fmarks))
    if marks:
        marks[rng.randrange(len(marks))] = rng.choice((1, 1, 2, 128, 255))


def link_to_deleted(s, rng):
    """A link that reaches a deleted element."""
    mark(s, rng)
    for offset, marks in ((0, s.fmarks), (1, s.vmarks)):
        gone = [i for i, k in enumerate(marks) if k]
        if gone and s.edges and rng.random() < .5:
            s.edges[4 * rng.randrange(len(s.edges) // 4) + offset] = rng.choice(gone)
    gone = [i for i, k in enumerate(s.emarks) if k]
    if gone:
        words = rng.choice((s.outs, s.faces))
        if words:
            words[rng.randrange(len(words))] = 2 * rng.choice(gone) + rng.randrange(2)


def exchange(s, rng):
    """Two halfedges exchange what follows them, next and prev alike: loops are cut or joined."""
    n = 2 * s.counts[1]
    if n > 1:
        a, b = rng.sample(range(n), 2)
        x, y = s.edges[4 * a + 2], s.edges[4 * b + 2]
        if x < n and y < n:
            follow(s, a, y)
            follow(s, b, x)


def one_vertex(s, rng):
    """Two vertices become one."""
    v = s.counts[0]
    if v > 1:
        old, new = rng.sample(range(v), 2)
        renumber(s.edges, 1, 4, old, new)
        if rng.random() < .7:
            s.outs[old] = NONE


def one_face(s, rng):
    """Two faces become one, with two loops."""
    f = s.counts[2]
    if f > 1:
        old, new = rng.sample(range(f), 2)
        renumber(s.edges, 0, 4, old, new)
        if rng.random() < .7:
            s.fmarks[old] = 1


def spike(s, rng):
    """The two faces of an edge become one whose loop runs along the edge and straight back."""
    n = 2 * s.counts[1]
    if n:
        h = rng.randrange(n)
        p = h ^ 1
        before, after = s.edges[4 * h + 3], s.edges[4 * p + 2]
        old, new = s.edges[4 * p], s.edges[4 * h]
        if before < n and after < n and old != new and old < len(s.fmarks) and new < len(s.fmarks):
            renumber(s.edges, 0, 4, old, new)
            s.fmarks[old] = 1
            follow(s, p, h)
            follow(s, before, after)


DAMAGE = (odd_link, mark, link_to_deleted, exchange, one_vertex, one_face, spike)


# Lengths and counts.

def lengthen(s, rng):
    """Slices longer than their counts, with anything in the rest."""
    for words in (s.outs, s.edges, s.faces, s.vmarks, s.emarks, s.fmarks, s.points):
        if rng.random() < .15:
            words += [rng.choice((0, 1, 7, 255)) for _ in range(rng.randrange(1, 9))]


def shorten(s, rng):
    """One slice is an element shorter; if it was longer than its count, that may not matter."""
    words = rng.choice((s.outs, s.edges, s.faces, s.vmarks, s.emarks, s.fmarks, s.points))
    if words:
        words.pop()


def recount(s, rng):
    """A count that is not the mesh's: one more, one less, or very large (8 and 3 times it pass 2^64)."""
    i = rng.randrange(3)
    s.counts[i] = max(0, rng.choice((s.counts[i] + 1, s.counts[i] - 1, LIMIT, LIMIT + 1, 2**32 + s.counts[i], 2**61 + s.counts[i], 2**63, 2**64 - 1)))


def base(rng):
    """A consistent mesh, sometimes with deleted elements between the others, sometimes with hardly anything."""
    if rng.random() < .02:
        return Mesh([NONE] * rng.randrange(3), points=[0] * 9)
    m = gen.mesh(rng)
    return gen.with_deleted(m, rng) if rng.random() < .35 else m


def damaged(m, rng):
    """One mesh as handed over: none to three damages, then lengths and counts."""
    for _ in range(rng.choice((0, 0, 1, 1, 2))):
        m = gen.spoil(m, rng)
    s = Handed(m)
    for _ in range(rng.choice((0, 0, 1, 1, 2))):
        rng.choice(DAMAGE)(s, rng)
    lengthen(s, rng)
    if rng.random() < .03:
        shorten(s, rng)
    if rng.random() < .03:
        recount(s, rng)
    return s


def draw(count, rng):
    meshes = []
    while len(meshes) < count:
        m = base(rng)
        meshes += [damaged(m, rng) for _ in range(COPIES)]
    return meshes[:count]


def main():
    total, rng = int(sys.argv[1]), random.Random(int(sys.argv[2]))
    program, met, differences, left = driver(), Counter(), 0, total
    while left:
        batch = draw(min(BATCH, left), rng)
        left -= len(batch)
        for s, given in zip(batch, answers(program, batch)):
            wanted = expected(s)
            met[wanted[:2]] += 1
            if given != wanted:
                differences += 1
                print("library", given, "document 01", wanted, "counts", s.counts, *(slice_ for slice_, _ in s.slices()[:6]))
    for (number, rule), count in sorted(met.items()):
        print("answer %d%s: %d" % (number, ", C%d" % rule if rule else "", count))
    print("%d meshes, %d differences" % (total, differences))
    sys.exit(differences != 0)


if __name__ == "__main__":
    main()
