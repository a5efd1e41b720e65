"""Writes recorded cases. Usage: vectors.py SEED FOLDER"""
import collections
import os
import random
import sys

import cases
import doc01
import gen
import probe
from mesh import Mesh, NONE, ask_one, check

FORMAT = "Format: README.md, 'Recorded cases'."


class Book:
    """One file of recorded cases."""

    def __init__(self, folder, name, about):
        self.name, self.count, self.kinds = name, 0, collections.Counter()
        self.file = open(os.path.join(folder, name + ".txt"), "w")
        self.file.write("# %s %s\n" % (about, FORMAT))

    def put(self, mesh, op):
        self.count += 1
        case = cases.work_out("%s-%d" % (self.name, self.count), mesh, op)
        assert not case.result or (case.rust.startswith("ok") and check(case.result) is None)
        self.kinds[op.split()[0], case.answer] += 1
        self.file.write(case.text() + "\n")

    def close(self):
        self.file.close()
        print(self.name, self.count, dict(sorted(self.kinds.items(), key=str)))


def schemes(book, rng):
    while book.count < 190:
        m = gen.mesh(rng)
        if rng.random() < .06:
            m = gen.with_deleted(m, rng)
        scheme = rng.choice(("catmull", "loop", "sqrt3", "sqrt3"))
        passes, flag = rng.choice((0, 1, 1, 1, 2, 2, 3)), rng.randrange(2)
        if any(m.marks) and rng.random() < .5:
            passes = 0
        if any(m.marks) or max(doc01.final_counts(m, scheme, passes, flag)) <= 260:
            book.put(m, "%s %d %d" % (scheme, passes, flag))
    for m in probe.edited(rng, 60, 15):     # double edges, valence 2, rim loops of two
        if book.count < 225 and max(doc01.final_counts(m, "sqrt3", 1, 1)) <= 200:
            scheme = rng.choice(("catmull", "loop", "sqrt3", "sqrt3"))
            book.put(m, "%s 1 %d" % (scheme, rng.randrange(2)))


def edits(book, rng):
    """At most 16 cases that are done and 6 refused ones of each kind."""
    kinds, tries = collections.Counter(), 0
    while book.count < 320 and tries < 12000:
        tries += 1
        m = gen.mesh(rng)
        if not 0 < m.E <= 24:
            continue
        if rng.random() < .35:
            m = gen.with_deleted(m, rng)
        op = gen.random_edit(m, rng)
        name, *handles = op.split()
        answer = doc01.edit_answer(m, op.split())[0]
        rim = name == "insert_edge" and int(handles[0]) < 2 * m.E and m.face(int(handles[0])) == NONE
        if answer == 10 and rim and int(handles[1]) not in m.loop(int(handles[0])):
            continue        # two rim loops and a given face that is in use: left to py/findings.py
        kind = (name, answer, rim, op.endswith(" -"))
        if kinds[kind] < (16 if answer == 0 else 6):
            kinds[kind] += 1
            book.put(m, op)


def c2_clear(m):
    """Both readings of C2, one-sided and two-sided, give the same place."""
    hs = [h for h in range(2 * m.E) if not m.halfedge_deleted(h)]
    one_sided = next((h for h in hs if m.prev(m.next(h)) != h), None)
    two_sided = next((h for h in hs if m.prev(m.next(h)) != h or m.next(m.prev(h)) != h), None)
    return one_sided == two_sided


def checks(book, rng):
    """At most ten cases of each broken rule, and of none broken."""
    rules, tries = collections.Counter(), 0
    while book.count < 110 and tries < 12000:
        tries += 1
        m = gen.mesh(rng, 0)
        if m.E > 16:
            continue
        if rng.random() < .3:
            m = gen.with_deleted(m, rng)
        way = rng.random()
        if way < .75:
            m = gen.spoil(m, rng)
        elif m.E and way < .95:     # what the Rust leaves where document 01 refuses: breaks C6, C7, C9, ...
            op = gen.random_edit(m, rng)
            if doc01.edit_answer(m, op.split())[0] not in (9, 11, 14):
                continue
            m = ask_one(m, op)[2]
        broken = check(m)
        rule = broken and broken[0]
        if rules[rule] < 10 and (rule != 2 or c2_clear(m)):
            rules[rule] += 1
            book.put(m, "check")


def refusals(book, rng):
    n = rng.randint(33, 60)

    def faces(face_list): return gen.coords(gen.from_faces(face_list, rng), rng, 1)
    def wheel(k): return faces(gen.wheel(k))
    def pillow(k): return gen.coords(gen.pillow(k, rng), rng, 1)

    # In this order: the meshes are drawn one after the other.
    drawn = [
        (wheel(63), "loop 1 1"), (wheel(64), "loop 1 1"), (wheel(64), "loop 1 0"),
        (wheel(63), "sqrt3 1 0"), (wheel(64), "sqrt3 1 0"),
        (wheel(31), "sqrt3 2 1"), (wheel(32), "sqrt3 2 1"),
        (wheel(n), "sqrt3 2 1"), (wheel(n), "sqrt3 1 1"), (wheel(n), "sqrt3 2 0"),
        (wheel(64), "catmull 1 1"),
        (pillow(64 + n % 9), "loop 1 1"), (pillow(64 + n % 9), "sqrt3 1 0"),
        (faces(gen.bipyramid(64)), "loop 2 1"),
        (faces(gen.cube()), "catmull 12 1"), (faces(gen.cube()), "loop 13 1"),
        (faces(gen.tetra()), "sqrt3 12 1"), (faces(gen.ngon(3)), "sqrt3 13 1"),
        (Mesh(), "catmull 12 1"), (Mesh(), "loop 12 0"), (Mesh(), "sqrt3 12 1"), (Mesh(), "sqrt3 0 1"),
        (Mesh(), "catmull 13 0"),
    ]
    for m, op in drawn:
        book.put(m, op)
    for _ in range(24):
        m = gen.with_deleted(gen.mesh(rng), rng)
        book.put(m, "%s %d %d" % (rng.choice(("catmull", "loop", "sqrt3")), rng.choice((0, 1, 2)), rng.randrange(2)))


def main(seed, folder):
    rng = random.Random(seed)
    os.makedirs(folder, exist_ok=True)
    for name, about, fill in (
            ("schemes", "Schemes on consistent meshes.", schemes),
            ("edits", "Edits.", edits),
            ("check", "The check alone, by the Python reading of C1..C9; no Rust counterpart.", checks),
            ("refusals", "Refusals 1, 4, 5, 6 and their neighbours.", refusals)):
        book = Book(folder, name, about)
        fill(book, rng)
        book.close()


if __name__ == "__main__":
    main(int(sys.argv[1]), sys.argv[2])
