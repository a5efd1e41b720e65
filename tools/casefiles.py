#!/usr/bin/env python3
"""casefiles.py: writes crates/runs_catmull/stdin and stdout: the recorded Catmull-Clark cases, the recorded checks that fail as calls of one pass, and cases
of room, short slices, the order of the answers and deleted elements, whose outcome document 01 (section 4) says. The format is in
crates/runs_catmull/src/main.rt. Run in the repository's folder."""
import os, struct, sys
sys.path.insert(0, os.path.join('oracle', 'py'))
import cases, doc01, gen, mesh

SLICES = ('outs', 'edges', 'faces', 'vmarks', 'emarks', 'fmarks', 'points')
LENT = SLICES + ('work',)
ROOM = dict(zip(LENT, (4096, 4096, 4096, 512, 512, 512, 2048, 2048)))       # as in crates/runs_catmull/src/replay.rt
FORM = dict(zip(LENT, 'IIIBBBQQ'))
LITTLE = dict(zip(LENT, (20, 160, 20, 20, 20, 20, 60, 240)))                 # lent where nothing is written


def contents(m):
    """The seven slices that hold a mesh."""
    v, e = m.V, m.V + m.E
    return dict(zip(SLICES, (m.outs, m.edges, m.faces, m.marks[:v], m.marks[v:e], m.marks[e:], m.points)))


def exact(m, passes):
    """The lengths that the slices lent have to have."""
    v, e, f = doc01.final_counts(m, 'catmull', passes, False)
    work = 6 * sum(doc01.final_counts(m, 'catmull', passes - 1, False)) if passes else 0
    return dict(zip(LENT, (v, 8 * e, f, v, e, f, 3 * v, work)))


class Run:
    """A call and its outcome: the mesh of `result` when done, else the answer's number and values."""

    def __init__(self, name, m, passes, flag, lent, answer=0, values=(), result=None):
        self.name, self.passes, self.flag, self.lent = name, passes, flag, dict(lent)
        self.counts, self.given = list(m.counts), contents(m)
        self.answer, self.values, self.result = answer, list(values), result

    def part(self, form, values):
        data = struct.pack('<%d%s' % (len(values), form), *values)
        return struct.pack('<I', len(data)) + data

    def bytes(self):
        """The case's 17 parts."""
        given = [len(self.given[s]) for s in SLICES]
        lent = [self.lent[s] for s in LENT]
        said = [self.answer, *(self.values + [0, 0, 0])[:3]]
        said += [0, 0, 0, 0] if self.answer else [*self.result.counts, self.flag]
        left = {s: [] for s in LENT}
        if self.answer == 0:
            left.update(contents(self.result))
        assert all(len(self.given[s]) <= ROOM[s] for s in SLICES) and all(self.lent[s] <= ROOM[s] for s in LENT), self.name
        assert len(self.name) <= 64
        return (self.part('B', self.name.encode()) + self.part('I', [self.passes, self.flag, *self.counts, *given, *lent, *said])
                + b''.join(self.part(FORM[s], self.given[s]) for s in SLICES) + b''.join(self.part(FORM[s], left[s]) for s in LENT))


def values(place):
    """A place as numbers: the kinds are 0 vertex, 1 halfedge, 2 edge, 3 face."""
    return ['vhef'.index(x) if x in 'vhef' else int(x) for x in place]


def recorded():
    """Every recorded case; when done five places of each slice are to spare. Small ones once more with exact room."""
    for c in cases.read('oracle/vectors/schemes.txt') + cases.read('oracle/vectors/refusals.txt'):
        scheme, passes, flag = c.op.split()
        if scheme != 'catmull':
            continue
        call = (c.mesh, int(passes), int(flag))
        if c.answer:
            yield Run(c.name, *call, LITTLE, c.answer, values(c.place))
            continue
        room = exact(c.mesh, int(passes))
        yield Run(c.name, *call, {s: n + 5 for s, n in room.items()}, result=c.result)
        if c.result.V <= 60:
            yield Run(c.name + '-exact', *call, room, result=c.result)


def broken():
    """The recorded checks that fail."""
    for c in cases.read('oracle/vectors/check.txt'):
        if c.answer == 3:
            yield Run(c.name, c.mesh, 1, 1, LITTLE, 3, values(c.place))


def cube():
    return gen.from_faces(gen.cube())


def short():
    """One word, mark or number less than a call needs: lent for 5, given for 2. A count over 1,048,576 is 2 as well."""
    for passes in (0, 1, 2):
        room = exact(cube(), passes)
        for s in LENT:
            if room[s]:
                yield Run('cube-%d-short-%s' % (passes, s), cube(), passes, 1, {**room, s: room[s] - 1}, 5)
    for s in SLICES:
        run = Run('cube-given-short-' + s, cube(), 1, 1, LITTLE, 2)
        run.given[s] = run.given[s][:-1]
        yield run
    for i, kind in enumerate(('vertices', 'edges', 'faces')):
        for many in (doc01.LIMIT + 1, mesh.NONE):
            run = Run('cube-%d-%s' % (many, kind), cube(), 1, 1, LITTLE, 2)
            run.counts[i] = many
            yield run


def order():
    """Where two answers are due, the lower number is given."""
    worn = next(c.mesh for c in cases.read('oracle/vectors/refusals.txt') if c.name == 'refusals-27')
    twisted = cube()
    twisted.edges[2] = twisted.edges[3]
    one = Run('short-thirteen', cube(), 13, 1, LITTLE, 1)
    two = Run('short-twisted', twisted, 1, 1, LITTLE, 2)
    for run in (one, two):
        run.given['faces'] = run.given['faces'][:-1]
        yield run
    yield Run('twisted-no-room', twisted, 1, 0, dict.fromkeys(LENT, 0), 3, values(map(str, mesh.check(twisted))))
    yield Run('worn-one-pass', worn, 1, 1, LITTLE, 4, first_mark(worn))
    yield Run('worn-no-room', worn, 1, 1, dict.fromkeys(LENT, 0), 4, first_mark(worn))
    yield Run('worn-copied', worn, 0, 1, exact_copy(worn), result=worn)


def first_mark(m):
    """Kind and index of the first of the faces, then the edges, then the vertices that is marked deleted."""
    marks = contents(m)
    return next([k, marks[s].index(1)] for k, s in ((3, 'fmarks'), (2, 'emarks'), (0, 'vmarks')) if 1 in marks[s])


def exact_copy(m):
    return {**{s: len(x) for s, x in contents(m).items()}, 'work': 0}


def main():
    runs = [*recorded(), *broken(), *short(), *order()]
    assert len({r.name for r in runs}) == len(runs)
    with open('crates/runs_catmull/stdin', 'wb') as out:
        out.write(b''.join(r.bytes() for r in runs))
    with open('crates/runs_catmull/stdout', 'w') as out:
        print('%d cases, 0 differences' % len(runs), file=out)


if __name__ == '__main__':
    main()
