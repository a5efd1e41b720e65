"""All gluings of a few small polygons, numbered at random: do the schemes ever fail or leave an inconsistent mesh?
Usage: exhaust.py SIDES KEEP
The polygons have at most SIDES sides in all; of one set of polygons at most KEEP gluings are tried."""
import random
import sys
import time

import gen
import probe
from mesh import ask, check

BATCH = 500
OPS = ("catmull 1 1", "loop 1 1", "sqrt3 1 0", "sqrt3 1 1", "sqrt3 2 1", "sqrt3 3 0")


def polygon_sets(sides, least=3):
    """All ways to share out that many sides to polygons, smaller polygons first."""
    if sides == 0:
        yield []
    for n in range(least, sides + 1):
        for rest in polygon_sets(sides - n, n):
            yield [n] + rest


def gluings(sizes):
    """All partial gluings of the polygons' sides that keep C7, as lists of pairs (one list, changed in between)."""
    sides, pairs = sum(sizes), []

    def from_side(i, used):
        while i in used:
            i += 1
        if i == sides:
            yield pairs
            return
        yield from from_side(i + 1, used)
        for j in range(i + 1, sides):
            if j not in used:
                pairs.append((i, j))
                if gen.glue(sizes, pairs):
                    yield from from_side(i + 1, used | {i, j})
                pairs.pop()

    return from_side(0, frozenset())


def sample(sizes, keep, rng):
    """The number of gluings, and keep of them drawn at random (all, if there are no more)."""
    count, kept = 0, []
    for pairs in gluings(sizes):
        count += 1
        if len(kept) < keep:
            kept.append(list(pairs))
        else:
            place = rng.randrange(count)
            if place < keep:
                kept[place] = list(pairs)
    return count, kept


def try_schemes(meshes):
    triangulated = [after for _status, _text, after in ask([(m, "triangulate") for m in meshes])]
    for op in OPS:
        scheme, passes, flag = op.split()
        for m, t, answer in zip(meshes, triangulated, ask([(m, op) for m in meshes])):
            if passes == "1":
                probe.one_pass(m, m if scheme == "catmull" else t, scheme, int(flag), answer)
            else:
                probe.want(answer[0] == "ok" and check(answer[2]) is None, op, m)


def main(most_sides, keep):
    rng, total, start = random.Random(7), 0, time.time()
    for sides in range(3, most_sides + 1):
        for sizes in polygon_sets(sides):
            count, kept = sample(sizes, keep, rng)
            meshes = [gen.coords(gen.glue(sizes, pairs, rng, rng.choice((0, 0, 1))), rng, 1) for pairs in kept]
            for m in meshes:
                probe.want(check(m) is None, "input", m)
            for i in range(0, len(meshes), BATCH):
                try_schemes(meshes[i:i + BATCH])
            total += len(meshes)
            print("sides %-16s gluings %7d tried %6d failures %d  %.0f s"
                  % (sizes, count, len(meshes), len(probe.failures), time.time() - start), flush=True)
    print("meshes", total, "failures", len(probe.failures))
    return 1 if probe.failures else 0


if __name__ == "__main__":
    sys.exit(main(int(sys.argv[1]), int(sys.argv[2])))
