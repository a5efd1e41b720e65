"""random_files.py N SEED: N random and damaged mesh files, and meshes to be written, through the static library, against a reader and a writer that
were written from document 01, section 5, and not from the code. Compared are the answers with their values, the counts and the length, and every byte of
every slice, used and unused. What was read is written again."""
import math
import random
import struct
import subprocess
import sys
from collections import Counter

from library import Handed, driver
from random_check import DAMAGE as LINK_DAMAGE, KINDS, LIMIT, base, damaged
import gen
from mesh import NONE, Mesh, check, real
from meshfiles import file_of

COPIES = 8                               # damaged copies of each mesh that is drawn
BATCH = 2000                             # cases for one run of the driver
SIZES = (4, 4, 4, 1, 1, 1, 8)            # bytes of an element: outs, edges, faces, vmarks, emarks, fmarks, points
HEAD = struct.Struct("=13Q")
ANSWERS = struct.Struct("=4I3Q4IQ")


# Document 01, section 5.

def words(data, start, count):
    return struct.unpack_from("<%dI" % count, data, start)


def lengths(v, e, f):
    """How many elements a mesh of these counts has in each slice."""
    return (v, 8 * e, f, v, e, f, 3 * v)


def contents(data):
    """The counts and the starts of the five bodies, or None where answer 15 is due."""
    if len(data) < 64:
        return None
    form, *rows = words(data, 0, 16)
    v, e, f = rows[5], rows[8], rows[11]
    at, starts = 64, []
    for kind, (size, count) in enumerate(((24, v), (4, v), (32, e), (4, f), (1, v + e + f))):
        if rows[3 * kind:3 * kind + 3] != [kind + 1, at, count]:
            return None
        starts.append(at)
        at += size * count
    if form != 1 or at != len(data) or any(mark > 1 for mark in data[starts[4]:]):
        return None
    return (v, e, f), starts


def bodies(data, counts, starts):
    """What the file holds of each slice."""
    v, e, _ = counts
    points, outs, edges, faces, marks = starts
    return [data[outs:edges], data[edges:faces], data[faces:marks],
            data[marks:marks + v], data[marks + v:marks + v + e], data[marks + v + e:], data[points:outs]]


def whole(slices):
    """The mesh of these slices."""
    outs, edges, faces, vmarks, emarks, fmarks, points = slices
    return Mesh(words(outs, 0, len(outs) // 4), words(edges, 0, len(edges) // 4), words(faces, 0, len(faces) // 4),
                struct.unpack("<%dQ" % (len(points) // 8), points), vmarks + emarks + fmarks)


def finite(points):
    return all(math.isfinite(x) for (x,) in struct.iter_unpack("<d", points))


def reading(data, room):
    """The reader's answer, the counts, and what it leaves in slices of so many elements."""
    def refused(*answer):
        return answer, (0, 0, 0), [bytes(n * size) for n, size in zip(room, SIZES)]

    found = contents(data)
    if not found:
        return refused(15, 0, 0, 0)
    counts, starts = found
    if max(counts) > LIMIT or any(n < wanted for n, wanted in zip(room, lengths(*counts))):
        return refused(2, 0, 0, 0)
    slices = bodies(data, counts, starts)
    if not finite(slices[6]):
        return refused(16, 0, 0, 0)
    broken = check(whole(slices))
    if broken:
        rule, kind, index = broken
        return refused(3, rule, KINDS[kind], index)
    return (0, 0, 0, 0), counts, [s + bytes(n * size - len(s)) for s, n, size in zip(slices, room, SIZES)]


def writing(counts, slices, old):
    """The writer's answer, the length, and what it leaves of the file's slice."""
    def refused(number):
        return (number, 0, 0, 0), 0, old

    if max(counts) > LIMIT or any(len(s) < n * size for s, n, size in zip(slices, lengths(*counts), SIZES)):
        return refused(2)
    used = [s[:n * size] for s, n, size in zip(slices, lengths(*counts), SIZES)]
    if not finite(used[6]):
        return refused(16)
    m = whole(used)
    m.marks = [1 if mark else 0 for mark in m.marks]
    data = file_of(m)
    if len(old) < len(data):
        return refused(5)
    return (0, 0, 0, 0), len(data), data + old[len(data):]


# Cases.

class Case:
    """What is handed over: a file to read or None, counts, the seven slices and the file's slice as they are before."""
    __slots__ = ("file", "counts", "slices", "room")

    def __init__(self, file, counts, slices, room):
        self.file, self.counts, self.slices, self.room = file, counts, slices, room

    def packed(self):
        """As the driver reads it."""
        file = self.file or b""
        sizes = [len(s) // size for s, size in zip(self.slices, SIZES)]
        return HEAD.pack(self.file is not None, *self.counts, len(file), *sizes, len(self.room)) + b"".join((file, *self.slices, self.room))

    def expected(self):
        """What the driver writes, by document 01, and the numbers of the two answers with their rule."""
        read, counts, slices = (0, 0, 0, 0), self.counts, self.slices
        if self.file is not None:
            read, counts, slices = reading(self.file, [len(s) // size for s, size in zip(slices, SIZES)])
        written, length, room = writing(counts, slices, self.room)
        head = ANSWERS.pack(*read, *(counts if self.file is not None else (0, 0, 0)), *written, length)
        return b"".join((head, self.file or b"", *slices, room)), read, written


def junk(count, rng):
    return rng.randbytes(count) if rng.random() < .8 else bytes([rng.choice((1, 255))]) * count


def near(wanted, rng):
    """Slices of the wanted numbers of elements, some longer, now and then one that is one short; junk in all."""
    sizes = [n + rng.choice((0, 0, 0, 1, rng.randrange(9))) for n in wanted]
    if rng.random() < .12:
        i = rng.randrange(7)
        sizes[i] = max(0, wanted[i] - 1)
    return [junk(n * size, rng) for n, size in zip(sizes, SIZES)]


def file_room(length, rng):
    """A slice for a file of this length: exact, one short, longer."""
    return junk(max(0, length + rng.choice((0, 0, 1, 1, -1, rng.randrange(40), -rng.randrange(length + 1)))), rng)


# Damage to a file's bytes.

def put_word(data, at, word):
    data[at:at + 4] = struct.pack("<I", word % 2**32)


def odd_contents(data, rng):
    """A word of the contents is off by a little, or anything."""
    at = 4 * rng.randrange(16)
    old, = words(data, at, 1)
    put_word(data, at, rng.choice((old + 1, old - 1, old + 4, old ^ 1 << rng.randrange(32), 0, 2**32 - 1, rng.getrandbits(32))))


def recount(data, rng):
    """One count becomes another, and all that depends on it with it, modulo 2^32: the contents are right but for the length."""
    _, *rows = words(data, 0, 16)
    counts = [rows[5], rows[8], rows[11]]
    i = rng.randrange(3)
    counts[i] = (counts[i] + rng.choice((1, -1, 2**27, 2**30, 2**31, 2**32 - 1 - counts[i], LIMIT, rng.getrandbits(32)))) % 2**32
    v, e, f = counts
    at = 64
    for kind, (size, count) in enumerate(((24, v), (4, v), (32, e), (4, f), (1, v + e + f))):
        put_word(data, 8 + 12 * kind, at)
        put_word(data, 12 + 12 * kind, count)
        at += size * count


def odd_mark(data, rng):
    """A mark that is neither 0 nor 1, or one that is turned."""
    if len(data) > 64:
        data[-1 - rng.randrange(min(len(data) - 64, 20))] = rng.choice((0, 1, 2, 2, 3, 128, 255))


def longer(data, rng):
    data += bytes(rng.choice((1, 1, 4, rng.randrange(70))))


def shorter(data, rng):
    del data[-rng.choice((1, 1, 4, 1 + rng.randrange(len(data)))):]


def odd_number(data, rng):
    """A coordinate that is infinite, a NaN, or next to it."""
    v, = words(data, 24, 1)
    if v and len(data) >= 64 + 24 * v:
        at = 64 + 8 * rng.randrange(3 * v)
        bits = rng.choice((0x7ff0000000000000, 0xfff0000000000000, 0x7ff8000000000000, 0xfff8000000000001, 0x7ff0000000000001,
                           0x7fefffffffffffff, 0xffefffffffffffff, 0x8000000000000000, 1))
        data[at:at + 8] = struct.pack("<Q", bits)


def odd_byte(data, rng):
    data[rng.randrange(len(data))] = rng.choice((0, 1, 255, rng.randrange(256)))


def odd_link(data, rng):
    """A word after the points."""
    v, = words(data, 24, 1)
    first = 64 + 24 * v
    if len(data) >= first + 4:
        put_word(data, first + 4 * rng.randrange((len(data) - first) // 4), rng.choice((NONE, NONE - 1, 0, 1, rng.randrange(60), rng.getrandbits(32))))


DAMAGE = (odd_contents, odd_contents, recount, odd_mark, longer, shorter, odd_number, odd_byte, odd_link)


def spoilt(m, rng):
    """The mesh with its links damaged; its marks are 0 and 1."""
    s = Handed(gen.spoil(m, rng) if rng.random() < .5 else m)
    for _ in range(rng.choice((0, 1, 1, 2))):
        rng.choice(LINK_DAMAGE)(s, rng)
    return Mesh(s.outs, s.edges, s.faces, s.points, [1 if mark else 0 for mark in s.vmarks + s.emarks + s.fmarks])


def file_case(m, rng):
    """A file to read and write again: half have damaged links, two in five damaged bytes."""
    if rng.random() < .5:
        m = spoilt(m, rng)
    data = bytearray(file_of(m))
    for _ in range(rng.choice((0, 0, 0, 1, 2))):
        if len(data) >= 64:
            rng.choice(DAMAGE)(data, rng)
    return Case(bytes(data), (0, 0, 0), near(lengths(*m.counts), rng), file_room(len(data), rng))


def mesh_case(m, rng):
    """A mesh to write, whether it is consistent or not; some slices short, some counts wrong."""
    s = damaged(m, rng)
    parts = [struct.pack("<%d%s" % (len(p), kind), *p) for kind, (p, _) in zip("IIIBBBQ", s.slices())]
    return Case(None, s.counts, parts, file_room(64 + 29 * m.V + 33 * m.E + 5 * m.F, rng))


def large(rng):
    """Files of as many elements as are allowed, all deleted, and of one more, in slices that have room for both."""
    for kind in ("v", "f"):
        for count in (LIMIT, LIMIT + 1):
            v, f = (count, 0) if kind == "v" else (0, count)
            m = Mesh([NONE] * v, [], [5] * f, [0] * (3 * v), [1] * count)
            yield Case(file_of(m), (0, 0, 0), [junk((n + 1) * size, rng) for n, size in zip(lengths(v, 0, f), SIZES)], junk(64 + 29 * v + 5 * f, rng))


def drawn(count, rng):
    """So many files, among them the large ones last, and for every fourth a mesh to write."""
    made = 0
    while made < count - 4:
        m = base(rng)
        m.points = m.points[:3 * m.V]
        if rng.random() < .85:
            m.points = [p if math.isfinite(real(p)) else 0 for p in m.points]
        for _ in range(min(COPIES, count - 4 - made)):
            made += 1
            yield file_case(m, rng)
            if rng.random() < .25:
                yield mesh_case(m, rng)
    yield from list(large(rng))[:count - made]


def batches(cases):
    batch = []
    for case in cases:
        batch.append(case)
        if len(batch) == BATCH:
            yield batch
            batch = []
    if batch:
        yield batch


def compare(program, batch, met):
    """Runs the cases, counts the answers that document 01 gives; the number of differences."""
    out = subprocess.run([program], input=b"".join(case.packed() for case in batch), stdout=subprocess.PIPE, check=True).stdout
    at = differences = 0
    for case in batch:
        wanted, read, written = case.expected()
        if case.file is not None:
            met["read", read[:2]] += 1
        met["write", written[:2]] += 1
        given = out[at:at + len(wanted)]
        at += len(wanted)
        if given != wanted:
            differences += 1
            place = next((i for i, (a, b) in enumerate(zip(given, wanted)) if a != b), len(given))
            print("difference at byte %d; library %s, document 01 %s, case %s"
                  % (place, given[:ANSWERS.size].hex(), wanted[:ANSWERS.size].hex(), case.packed()[:2000].hex()))
    assert at == len(out), "the driver wrote more than was expected"
    return differences


def main():
    total, rng = int(sys.argv[1]), random.Random(int(sys.argv[2]))
    program, met = driver("files"), Counter()
    differences = sum(compare(program, batch, met) for batch in batches(drawn(total, rng)))
    for (call, (number, rule)), count in sorted(met.items()):
        print("%s, answer %d%s: %d" % (call, number, ", C%d" % rule if rule else "", count))
    print("%d files, %d meshes, %d differences" % (total, met.total() - 2 * total, differences))
    sys.exit(differences != 0)


if __name__ == "__main__":
    main()
