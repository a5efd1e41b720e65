"""The static library as a child process: what is handed to a call, and the drivers that hand it over."""
import os
import struct
import subprocess
import sys
from array import array

TESTS = os.path.dirname(os.path.abspath(__file__))
TOP = os.path.dirname(TESTS)
sys.path.insert(0, os.path.join(TOP, "oracle", "py"))
sys.path.insert(0, os.path.join(TOP, "tools"))


class Handed:
    """A mesh in slices with its counts. The slices may be longer or shorter than the counts say."""
    __slots__ = ("counts", "outs", "edges", "faces", "vmarks", "emarks", "fmarks", "points")

    def __init__(self, m):
        v, e, _ = m.counts
        self.counts = list(m.counts)
        self.outs, self.edges, self.faces, self.points = list(m.outs), list(m.edges), list(m.faces), list(m.points)
        self.vmarks, self.emarks, self.fmarks = m.marks[:v], m.marks[v:v + e], m.marks[v + e:]

    def slices(self):
        """Each slice with the number of elements that the counts want of it."""
        v, e, f = self.counts
        return ((self.outs, v), (self.edges, 8 * e), (self.faces, f),
                (self.vmarks, v), (self.emarks, e), (self.fmarks, f), (self.points, 3 * v))

    def packed(self):
        """As the driver reads it."""
        slices = [s for s, _ in self.slices()]
        bodies = [array(kind, s).tobytes() for kind, s in zip("IIIBBBQ", slices)]
        return struct.pack("=10Q", *self.counts, *map(len, slices)) + b"".join(bodies)


def driver(name="driver"):
    """Compiles a driver, NAME.c, against the static library; gives its path."""
    build = os.path.join(TESTS, "build")
    os.makedirs(build, exist_ok=True)
    program = os.path.join(build, name)
    archive = os.path.join(TOP, "target", "staticlib", "libexports.a")
    if not os.path.exists(archive):
        sys.exit("no static library; `tests/archive.sh` writes it")
    subprocess.run([os.environ.get("CC", "cc"), "-std=c99", "-D_POSIX_C_SOURCE=199309L", "-O2", "-Wall", "-Wextra", "-I", os.path.join(TOP, "include"),
                    os.path.join(TESTS, name + ".c"), archive, "-o", program], check=True)
    return program


def answers(program, handed, *words):
    """What the library answers to each, as numbers."""
    run = subprocess.run([program, *words], input=b"".join(h.packed() for h in handed), stdout=subprocess.PIPE, check=True)
    lines = run.stdout.decode().splitlines()
    assert len(lines) == len(handed)
    return [tuple(map(int, line.split())) for line in lines]
