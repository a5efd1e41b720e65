"""The time of the check on large meshes, best of five: a grid with as many edges as are allowed, one vertex with 100,000
edges, one face with 100,000 sides. One line each."""
from library import Handed, answers, driver
import gen

MESHES = (("grid of 723 x 723 quads", gen.grid(723, 723)),
          ("hub of 100,000 spokes", gen.wheel(100000)),
          ("face of 100,000 sides", gen.ngon(100000)))


def main():
    program = driver()
    for name, faces in MESHES:
        handed = Handed(gen.from_faces(faces))
        ((number, _, _, _, nanoseconds),) = answers(program, [handed], "5")
        v, e, f = handed.counts
        print("%s: %d vertices, %d edges, %d faces, answer %d, %.1f ms, %.1f ns a halfedge"
              % (name, v, e, f, number, nanoseconds / 1e6, nanoseconds / (2 * e)))


if __name__ == "__main__":
    main()
