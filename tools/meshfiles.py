#!/usr/bin/env python3
"""meshfiles.py: writes the mesh files of crates/counter/stdin, crates/runs_counter/data and crates/runs_refine/data from the oracle's generators,
crates/runs_counter_long/stdin, crates/runs_check/stdin and stdout from the recorded check cases, crates/refine/stdin, args and stdout from a recorded
Catmull-Clark case, and the cube's file as crates/file_laws/specs/Cube.antt. Run in the repository's folder, then rt fmt in crates/file_laws."""
import os, random, struct, sys
sys.path.insert(0, os.path.join('oracle', 'py'))
import cases, gen, mesh


def file_of(m):
    """The bytes of a mesh (document 01, section 5)."""
    v, e, f = len(m.outs), len(m.edges) // 8, len(m.faces)
    starts, at = [], 64
    for size in (24 * v, 4 * v, 32 * e, 4 * f, v + e + f):
        starts.append(at)
        at += size
    words = [1]
    for k, (start, count) in enumerate(zip(starts, (v, v, e, f, v + e + f))):
        words += [k + 1, start, count]
    body = [*m.outs, *m.edges, *m.faces]
    points = m.points or [0] * (3 * v)
    return struct.pack(f'<{len(words)}I', *words) + struct.pack(f'<{3 * v}Q', *points) + struct.pack(f'<{len(body)}I', *body) + bytes(m.marks)


def put(name, data, folder='crates/runs_counter/data'):
    os.makedirs(folder, exist_ok=True)
    with open(os.path.join(folder, name), 'wb') as out:
        out.write(data)


def double_torus():
    """Two tori of triangles, a face of each taken out and the two holes sewn together."""
    a = gen.tritorus(3, 3)
    n = 1 + max(max(t) for t in a)
    (p, q, r) = a[0]
    join = {p + n: p, q + n: r, r + n: q}
    b = [tuple(join.get(x + n, x + n) for x in t) for t in a[1:]]
    used = sorted({x for t in a[1:] + b for x in t})
    name = {x: i for i, x in enumerate(used)}
    return [tuple(name[x] for x in t) for t in a[1:] + b]


def runs_check():
    """The recorded check cases, each with its length before it in four bytes, and what the reader answers to each.
    Points are zero, so that no coordinate stands before the rules."""
    recorded = cases.read('oracle/vectors/check.txt')
    kinds = 'vhef'
    with open('crates/runs_check/stdin', 'wb') as out:
        for c in recorded:
            c.mesh.points = []
            data = file_of(c.mesh)
            out.write(struct.pack('<I', len(data)) + data)
    with open('crates/runs_check/stdout', 'w') as out:
        for c in recorded:
            place = [c.place[0], kinds.index(c.place[1]), c.place[2]] if c.answer == 3 else []
            print(c.answer, *place, file=out)


CUBE = '''-- The cube's file (document 01, section 5: "a cube file of 722 bytes"), byte by byte: crates/counter/stdin. Written by tools/meshfiles.py. Assumes nothing.
use Rattle.std.specs.Prelude.{ℕ, List, [], ◌∷◌}

abbrev pub cube_file : List ℕ
cube_file =
%s
    []
'''


def cube_spec(data):
    """The bytes as a list, 32 to a line; each of the file's parts begins a line."""
    m = struct.unpack('<16I', data[:64])
    ends = [0, *m[2::3], len(data)]
    parts = [data[a:b] for a, b in zip(ends, ends[1:])]
    lines = [part[i:i + 32] for part in parts for i in range(0, len(part), 32)]
    with open('crates/file_laws/specs/Cube.antt', 'w') as out:
        out.write(CUBE % '\n'.join('    ' + ' '.join(f'{x} ∷' for x in line) for line in lines))


def refine_run():
    """The first recorded case of two Catmull-Clark passes with the flag, as the program is asked for it, and the file of what the Rust made."""
    case = next(c for c in cases.read('oracle/vectors/schemes.txt') if c.op == 'catmull 2 1' and finite(c.mesh) and finite(c.result))
    os.makedirs('crates/refine', exist_ok=True)
    with open('crates/refine/stdin', 'wb') as out:
        out.write(file_of(case.mesh))
    with open('crates/refine/args', 'w') as out:
        print('catmull', 2, 'update', sep='\n', file=out)
    with open('crates/refine/stdout', 'wb') as out:
        out.write(file_of(case.result))


def finite(m):
    return all(x >> 52 & 2047 != 2047 for x in m.points)


def cages():
    """Cages to refine, with coordinates of all digits: closed, two with a rim, one of forty points, and one of which four passes fill the program's room."""
    rng = random.Random(1)
    for name, faces in (('cube', gen.cube()), ('sheet', gen.grid(3, 2)), ('tube', gen.tube(5, 2)), ('ring', gen.torus(8, 5)),
                        ('largest', gen.torus(7, 16))):
        put(name, file_of(gen.coords(gen.from_faces(faces), rng, 1)), 'crates/runs_refine/data')


def main():
    runs_check()
    refine_run()
    cages()
    with open('crates/runs_counter_long/stdin', 'wb') as out:
        out.write(bytes(65537))
    cube = gen.from_faces(gen.cube())
    data = file_of(cube)
    os.makedirs('crates/counter', exist_ok=True)
    with open('crates/counter/stdin', 'wb') as out:
        out.write(data)
    cube_spec(data)
    put('cube', data)
    put('longer', data + b'\0')                                                        # 15: a byte after its end
    put('mark', data[:-1] + b'\2')                                                     # 15: a mark that is not 0 or 1
    put('deleted', file_of(isolated_deleted()))                                        # 4
    put('nan', data[:64] + struct.pack('<Q', mesh.QUIET_NAN) + data[72:])              # 16
    broken = gen.from_faces(gen.cube())
    broken.edges[2] = broken.edges[3]
    put('broken', file_of(broken))                                                     # 3
    put('empty', file_of(mesh.Mesh()))
    put('grid', file_of(gen.from_faces(gen.grid(3, 2))))
    put('tube', file_of(gen.from_faces(gen.tube(5, 2))))
    put('torus', file_of(gen.from_faces(gen.torus(3, 4))))
    put('double', file_of(gen.from_faces(double_torus())))


def isolated_deleted():
    """A cube and a vertex without an edge that is marked deleted."""
    m = gen.from_faces(gen.cube(), isolated=1)
    m.marks[len(m.outs) - 1] = 1
    return m


if __name__ == '__main__':
    main()
