"""Recorded cases: their text form (README, 'Recorded cases'), and how a case is worked out from its mesh and operation.
To compare another program, take read() and Mesh.agrees()."""
import dataclasses

import doc01
from mesh import Mesh, ask_one, parse

SCHEMES = ("catmull", "loop", "sqrt3")


@dataclasses.dataclass
class Case:
    name: str
    mesh: Mesh
    op: str
    answer: int                 # document 01's number
    place: tuple = ()           # its place, as in the text form
    value: str = ""             # what the Rust returned
    rust: str = ""              # what the Rust did; empty if it was not asked
    result: Mesh | None = None  # the mesh after answer 0, except for check

    def text(self):
        lines = "case %s\n%sop %s\n" % (self.name, self.mesh.text(), self.op)
        lines += "= " + " ".join(["answer", str(self.answer), *map(str, self.place)]) + "\n"
        if self.value:
            lines += "= value %s\n" % self.value
        if self.rust:
            lines += "= rust %s\n" % self.rust
        if self.result:
            lines += self.result.text("= ", nan=True)
        return lines


def blocks(path):
    """The cases of a file as lists of lines. They are separated by blank lines; # begins a comment line."""
    with open(path) as file:
        for block in file.read().split("\n\n"):
            lines = [line for line in block.splitlines() if line and not line.startswith("#")]
            if lines:
                yield lines


def from_lines(lines):
    """The case that these lines hold."""
    given = [line for line in lines if not line.startswith("=")]
    recorded = [line[2:] for line in lines if line.startswith("= ")]
    words = {}
    for line in given + recorded:
        kind, *rest = line.split()
        words[kind] = rest
    answer, *place = words["answer"]
    has_result = any(line.startswith("mesh") for line in recorded)
    return Case(words["case"][0], parse(given), " ".join(words["op"]), int(answer), tuple(place),
                " ".join(words.get("value", [])), " ".join(words.get("rust", [])),
                parse(recorded) if has_result else None)


def read(path):
    return [from_lines(lines) for lines in blocks(path)]


def work_out(name, mesh, op):
    """The case as it comes out now: document 01's answer by doc01, what the Rust does by the oracle.
    The Rust is asked where it has a say: schemes answered 0, edits answered neither 3 nor 7 (handles that are out of
    range would only make it panic)."""
    answer, place = doc01.answer(mesh, op, ask_one)
    case = Case(name, mesh, op, answer, place or ())
    words = op.split()
    if words[0] == "check" or answer == 3 or (words[0] in SCHEMES and answer != 0):
        return case
    if answer == 7:
        case.rust = "none"
        return case
    status, text, after = ask_one(mesh, op)
    case.rust = status
    if status == "err" or words[0] == "swap_cw":
        case.rust += " " + text
    if answer == 0:
        case.value = "" if words[0] == "swap_cw" else text
        case.result = after
    return case
