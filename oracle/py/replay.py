"""Works out recorded cases again and compares every word of them. Usage: replay.py FILE ...
Prints each difference, at the end the number of cases and of differences. The exit status is 0 exactly if there is no
difference."""
import subprocess
import sys

import cases
import doc01
from mesh import ask_one, check, same_points

SHOWN = 5       # differences printed of one case

WORD = {        # what word number i of such a line is
    "v": lambda i: "halfedge of vertex %d" % i,
    "e": lambda i: "%s of halfedge %d" % (("face", "head", "next", "prev")[i % 4], i // 4),
    "f": lambda i: "halfedge of face %d" % i,
    "p": lambda i: "%s of point %d" % ("xyz"[i % 3], i // 3),
    "m": lambda i: "mark %d" % i,
}

DELETED = {"f": "DeletedFace(FH(%d))", "e": "DeletedEdge(EH(%d))", "v": "DeletedVertex(VH(%d))"}


def split(lines):
    """The words of each line by its side and kind: 'v 3 1' gives ('given', 'v') and ['3', '1'], '= v 3 1' the same for
    'recorded'. Marks come digit by digit."""
    out = {}
    for line in lines:
        words = line.split()
        side = "recorded" if words[0] == "=" else "given"
        kind, *words = words[1:] if side == "recorded" else words
        if (side, kind) in out:
            raise ValueError("two lines %s %s" % (side, kind))
        out[side, kind] = list("".join(words)) if kind == "m" else words
    return out


def compare(old, new):
    """The differences between a case as it stands in the file and as it is worked out now, word by word."""
    old, new = split(old), split(new)
    for key in dict.fromkeys([*old, *new]):
        was, now, (side, kind) = old.get(key), new.get(key), key
        if was is None:
            yield "%s %s is missing, now %.60s" % (side, kind, " ".join(now))
        elif now is None:
            yield "%s %s: %.60s, now no such line" % (side, kind, " ".join(was))
        elif kind not in WORD:
            if was != now:
                yield "%s %s: %s, now %s" % (side, kind, " ".join(was), " ".join(now))
        elif len(was) != len(now):
            yield "%s %s: %d words, now %d" % (side, kind, len(was), len(now))
        else:
            for i in range(len(was)):
                if was[i] != now[i]:
                    yield "%s %s, %s: %s, now %s" % (side, kind, WORD[kind](i), was[i], now[i])


def beyond(case):
    """What no line records: results are consistent; those of the schemes have the counts, points and flag that doc01
    works out; where a scheme is refused because of a deleted element, the Rust names the same one."""
    if case.result and check(case.result):
        yield "the result breaks C%d at %s %d" % check(case.result)
    scheme, *numbers = case.op.split()
    if scheme not in cases.SCHEMES:
        return
    if case.answer == 4:
        error = DELETED[case.place[0]] % case.place[1]
        status, text, _ = ask_one(case.mesh, case.op)
        if (status, text) != ("err", error):
            yield "the Rust: %s %s, not err %s" % (status, text, error)
    if case.result:
        passes, flag = map(int, numbers)
        counts, points, next_flag = doc01.scheme_result(case.mesh, scheme, passes, flag, ask_one)
        if counts != case.result.counts:
            yield "the counts are not those of doc01"
        if not same_points(points, case.result.points):
            yield "the points are not those of doc01"
        if scheme == "sqrt3" and case.value != str(next_flag):
            yield "the next flag is not that of doc01"


def differences(lines):
    """All differences of one case, given as its lines."""
    try:
        old = cases.from_lines(lines)
        new = cases.work_out(old.name, old.mesh, old.op)
        return [*compare(lines, new.text().splitlines()), *beyond(new)]
    except (subprocess.SubprocessError, AssertionError, AttributeError, LookupError, TypeError, ValueError) as error:
        return ["cannot be worked out: %r" % error]


def main(paths):
    count, found = 0, 0
    for path in paths:
        blocks = list(cases.blocks(path))
        for lines in blocks:
            different = differences(lines)
            for text in different[:SHOWN]:
                print("%s, %s: %s" % (path, lines[0], text))
            if len(different) > SHOWN:
                print("%s, %s: and %d more" % (path, lines[0], len(different) - SHOWN))
            found += len(different)
        if not blocks:
            print("%s: holds no case" % path)
            found += 1
        print("%s: %d cases" % (path, len(blocks)), flush=True)
        count += len(blocks)
    print("%d cases, %d differences" % (count, found))
    return 0 if found == 0 and count > 0 else 1


if __name__ == "__main__":
    sys.exit(main(sys.argv[1:]))
