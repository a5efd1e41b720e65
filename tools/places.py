#!/usr/bin/env python3
"""Counts the places in src/ where an older form of the language stands (docs/DESIGN-PASS.md).

    python3 tools/places.py [COMMIT]      # of the files as they stand, or of a commit
    python3 tools/places.py -v [COMMIT]   # and each place
"""
import re
import subprocess
import sys
from collections import defaultdict
from pathlib import Path

ROOT = Path(__file__).resolve().parent.parent


def sources(commit):
    """The .rt files of crates/*/src, name and text."""
    if commit is None:
        names = sorted(p.relative_to(ROOT).as_posix() for p in ROOT.glob("crates/*/src/*.rt"))
        return {n: (ROOT / n).read_text() for n in names}
    git = lambda *a: subprocess.check_output(["git", "-C", str(ROOT), *a], text=True)
    names = [n for n in git("ls-tree", "-r", "--name-only", commit, "crates").split("\n") if re.fullmatch(r"crates/\w+/src/\w+\.rt", n)]
    return {n: git("show", f"{commit}:{n}") for n in names}


def plain(text):
    return re.sub(r"//[^\n]*", "", text)


class Function:
    def __init__(self, file, name, params, clauses, body):
        self.file, self.name, self.params, self.clauses, self.body = file, name, params, clauses, body

    def __str__(self):
        return f"{self.file}: {self.name}"


def closing(text, at, pair="{}"):
    depth = 0
    for i in range(at, len(text)):
        depth += {pair[0]: 1, pair[1]: -1}.get(text[i], 0)
        if depth == 0:
            return i
    return len(text)


def functions(file, text):
    text = plain(text)
    for m in re.finditer(r"\bfn (\w+)(?:<[^(]*>)?\(", text):
        end = closing(text, m.end() - 1, "()")
        at, clauses = end + 1, []
        while True:
            c = re.compile(r"(?:\[[^\]]*\]|[^{;])*?\b(requires|ensures)\*?[ \w]*\{").match(text, at)
            if not c:
                break
            stop = closing(text, c.end() - 1)
            clauses.append((c.group(1), " ".join(text[c.end() : stop].split())))
            at = stop + 1
        b = re.compile(r"(?:\[[^\]]*\]|[^{;])*\{").match(text, at)
        if b:
            stop = closing(text, b.end() - 1)
            yield Function(file, m.group(1), text[m.end() : end], clauses, text[b.end() : stop])


def shape(body):
    """The body with each name by the order in which it comes, and each number alike."""
    seen, out = {}, []
    for t in re.findall(r"b?\"[^\"]*\"|[A-Za-z_]\w*|\d[\w.]*|\S", body):
        if t in KEYWORDS or not re.match(r"[\w\"]|b\"", t):
            out.append(t)
        elif re.match(r"\d|\"|b\"", t):
            out.append("#")
        else:
            out.append(str(seen.setdefault(t, len(seen))))
    return " ".join(out)


KEYWORDS = set("as break const else false fn for if impl in let loop match mod move mut pub ref return self Self struct true type use while".split())


def by(things, key):
    groups = defaultdict(list)
    for t in things:
        groups[key(t)].append(t)
    return groups


def counted(title, places, verbose):
    print(f"{len(places):4}  {title}")
    if verbose:
        for p in places:
            print(f"        {p}")


def main():
    args = [a for a in sys.argv[1:] if a != "-v"]
    verbose = "-v" in sys.argv
    texts = sources(args[0] if args else None)
    fns = [f for n, t in texts.items() for f in functions(n, t)]

    # 1
    enums = [(n, m.group(1), m.group(2)) for n, t in texts.items() for m in re.finditer(r"\benum (\w+) \{([^}]*)\}", plain(t))]
    two = [f"{n}: {e}" for n, e, body in enums if len(re.findall(r"\w+(?:\([^)]*\))?,", body)) == 2]
    counted("1  own enums of two variants", two, verbose)
    codes = [str(f) for f in fns if re.search(r"return (k|nv|ne|nf|n|10|65536|most);|\n    (n|nv|nf|i|k)\n$", f.body) and re.search(r"\bwhile\b|return (10|65536)", f.body)]
    counted("1  searches that answer a number where nothing is found", codes, verbose)
    # 2
    groups = [g for s, g in by([f for f in fns if len(f.body.split()) >= 8], lambda f: shape(f.body)).items() if len(g) > 1]
    counted("2  groups of functions with bodies of one shape", [", ".join(map(str, g)) for g in groups], verbose)
    counted("2  functions in these groups", [str(f) for g in groups for f in g], False)
    # 3
    loops = [f"{f}" for f in fns for m in re.finditer(r"\bwhile\b", f.body)]
    index = [f"{f}" for f in fns for m in re.finditer(r"\bwhile\b", f.body) if re.search(r"[+-]= 1;", f.body)]
    counted("3  while loops", loops, verbose)
    counted("3  of these in functions that step a number by one", index, False)
    # 4
    inits = [f"{n}: {m.group(0)}" for n, t in texts.items() for m in re.finditer(r"\b(\w+): \1\b(?!\()(?=[,\s}])", plain(t))]
    counted("4  fields written as x: x", inits, verbose)
    hand = [str(f) for f in fns if re.match(r"(same_|in_|kind_of|index_of|told|flat_|flag_|put_|number_of|one$|wide$|choose$|narrow$)", f.name)]
    counted("4  functions named as conversions, comparisons or printing", hand, verbose)
    ladders = [str(f) for f in fns for _ in re.finditer(r"if [^{]*\{\s*return (?:true|false);\s*\}", f.body)]
    counted("4  tests that return true or false", ladders, verbose)
    # 5
    heads = by([(f, c) for f in fns for k, c in f.clauses if k == "requires"], lambda x: (x[0].file.split("/")[1], re.match(r"\w*", x[1]).group(0)))
    facts = [f"{k[0]}: {k[1]} in {len(g)}" for k, g in heads.items() if k[1] and len({str(x[0]) for x in g}) >= 3]
    counted("5  facts that stand in the requires of three or more functions of a crate", facts, verbose)
    runs = defaultdict(set)
    for f in fns:
        names = re.findall(r"(\w+): &", f.params)
        for i in range(len(names) - 2):
            runs[" ".join(names[i : i + 3])].add(str(f))
    counted("5  runs of three lent parameters that three or more functions take", [f"{k} in {len(g)}" for k, g in runs.items() if len(g) >= 3], verbose)
    counted("5  functions with eight parameters or more", [str(f) for f in fns if len(re.findall(r"\w+: ", f.params)) >= 8], verbose)
    # 6
    counted("6  functions that take a place in a buffer beside it", [str(f) for f in fns if re.search(r"(out|file): &mut \[u8\], at: usize", f.params)], verbose)
    counted("6  functions that make one array", [str(f) for f in fns if re.fullmatch(r"\s*\[[\d.]+; \d+\]\s*", f.body)], verbose)
    # 7
    counted("7  matches on a kind", [str(f) for f in fns for _ in re.finditer(r"match (kind|rule)\b", f.body)], verbose)
    # 8
    if not args:
        files = [p for p in ROOT.glob("crates/*/proofs/**/Answers.antt")]
        answers = sum(len(re.findall(r"^pub \S+ :", p.read_text(), re.M)) for p in files)
        print(f"{len(files):4}  8  files of answers, with {answers} answers")
    else:
        names = subprocess.check_output(["git", "-C", str(ROOT), "ls-tree", "-r", "--name-only", args[0], "crates"], text=True).split()
        files = [n for n in names if n.endswith("/Answers.antt")]
        answers = sum(len(re.findall(r"^pub \S+ :", subprocess.check_output(["git", "-C", str(ROOT), "show", f"{args[0]}:{n}"], text=True), re.M)) for n in files)
        print(f"{len(files):4}  8  files of answers, with {answers} answers")


main()
