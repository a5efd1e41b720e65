#!/usr/bin/env python3
"""Brings this repository's own definitions, fields and lemmas to today's spelling: words in snake case, facts in upper camel case.

usage: tools/respell.py            once, at the top, after the port/port.py of the kit
       tools/respell.py --list     prints what would be renamed, and names that fall together

It reads the names that .antt files declare and turns whole words in .antt files, in the clauses and ghost lines of .rt files, in must-fail edits and between the backquotes of the pages.
Functions and fields of src/, exported names, strings and the folders of proofs keep their names.
"""

import collections
import os
import re
import sys

WORD = re.compile(r"[^\s(){}\[\];,.:\"⌜⌝λ@|`]+")
DECLARED = re.compile(r"\s*(?:(?:abbrev|unfoldable|pub|record|data|ruleset)\s+)*([^\s:(){}\[\];,.\"]+)(?:\s+[({].*?[)}])*\s+:\s")
CASES = re.compile(r"(check|edits|schemes|refusals)-\d+$")

# Names that would fall together with another: what each is called instead.
BY_HAND = {
    "orElse": "or_else",
    "◌orElse◌": "◌or_else◌",
    "split-edge": "split_edge_edit",
    "split-face": "split_face_edit",
    "insert-edge": "insert_edge_edit",
    "swap-ccw": "swap_ccw_edit",
    "swap-cw": "swap_cw_edit",
    "swap-by": "swap_by_edit",
    "links-of": "own_links",
    "marks-of": "own_marks",
    "n0·25": "n0_25",
    "n0·5": "n0_5",
}


def files(root, ends):
    for folder, dirs, names in os.walk(os.path.join(root, "crates")):
        dirs[:] = sorted(d for d in dirs if d != "out")
        for f in sorted(names):
            if f.endswith(ends):
                yield os.path.join(folder, f)


def read(p):
    with open(p, encoding="utf-8") as f:
        return f.read()


def snake(part):
    part = re.sub(r"([a-z0-9])([A-Z])", r"\1_\2", part)
    return part.lower()


def turned(name, in_specs, specs):
    """The new spelling of a declared name. A lemma's dash joins names: those of specs are turned inside it."""
    if name in BY_HAND:
        return BY_HAND[name]
    if CASES.match(name) or name.startswith("◌"):
        return name
    if name[0].isupper():
        if in_specs and "-" in name and not re.match(r"[A-Z]-", name):
            return "".join(p[0].upper() + p[1:] for p in name.split("-"))
        return name
    parts = ["get_or" if p == "getD" else snake(p) if re.match(r"[a-z][a-z0-9]*[A-Z]", p) else p for p in name.split("-")]
    if in_specs:
        return "_".join(parts)
    words, olds, i = [], name.split("-"), 0
    while i < len(parts):
        k = next((k for k in range(len(parts), i + 1, -1) if "-".join(olds[i:k]) in specs), i + 1)
        words.append("_".join(parts[i:k]))
        i = k
    return "-".join(words)


def mapping(root):
    specs, own = set(), set()
    for p in files(root, ".antt"):
        inside = "/specs/" in p
        if p.endswith("/Proof.antt"):
            continue
        for line in read(p).splitlines():
            m = DECLARED.match(line)
            if m:
                (specs if inside else own).add(m[1])
    new = {}
    for n in specs | own:
        t = turned(n, n in specs, specs)
        if t != n:
            new[n] = t
    new.update(BY_HAND)
    return new


def main(argv):
    root = "."
    new = mapping(root)
    if argv == ["--list"]:
        words = collections.Counter()
        for p in files(root, (".antt", ".rt", ".edit")):
            words.update(WORD.findall(read(p)))
        back = collections.defaultdict(list)
        for a, b in sorted(new.items()):
            back[b].append(a)
        for b, olds in sorted(back.items()):
            print(b, "<-", *olds, "TOGETHER" if len(olds) > 1 or (words[b] and b not in new) else "", words[b] or "")
        return 0
    for p in files(root, (".antt", ".rt", ".edit")):
        t = read(p)

        def turn(text):
            return WORD.sub(lambda m: new.get(m[0], m[0]), text)

        if p.endswith(".antt"):
            u = turn(t)
        elif p.endswith(".edit"):
            u = turn(t) if "file: specs/" in t or "file: proofs/" in t else t
        else:
            u = ghost(t, turn)
        if u != t:
            with open(p, "w", encoding="utf-8") as f:
                f.write(u)
    pages = ["README.md"] + sorted(os.path.join("docs", f) for f in os.listdir("docs") if f.endswith(".md"))
    for p in pages:
        t = read(p)
        u = re.sub(r"`[^`\n]+`", lambda m: WORD.sub(lambda w: new.get(w[0], w[0]), m[0]), t)
        if u != t:
            with open(p, "w", encoding="utf-8") as f:
                f.write(u)
    return 0


def ghost(t, turn):
    """Clauses and ghost lines of a .rt file turned, and nothing else."""
    out, i = [], 0
    for m in re.finditer(r"(?m)^\s*(?:pub )?ghost [^;{]*(?:\{[^}]*\})?[^;]*;|\b(?:requires|ensures)\*?(?: \w+)? \{", t):
        if m.start() < i:
            continue
        if m[0].endswith("{"):
            depth, k = 1, m.end()
            while depth:
                depth += (t[k] == "{") - (t[k] == "}")
                k += 1
            out += [t[i : m.end()], turn(t[m.end() : k])]
            i = k
        else:
            out += [t[i : m.start()], turn(m[0])]
            i = m.end()
    return "".join(out) + t[i:]


if __name__ == "__main__":
    raise SystemExit(main(sys.argv[1:]))
