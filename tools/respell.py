#!/usr/bin/env python3
"""Brings the repository's own definitions and lemmas to today's spelling; run once, right after the toolchain's port.py.

usage: python3 tools/respell.py [--dry]      at the top of the repository

Words (functions, lemmas, fields, constructors) become snake case; types and modules keep their capital. A dash stays where it joins two
names (of definitions here, or of the library's words in LIBRARY); elsewhere it becomes an underscore. Names of one capital letter or with
one in front (C, P, Q of the elementary functions, and lemmas on them) stay. What Rattle's own names are (goals, fields of a context) is
not defined in a file, and so not in the table. It rewrites .antt and .rt below crates/, must-fail/*.edit, and names in backticks of *.md.
With --dry it prints the table and the names that would fall together, and writes nothing.
"""

import collections
import os
import re
import sys

# Where a lemma would get the name of a definition (a proof of a Rattle function is no lemma of a file, so its goals are left out).
LEMMAS = set("column-at column-end infinity-bits lone-product misses-node number-at significand-of size-at sign-bit square-residual".split())
# The same for lemmas that have the spelling already, by where they stand: elsewhere the name is a function's.
LEMMAS_AT = {"named_count": "crates/node_ring/proofs/", "same_number": "crates/shape_return/proofs/Laws.antt", "too_large": "crates/display/proofs/"}
LIBRARY = set("length append take drop set get_or map reverse sum tabulate add sub mul div lt le fma sqrt root fin inf nan neg abs min max eqb ltb leb cond not and or mod".split())
PREFIX = r"(?:(?:pub|abbrev|unfoldable|private|instance|ghost)\s+)*"
TOKEN = r"[^\s(){}\[\],;.@\"`:|=\\/#…]+"
SIGNATURE = re.compile(r"^\s*" + PREFIX + "(" + TOKEN + r")\s+:\s")
RECORD_OPEN = re.compile(r"^\s*" + PREFIX + r"(?:record|data)\s")


def files(*endings):
    for folder, dirs, names in os.walk("."):
        dirs[:] = sorted(d for d in dirs if d not in ("out", ".git", "target", "build", "demo"))
        for n in sorted(names):
            if n.endswith(endings):
                yield os.path.join(folder, n)


def read(path):
    with open(path, encoding="utf-8") as f:
        return f.read()


def snake(part):
    part = re.sub(r"([a-z0-9])([A-Z])", r"\1_\2", part)
    return part.lower() if re.search(r"_[A-Z]", part) else part


def defined(below=""):
    """The names that a file's signatures define; a Proof.antt has Rattle's own beside them, and is left out."""
    names = set()
    for p in files(".antt"):
        if not p.startswith("./crates/") or p.endswith("/Proof.antt") or below not in p:
            continue
        for line in read(p).splitlines():
            if line.lstrip().startswith("--"):
                continue
            m = SIGNATURE.match(line)
            if m and "◌" not in m.group(1):
                names.add(m.group(1))
    return names


def table(names):
    """Old to new, for each name that changes."""
    plain = {}
    for n in names:
        if re.match(r"[a-z_]", n) and "-" not in n and re.search(r"[a-z0-9][A-Z]", n):
            plain[n] = snake(n)
    words = {plain.get(n, n) for n in defined("/specs/") if "-" not in n and len(n) > 2} | LIBRARY
    out = dict(plain)
    for n in names:
        if "-" not in n.strip("-") or not re.match(r"[A-Za-z_]", n):
            continue
        parts = [p if re.match(r"[A-Z]", p) else snake(p) for p in n.split("-")]
        new = parts[0]
        for a, b in zip(parts, parts[1:]):
            joined = a in words and b in words or re.match(r"[A-Z]", a) is not None and a in names
            new += ("-" if joined else "_") + b
        if new != n:
            out[n] = new
    for n in LEMMAS:
        out[n] = snake(n).replace("-", "_") + "_lem"
    return out


def turned(text, names):
    return re.sub(TOKEN, lambda m: names.get(m.group(0), m.group(0)), text)


def from_libraries(text):
    """The names that a file imports from the toolchain's modules: they are not ours to respell there."""
    own = set(os.listdir("crates"))
    out = set()
    for module, listed in re.findall(r"^\s*(?:ghost |pub )?use\s+([^\s{]+)\.\{([^}]*)\}", text, re.M):
        parts = module.split(".")
        if not (parts[0] == "Rattle" and len(parts) > 1 and parts[1] in own):
            for it in listed.split(","):
                out.update(it.split(" as "))
    return {n.strip() for n in out}


def main(argv):
    names = defined()
    new = table(names)
    together = collections.defaultdict(set)
    for old, to in new.items():
        together[to].add(old)
        if to in names and to not in new:
            together[to].add(to)
    together = {to: olds for to, olds in together.items() if len(olds) > 1}
    if "--dry" in argv:
        for old in sorted(new):
            print(old, new[old])
        for to, olds in sorted(together.items()):
            print("together:", to, *sorted(olds))
        return 0
    code = {old: to for old, to in new.items() if old not in LEMMAS}
    for p in files(".antt", ".rt", ".edit"):
        if p.startswith("./crates/"):
            text = read(p)
            here = {n: n + "_lem" for n, at in LEMMAS_AT.items() if at in p}
            library = from_libraries(text)
            names_here = new | here if p.endswith(".antt") else code
            to = turned(text, {old: it for old, it in names_here.items() if old not in library})
            if to != text:
                with open(p, "w", encoding="utf-8") as f:
                    f.write(to)
    for p in files(".md"):
        text = read(p)
        to = re.sub(r"`[^`\n]+`", lambda m: turned(m.group(0), new), text)
        if to != text:
            with open(p, "w", encoding="utf-8") as f:
                f.write(to)
    print(f"{len(new)} names respelled")
    return 0


if __name__ == "__main__":
    raise SystemExit(main(sys.argv[1:]))
