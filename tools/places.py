#!/usr/bin/env python3
"""places.py [FOLDER] [-v]: counts, in the sources of a checkout, the places that docs/DESIGN-PASS.md speaks of, point by point; -v prints them."""
import collections, glob, os, re, sys

arguments = [a for a in sys.argv[1:] if a != "-v"]
verbose = "-v" in sys.argv
top = arguments[0] if arguments else "."
sources = sorted(glob.glob(os.path.join(top, "crates/*/src/*.rt")))
interface = re.compile(r"crates/screens_(panels|meshes|assembly|assembly_c)/")


def functions(path):
    """Each function of a file: its name, its line, its signature with clauses, its body."""
    text = open(path).read()
    for m in re.finditer(r'^( *)(?:pub )?(?:extern "C" )?fn (\w+)', text, re.M):
        end = text.find("\n" + m.group(1) + "}\n", m.end())
        part = text[m.start() : end if end >= 0 else len(text)]
        cut = part.find("\n" + m.group(1) + "{")
        if cut >= 0:
            yield m.group(2), text.count("\n", 0, m.start()) + 1, part[:cut], part[cut:]


def shape(text):
    """A function without its clauses, its names numbered as they come, its numbers and strings left out."""
    text = re.sub(r"//.*", "", text)
    text = re.sub(r"\b(requires|ensures)\b.*", "", text)
    text = re.sub(r'b?"[^"]*"', "S", text)
    text = re.sub(r"\b0x[0-9a-f_]+\b|\b\d[\d_.e+-]*(?:usize|u64|f64|u8)?\b", "N", text)
    seen, words = {}, set("fn let mut if else while for in return match as true false pub self N S".split())

    def named(m):
        w = m.group(0)
        if w in ("f64", "u64", "u32", "u8", "usize"):
            return "T"
        return w if w in words else seen.setdefault(w, "v%d" % len(seen))

    return re.sub(r"\s+", "", re.sub(r"[A-Za-z_]\w*", named, text))


def lines(pattern, skip=None):
    found = []
    for path in sources:
        if skip and skip.search(path):
            continue
        for n, line in enumerate(open(path), 1):
            if re.search(pattern, line) and not line.lstrip().startswith("//"):
                found.append("%s:%d: %s" % (os.path.relpath(path, top), n, line.strip()))
    return found


def of_functions(test):
    return ["%s:%d: %s" % (os.path.relpath(p, top), n, name) for p in sources for name, n, s, b in functions(p) if test(p, name, s, b)]


def twins():
    groups = collections.defaultdict(list)
    for path in sources:
        for name, n, signature, body in functions(path):
            if len(re.findall(r"\S", body)) >= 40:
                groups[shape(signature + body)].append("%s:%d: %s" % (os.path.relpath(path, top), n, name))
    return [place for group in groups.values() if len(group) > 1 for place in group]


rows = [
    ("1 an enum or a struct of the shape of Option or Result", lines(r"^    pub refusal: u32|^    ok: bool,|^    Unknown,$")),
    ("1 a function that answers a refusal by its number, the C functions aside", of_functions(lambda p, name, s, b: re.search(r"\) -> u32$", s, re.M) and not interface.search(p) and name not in ("rule_of", "number", "number_of", "hand_out"))),
    ("1 a constant for a refusal's number", lines(r"^pub const [A-Z_]+: u32 = ")),
    ("1 a number that stands for none", lines(r"(== |^    )(shape_store::)?PLACES$|== (shape_store::)?PLACES|kind: 128|kind > 127")),
    ("1, 7 a kind by its number, tested one by one", lines(r"if kind == [0-9]+|which == ")),
    ("2 functions of one shape", twins()),
    ("3 a loop that counts an index by hand", lines(r"^ *while ")),
    ("3 a loop over 0..n", lines(r"^ *for \w+ in \(?0\.\.")),
    ("4 equality, order, copying or conversion by hand", of_functions(lambda p, name, s, b: re.fullmatch(r"alike|opposite|choose|same_\w+|copied\w*|put_numbers|joined|vector|coordinates\w*|triangle|minus_sign|negative|lengths_differ|kind|word_at|place_at|number_at", name))),
    ("5 a function with the six columns of a mesh one by one", of_functions(lambda p, name, s, b: "t0: &" in s and "t2: &" in s)),
    ("5 a function with the coordinates of seven points one by one", lines(r"^    x: \[f64; MAX_POINTS\]|\(x: \[f64; MAX_POINTS\], y")),
    ("5 a function with two words of a number one by one", of_functions(lambda p, name, s, b: re.search(r"\b(\w?)h[i]?: u64, \1l[o]?: u64", s))),
    ("5 a function with the five parts of a store one by one", of_functions(lambda p, name, s, b: "names: &" in s and "sz: &" in s)),
    ("5 a contract with a fact on a mesh's columns", lines(r"(NodeColumnsAlike|PanelColumnsAlike|NoneMissing) \(")),
    ("6 three vectors or a panel as single numbers in an array, the C functions aside", lines(r"\[f64; 9\]|\[f64; PANEL_NUMBERS\]", interface)),
    ("8 answers in proofs", [m for f in glob.glob(os.path.join(top, "crates/*/proofs/**/Answers.antt"), recursive=True) for m in re.findall(r"^pub [^\n:]+ : goal\.", open(f).read(), re.M)]),
]
for name, found in rows:
    print("%5d  %s" % (len(found), name))
    if verbose:
        for place in found:
            print("         " + place)
