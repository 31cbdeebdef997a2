#!/usr/bin/env python3
"""Counts the places of issue 34's points in a tree (docs/DESIGN-PASS.md): design_places.py [-v] [POINT..]

Each row is a pattern over crates/*/src/*.rt (or over the proofs, for point 8). With -v the places are listed, with POINTs only those points.
The patterns find candidates: what is kept, and why, stands in docs/DESIGN-PASS.md.
"""
import glob
import re
import sys
from collections import defaultdict


def sources():
    for path in sorted(glob.glob("crates/*/src/*.rt")):
        yield path, open(path, encoding="utf-8").read()


def lines_of(pattern):
    """The places of a pattern that lies within a line, comments left out."""
    rx = re.compile(pattern)
    found = []
    for path, text in sources():
        for number, line in enumerate(text.split("\n"), 1):
            code = line.split("//")[0]
            if rx.search(code):
                found.append(f"{path}:{number}: {line.strip()}")
    return found


FUNCTION = re.compile(r"^( *)(pub(?:\([a-z]+\))? )?(?:extern \"C\" )?fn (\w+)", re.M)


def functions():
    """Each function with its signature, clauses and body."""
    for path, text in sources():
        starts = [(m.start(), m.group(3), m.group(1)) for m in FUNCTION.finditer(text)]
        for at, name, indent in starts:
            opened = re.compile(r"^" + indent + r"(?:\{\}|\})|^.*\{ \}$", re.M)
            close = re.compile(r"^" + indent + r"\}|^" + indent + r"\{\}", re.M).search(text, at)
            if close:
                yield path, name, text[at : close.end()]


def parts(text):
    """A function without its ensures, and the body alone."""
    head, _, body = text.partition("\n{")
    return head, body


TYPE = r"\b(?:u8|u16|u32|u64|i16|i32|usize|Pane|PicturePane|TextBoxPane|WindowPane|AlignmentPane|Pan1|Pic1|Txt1|Wnd1|Ali1)\b"


def twins():
    """Functions of five lines or more that are one another but for types, numbers and names."""
    alike = defaultdict(list)
    for path, name, text in functions():
        head, body = parts(text)
        if body.count("\n") < 2:
            continue
        code = re.sub(r"//[^\n]*", "", body)
        names = {}

        def canonical(m):
            word = m.group(0)
            if word in ("let", "mut", "if", "else", "match", "return", "while", "for", "in", "as", "true", "false", "Some", "None", "Ok", "Err"):
                return word
            return "n"

        shape = re.sub(r"\b[A-Za-z_]\w*(?:::\w+)*\b|\b\d[\w]*\b", canonical, code)
        shape = re.sub(r"\s+", " ", shape)
        kinds = tuple(re.findall(r"&mut |&|\[", head))
        if len(shape) >= 40:
            alike[shape].append(f"{path}: fn {name}")
    found = []
    for group in alike.values():
        if len(group) > 1:
            found.append(" = ".join(group))
    return found


def repeated_facts():
    """A requires clause that stands in three functions or more."""
    facts = defaultdict(list)
    for path, name, text in functions():
        for clause in re.findall(r"requires(?: \w+)? \{ (.*?) \}$", text, re.M):
            facts[clause].append(f"{path}: fn {name}")
    return [f"{len(where)} x {clause}" for clause, where in sorted(facts.items(), key=lambda x: -len(x[1])) if len(where) > 2]


def travelling(*names):
    """Functions that take all of these parameters."""
    found = []
    for path, name, text in functions():
        signature = text.split(")")[0]
        if all(re.search(r"\b" + n + r": ", signature) for n in names):
            found.append(f"{path}: fn {name}")
    return found


def proof_lines(pattern):
    found = []
    for path in sorted(glob.glob("crates/*/proofs/**/*.antt", recursive=True)):
        rx = re.compile(pattern)
        for number, line in enumerate(open(path, encoding="utf-8"), 1):
            if rx.search(line):
                found.append(f"{path}:{number}")
    return found


def shaped_enums():
    """Enums of two cases of which one has no field or is a refusal: the shape of Option or Result."""
    found = []
    for path, text in sources():
        for m in re.finditer(r"^(?:pub(?:\([a-z]+\))? )?enum (\w+) \{\n(.*?)^\}", text, re.M | re.S):
            cases = re.findall(r"^    (\w+)( ?[({].*?)?(?:,$|\{$)", m.group(2), re.M)
            refused = "Refused" in m.group(2)
            bare = [c for c in cases if not c[1]]
            if refused or (len(cases) == 2 and len(bare) == 1):
                found.append(f"{path}: enum {m.group(1)}")
    return found


ROWS = [
    ("1", "own enums of the shape of Option or Result", shaped_enums),
    ("1", "structs of a value beside a place that may be refused", lambda: lines_of(r"^    pub then: ")),
    ("1", "a run that may be refused as a parameter", lambda: lines_of(r"\b(p|start): (Place|Result<Cursor, Refusal>)")),
    ("1", "structs of an answer beside a record", lambda: lines_of(r"^    pub answer: ")),
    ("1", "a number that says that there is none", lambda: lines_of(r"^\s*return (0|16);|^    16$")),
    ("1", "numbers for kinds: parameters and fields", lambda: lines_of(r"\b(which|number|kind): (u8|u64|usize)\b")),
    ("1", "a flag of a state in a struct", lambda: lines_of(r"^    pub (bad|begun|more|failed): bool")),
    ("2", "groups of functions that are alike but for names, types and numbers", twins),
    ("2", "types of a width or a number type", lambda: lines_of(r"struct (FixedString\d+|U8Taken|U16Taken|U32Taken|I16Taken|String\d+Taken|Vector[23]Taken|ColorTaken|ColorsTaken|SidesTaken|CountTaken)\b")),
    ("2", "functions of a width or a number type", lambda: lines_of(r"fn \w*(?:_?u8|_?u16|_?u32|_?i16|16|32|24|string8)s?\b")),
    ("3", "loops that count by hand", lambda: lines_of(r"^\s*(while|loop)\b")),
    ("3", "loops over items", lambda: lines_of(r"^\s*for |\.(iter|iter_mut|chunks_exact|chunks_exact_mut|zip|position|any|all|copy_from_slice|fill)\(")),
    ("4", "conversions by a function of its own", lambda: lines_of(r"fn (decode|encode|number|flag|value|of_value|bit|bool_byte|signed_of|bits_of|kind_of|order_of|of_letters|letters)\b")),
    ("4", "conversions by From or TryFrom", lambda: lines_of(r"^impl (From|TryFrom)<")),
    ("4", "types with no derive but Clone and Copy", lambda: lines_of(r"^#\[derive\(Clone, Copy\)\]")),
    ("4", "printing by hand", lambda: lines_of(r"fn (put_decimal|put_figure|put_number|put_numbers|put_hexadecimal|put_hex_digits|print_\w+|show\w*)\b")),
    ("5", "requires that stand in three functions or more", repeated_facts),
    ("5", "functions that take order and data", lambda: travelling("order", "data")),
    ("5", "functions that take quads, units, lines and frames", lambda: travelling("quads", "units", "lines", "frames")),
    ("5", "functions that take out and p", lambda: travelling("out", "p")),
    ("5", "functions that take out and place", lambda: travelling("out", "place")),
    ("6", "bytes with a count beside them", lambda: lines_of(r"^    pub count: usize|^    pub digits: usize")),
    ("7", "enums that choose a step", lambda: lines_of(r"enum Printed\b")),
    ("8", "lines of proofs of functions", lambda: proof_lines(r"") and [p for p in proof_lines(r"\S") if re.search(r"proofs/.*/(Answers|Invariants)\.antt", p)]),
    ("8", "answers", lambda: proof_lines(r"^pub [\w-]+ : goal\.")),
    ("8", "lines of laws", lambda: [p for p in proof_lines(r"\S") if not re.search(r"/(Answers|Invariants)\.antt", p)]),
]


def main():
    words = sys.argv[1:]
    verbose = "-v" in words
    points = [w for w in words if w != "-v"]
    for point, name, find in ROWS:
        if points and point not in points:
            continue
        found = find()
        print(f"{point}  {len(found):5}  {name}")
        if verbose and point != "8":
            for place in found:
                print(f"            {place}")


main()
