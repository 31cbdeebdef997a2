#!/usr/bin/env python3
"""Sets the promises of two trees side by side (docs/DESIGN-PASS.md): design_compare.py OLD NEW [functions|definitions|laws]..

OLD's names are first spelled as NEW spells them (RENAMED): what is left is what changed beside the names. Functions with their clauses from
crates/*/src, definitions from specs/, laws and theorems from proofs/*.antt. Prints what is gone, and what changed, old above new.
"""
import glob
import os
import re
import sys

# Old spelling, new spelling; in this order. Over text whose runs of spaces are one space.
RENAMED = [
    (r"\b(?:Parseds|Places|Place|Writtens|Written|Parsed)\.(?:Refused|At|End)\b", lambda m: "Err" if m.group(0).endswith("Refused") else "Ok"),
    (r"\bSections\.Refused\b", "Err"),
    (r"(?<![\w.])Refused\b(?! ?\()", "Err"),
    (r"(?<![\w.])At\b", "Ok"),
    (r"\b(?:label|lines|line|shape)\.Absent\b", "None"),
    (r"\b(?:lines|line)\.Present\b|\bshape\.Index\b|(?<![\w.])Index\b", "Some"),
    (r"(?<![\w.])Absent\b", "None"),
    (r"\bLineTable\.Present\b|\bLabel\.At\b", "Some"),
    (r"\bExtents?\.Section\b", "Some"),
    (r"(?<![\w.])Buffer\b|\bExtents?\.Buffer\b", "None"),
    (r"\b(?:U8|U16|U32|Count)Taken\b", "Taken ℕ"),
    (r"\bI16Taken\b", "Taken ℤ"),
    (r"\bString24Taken\b", "Taken (FixedString 24)"),
    (r"\bString8Taken\b", "Taken (FixedString 8)"),
    (r"\bVector2Taken\b", "Taken Vector2f"),
    (r"\bVector3Taken\b", "Taken Vector3f"),
    (r"\bColorTaken\b", "Taken Color4u8"),
    (r"\bColorsTaken\b", "Taken (List Color4u8)"),
    (r"\bSidesTaken\b", "Taken Sides"),
    (r"\bShapeTaken\b", "Taken ShapeIndex"),
    (r"\bFixedString(24|8)\b", r"FixedString \1"),
    (r"\bstring(24|8)_taken\b", r"fixed_string_taken \1"),
    (r"\bstring(24|8)_of\b", r"string_of \1"),
    (r"\bparsed_of ", ""),
    (r"(?<![\w.])Parsed\b", "Place"),
    (r"(?<![\w.])(?:Is|Utf16\.Unpaired|Unpaired)\b", "Some"),
    (r"(?<![\w.])(?:Other|WellFormed)\b", "None"),
    (r"\bUtf16\b", "Option ℕ"),
    (r"\bOrderFound\b", "Option ByteOrder"),
    (r"\bChecked\.Good\b|(?<![\w.])Good\b", "good"),
    (r"\bPaneTaken\b", "Taken Pane"),
    (r"\bMaterialTaken\b", "Taken Material"),
    (r"\bAlignmentTaken\b", "Taken AlignmentPane"),
    (r"\bContentTaken\b", "Taken WindowContent"),
    (r"\bFrameTaken\b", "Taken WindowFrame"),
    (r"\bFontTaken\b", "Taken TextFont"),
    (r"\bShadowTaken\b", "Taken TextShadow"),
    (r"\bFixedTaken\b", "Taken TextFixed"),
    (r"\bTextTaken\b", "Taken TextFound"),
    (r"\bLabelTaken\b", "Taken Label"),
    (r"\bLinesTaken\b", "Taken LinesFound"),
    (r"\bPictureTaken\b", "Taken PictureFound"),
    (r"\bTextBoxTaken\b", "Taken TextBoxFound"),
    (r"\bWindowTaken\b", "Taken WindowFound"),
    (r"\b(Picture|TextBox|Window)Measured\b", r"Taken Measured \1Found"),
    (r"\bAlignmentMeasured\b", "Taken Measured AlignmentPane"),
    (r"\bPaneParsed\b", "Parsed Unit {0}"),
    (r"\b(Picture|TextBox|Window|Alignment)Parsed\b", r"Parsed \1Pane"),
    (r"\b1 2040\b", "Quads 2040"),
    (r"\b2 32767\b", "Units 32767"),
    (r"\b3 510\b", "Lines 510"),
    (r"\b4 510\b", "Frames 510"),
    (r"\bBadName 1\b", "BadName PaneName"),
    (r"\bBadName 2\b", "BadName UserName"),
    (r"\bBadName 3\b", "BadName Label"),
]


def plain(text):
    return re.sub(r"\s+", " ", text).strip()


def mapped(text):
    for old, new in RENAMED:
        text = re.sub(old, new, text)
    return text


def loose(text):
    """Without what a change of spelling adds: parentheses, and Ok before a section that was found."""
    text = re.sub(r"[()]", "", text)
    text = re.sub(r"\bOk (?=Sections?\.|End\b|Passed\b|Pane\b)", "", text)
    text = text.replace("SectionAnswer", "Section")
    return plain(text)


def functions(tree):
    found = {}
    for path in sorted(glob.glob(tree + "/crates/*/src/*.rt")):
        crate = path[len(tree) :].split("/")[2]
        text = open(path, encoding="utf-8").read()
        owner = ""
        for m in re.finditer(r"^impl(?:<[^>]*>)? ([^\n{]+) \{|^pub trait (\w+)|^\}|^( *)(pub(?:\(crate\))? )?(?:extern \"C\" )?fn (\w+).*?(?=^ *\{|;$| \{$)", text, re.M | re.S):
            if m.group(1) or m.group(2):
                owner = (m.group(1) or m.group(2)) + "::"
            elif m.group(0) == "}":
                owner = ""
            elif m.group(4) or owner.find(" for ") > 0 or owner:
                if m.group(4) == "pub " or " for " in owner:
                    found[f"{crate} {owner}{m.group(5)}"] = plain(m.group(0))
    return found


def blocks(paths, tree, start):
    found = {}
    for path in paths:
        crate = path[len(tree) :].split("/")[2]
        lines = open(path, encoding="utf-8").read().split("\n")
        i = 0
        while i < len(lines):
            m = re.match(start, lines[i])
            if not m:
                i += 1
                continue
            name = m.group("name")
            j = i + 1
            while j < len(lines) and lines[j].strip() and not re.match(start, lines[j]) and not lines[j].lstrip().startswith("--"):
                j += 1
            found[f"{crate} {name}"] = plain(" ".join(lines[i:j]))
            i = j
    return found


def definitions(tree):
    paths = sorted(p for p in glob.glob(tree + "/crates/*/specs/**/*.antt", recursive=True))
    return blocks(paths, tree, r"(?:abbrev pub|unfoldable pub|pub record|pub data|abbrev|unfoldable) (?P<name>[\w'◌-]+)")


def laws(tree):
    """The statements of public laws: from `pub name :` to the line that gives the proof."""
    found = {}
    for path in sorted(glob.glob(tree + "/crates/*/proofs/*.antt")):
        crate = path[len(tree) :].split("/")[2]
        module = os.path.basename(path)[:-5]
        lines = open(path, encoding="utf-8").read().split("\n")
        for i, line in enumerate(lines):
            m = re.match(r"( *)pub (?:record )?(?P<name>[\w'-]+) (?=[:({])", line)
            if not m:
                continue
            j = i + 1
            own = re.compile(r" *(unfolding|" + re.escape(m.group("name")) + r")\b")
            while j < len(lines) and lines[j].strip() and not own.match(lines[j]) and not re.match(r" *pub \w+ :", lines[j]):
                j += 1
            found[f"{crate} {module} {m.group('name')}"] = plain(" ".join(lines[i:j]))
    return found


def show(kind, old, new):
    gone = [k for k in old if k not in new]
    changed = [k for k in old if k in new and loose(mapped(old[k])) != loose(new[k])]
    same = len(old) - len(gone) - len(changed)
    print(f"## {kind}: {len(old)} then, {len(new)} now; {same} the same but for the names, {len(changed)} changed, {len(gone)} gone or elsewhere, {len([k for k in new if k not in old])} new\n")
    for k in gone:
        print(f"- gone or elsewhere: {k}")
    print()
    for k in changed:
        print(f"- {k}\n  - `{old[k]}`\n  - `{new[k]}`")
    print()


def main():
    old, new = sys.argv[1:3]
    wanted = sys.argv[3:] or ["functions", "definitions", "laws"]
    for kind in wanted:
        show(kind, globals()[kind](old), globals()[kind](new))


main()
