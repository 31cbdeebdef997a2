#!/usr/bin/env python3
"""Checks that each must-fail edit applies: every `old:` text stands exactly once in its file, counted after the pairs before it, as rt applies
them, and something is changed; and that nothing but edits and notes (.md) stands in must-fail/, right in it, as rt wants. Prints a line for each that
does not and exits 1. Whether the edited text can be read, and is refused, only rt tells. Run it from anywhere; it proves nothing."""
import re
import sys
from pathlib import Path

CRATES = Path(__file__).resolve().parent.parent / "crates"


def fault(crate, edit):
    """Why an edit does not apply, or None. An `old:` and a `new:` text are a line each; a `file:` line holds for the pairs after it."""
    texts, was, file, old, pairs = {}, {}, "", "", 0
    for line in edit.read_text().split("\n"):
        if line.startswith("file: "):
            file = line[6:]
        elif line.startswith("old: "):
            old = line[5:]
        elif line.startswith("new:"):
            if file.split("/")[0] not in ("src", "specs", "proofs") or ".." in file.split("/") or not (crate / file).is_file():
                return f"no file of the crate: {file or 'none is named'}"
            text = texts.get(file) or was.setdefault(file, (crate / file).read_text())
            count = text.count(old) if old else 0
            if count != 1:
                return f"{count} times in {file}: {old}"
            texts[file] = text.replace(old, line[4:].removeprefix(" "))
            old, pairs = "", pairs + 1
    if not pairs:
        return "no old: and new: pair"
    return "it changes nothing" if texts == was else None


def main():
    edits = sorted(CRATES.glob("*/must-fail/*.edit"))
    bad = 0
    for path in sorted(CRATES.glob("*/must-fail/**/*")):
        edit = path.parent.name == "must-fail" and re.fullmatch(r"[A-Za-z0-9_-][A-Za-z0-9_.-]*\.edit", path.name)
        if path.is_file() and path.suffix != ".md" and not edit:
            print(f"{path.relative_to(CRATES)}: no edit that rt reads")
            bad += 1
    for edit in edits:
        crate = edit.parent.parent
        why = fault(crate, edit)
        if why:
            print(f"{crate.name}/{edit.stem}: {why}")
            bad += 1
    if bad:
        sys.exit(1)
    print(f"{len(edits)} edits, each applies")


if __name__ == "__main__":
    main()
