#!/usr/bin/env python3
"""Makes the constants of bindings/c/bidlomeqa.h from crates/flat/src/layout.rt, the one place that defines the layout.

Run it from anywhere. With --check it writes nothing and fails where the header is not what it would write.
"""
import re
import sys
from pathlib import Path

ROOT = Path(__file__).resolve().parent.parent
LAYOUT = ROOT / "crates/flat/src/layout.rt"
HEADER = ROOT / "bindings/c/bidlomeqa.h"
BEGIN = "/* ---- made from layout.rt by tools/c_header.py */\n"
END = "/* ---- end of what is made */\n"


def constants(text):
    """The layout's constants as C, each under its comment."""
    lines = []
    for line in text.splitlines():
        constant = re.fullmatch(r"pub const (\w+): (usize|u64) = (\w+);", line)
        if constant:
            name, kind, value = constant.groups()
            lines.append(f"#define BIDLOMEQA_{name} {value}{'u' if kind == 'u64' else ''}")
        elif line.startswith("//"):
            lines.append(f"/* {line[2:].strip()} */")
        elif line.strip():
            raise SystemExit(f"{LAYOUT}: not a constant: {line}")
        else:
            lines.append("")
    return "\n".join(lines).strip() + "\n"


def main():
    header = HEADER.read_text()
    before, rest = header.split(BEGIN)
    after = rest.split(END)[1]
    made = before + BEGIN + constants(LAYOUT.read_text()) + END + after
    if sys.argv[1:] == ["--check"]:
        if made != header:
            raise SystemExit("bindings/c/bidlomeqa.h is not what tools/c_header.py makes of layout.rt: run it")
    else:
        HEADER.write_text(made)


if __name__ == "__main__":
    main()
