#!/usr/bin/env python3
"""Drops what an Answers.antt or Invariants.antt imports and does not name, in each crate named: port_imports.py CRATE.. By text; the check says whether it was right."""
import os
import re
import sys

WORD = re.compile(r"[^\s(){}\[\].;,@\"«»`]+")


def uses(name, text, words):
    if name == "[]":
        return "[]" in text
    if "◌" not in name:
        return name in words
    parts = [p for p in name.split("◌") if p]
    return all(p in words or p in text for p in parts)


def turn(path):
    with open(path, encoding="utf-8") as f:
        text = f.read()
    lines = text.split("\n")
    rest = re.sub(r"--[^\n]*", "", "\n".join(x for x in lines if not x.startswith("use ")))
    words = set(WORD.findall(rest))
    out = []
    for line in lines:
        m = re.fullmatch(r"use (\S+)\.\{(.*)\}", line)
        alias = re.fullmatch(r"use \S+ as (\S+)", line)
        if m:
            names = [n.strip() for n in m[2].split(",")]
            kept = [n for n in names if uses(n.split(" as ")[-1], rest, words)]
            if kept:
                out.append(f"use {m[1]}.{{{', '.join(kept)}}}")
            continue
        if alias and alias[1] not in words:
            continue
        out.append(line)
    new = "\n".join(out).lstrip("\n")
    if new != text:
        with open(path, "w", encoding="utf-8") as f:
            f.write(new)
        return 1
    return 0


for crate in sys.argv[1:]:
    n = 0
    for top, _, names in os.walk(os.path.join(crate, "proofs")):
        for name in names:
            if name in ("Answers.antt", "Invariants.antt"):
                n += turn(os.path.join(top, name))
    print(f"{crate}: {n} files")
