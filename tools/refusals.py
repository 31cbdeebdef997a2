#!/usr/bin/env python3
"""Checks that the sentences of the refusals are the same in docs/REFUSALS.md, in the Rust crate (bindings/rust/src/refusal.rs) and, for those
that a page can give, in the definitions of the program page's lines (crates/page/specs/PageLine.antt), with the same figures at the same places there.
Prints what differs, and exits with 1 if anything does."""
import pathlib
import re
import sys

TOP = pathlib.Path(__file__).resolve().parent.parent
NAMES = {1: "TooLong", 2: "BadPlace", 3: "ShortList", 4: "UnexpectedEof", 5: "NoNul", 6: "PerCharacter", 7: "IllFormedUtf8", 8: "SectionSize", 9: "BadName",
         10: "Reserve0", 11: "ListLength", 12: "BadFlip", 13: "TextLength", 14: "IllFormedUtf16", 15: "NoLineBit", 16: "OutputEnd", 19: "PastSection"}
PAGE = [4, 5, 6, 7, 8, 19]  # those that a walk over a page can give


def bare(sentence):
    """The sentence with every figure as {}."""
    return re.sub(r"\{[^}]*\}", "{}", sentence)


def of_docs():
    rows = re.findall(r"^\| (\d+) \| ([^|]*) \|", (TOP / "docs/REFUSALS.md").read_text(), re.M)
    return {NAMES[int(number)]: sentence for number, sentence in rows}


def of_rust():
    text = (TOP / "bindings/rust/src/refusal.rs").read_text()
    text = text[text.index("impl fmt::Display"):]
    arms = re.findall(r"Self::(\w+)[^=]*=>[^\"]*write!\(\s*f,\s*\"([^\"]*)\"", text)
    return {name: bare(sentence) for name, sentence in arms}


def of_page():
    """By number: the definitions that `sentence` picks, `ascii ".."` for text, `decimal a` and `string_text b` for figures."""
    text = (TOP / "crates/page/specs/PageLine.antt").read_text()
    found = {}
    for number, name in re.findall(r"eqb number (\d+)\) \((\w+)", text):
        parts = re.search(rf"^{name} [ab ]*= (.*)$", text, re.M).group(1)
        found[NAMES[int(number)]] = "".join(words or "{%s}" % figure for words, figure in re.findall(r'ascii "([^"]*)"|\w+ ([ab])\b', parts))
    return found


def with_figures(sentence):
    """The page's sentence as docs/REFUSALS.md writes it: the string that figure b names is {string} there."""
    return sentence.replace("the {b} at", "the {string} at")


def main():
    named, rust, page = of_docs(), of_rust(), of_page()
    docs = {name: bare(sentence) for name, sentence in named.items()}
    faults = [name for name in NAMES.values() if docs.get(name) != rust.get(name)]
    faults += [name for name in page if named.get(name) != with_figures(page[name])]
    faults += [NAMES[number] for number in PAGE if NAMES[number] not in page]
    for name in faults:
        print(name, repr(named.get(name)), repr(rust.get(name)), repr(page.get(name)), sep="\n    ")
    print(f"{len(docs)} sentences of docs/REFUSALS.md, {len(rust)} of the Rust crate, {len(page)} of page, {len(faults)} differences")
    return 1 if faults or len(docs) != len(NAMES) else 0


sys.exit(main())
