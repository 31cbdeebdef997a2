#!/usr/bin/env python3
"""The names of this repository in the spelling of today's Rattle. Run at the top, once before and once after /opt/rattle/port/port.py.

    tools/port_names.py before    the crate `core`, which is a name of the toolchain's own library now, becomes `core_read`
    tools/port_names.py after     definitions and lemmas are in snake case, as those are that port.py renames; where two would fall together, the
                                  second, a lemma, gets `_lem`
"""
import os
import re
import subprocess
import sys


def files(*ends):
    for top, folders, names in os.walk("crates"):
        folders[:] = [f for f in folders if f != "out"]
        for name in names:
            if name.endswith(ends):
                yield os.path.join(top, name)


def rewrite(path, change):
    with open(path, encoding="utf-8") as f:
        old = f.read()
    new = change(old)
    if new != old:
        with open(path, "w", encoding="utf-8") as f:
            f.write(new)


def before():
    subprocess.run(["git", "mv", "crates/core", "crates/core_read"], check=True)

    def change(text):
        text = re.sub(r"Rattle·core(?=[.·])", "Rattle·core_read", text)
        text = re.sub(r"\bcore::", "core_read::", text)
        return re.sub(r"\bextern crate core\b", "extern crate core_read", text)

    for path in files(".rt", ".antt", ".edit"):
        rewrite(path, change)
    rewrite("crates.txt", lambda text: re.sub(r"(?m)^(?!#)(.*)$", lambda m: re.sub(r"\bcore\b", "core_read", m.group(1)), text))


# ---- after port.py: definitions and lemmas in snake case

NAME = r"[^\s(){}\[\].;,@\"«»`]+"
TOKEN = re.compile(NAME)
DECLARED = re.compile(r"(?m)^ *(?:(?:pub|abbrev|unfoldable) )*(" + NAME + r")(?: \{[^{}\n]*\})* :(?= )")
HEADED = re.compile(r"(?m)^ *(?:(?:pub|abbrev|unfoldable) )*(?:record|data) (" + NAME + ")")
GOAL = re.compile(r"(?m)^(?:abbrev )?(" + NAME + r") : (?:tie\.|\{M : )")
CAMEL = re.compile(r"[a-z][A-Za-z0-9]*[a-z0-9][A-Z][A-Za-z0-9]*'*")
# not a name of a definition: generated from a Rust path, or hexadecimal digits in a comment
NOT_OURS = re.compile(r"x[0-9A-F]{2}|xHH|.*-reads")


# lemmas that port.py gave a name that a definition is to have
GIVE_WAY = {"ascii_run": "ascii_run_lem", "flag_word": "flag_word_lem"}


def snake(name):
    return re.sub(r"(?<=[a-z0-9])[A-Z]", lambda m: "_" + m[0].lower(), name).replace("-", "_")


def names_in(path, text):
    """The names that one of ours could be taken for: no step of a path, no label of a record, and of Rust what a function is passed."""
    if path.endswith(".antt"):
        text = re.sub(r"--[^\n]*", "", text)
        text = re.sub(r"(?m)^use .*? as ", "", text)
        text = re.sub(r"(?m)^use [^{\n]*", "", text)
        return {m[0] for m in TOKEN.finditer(text) if text[m.start() - 1 : m.start()] != "." and not re.match(r" = [^\n]*;", text[m.end() :])}
    if path.endswith(".rt"):
        clauses = "\n".join(re.findall(r"(?m)^\s*(?:ghost \w+:|requires|ensures)[^{]*(.*)", text))
        return set(TOKEN.findall(clauses)) | set(re.findall(r"\b(\w+):(?!:)", text))
    return set(TOKEN.findall(text))


def renaming(texts):
    """Old name to new, of what the repository declares."""
    ours = {}
    for path, text in texts.items():
        if not path.endswith(".antt"):
            continue
        goals = set(GOAL.findall(text)) if path.endswith("/Proof.antt") else set()
        # a lemma that is not in specs/ and has cases or a proof gives way where names fall together
        for name in DECLARED.findall(text):
            if name in goals or NOT_OURS.fullmatch(name):
                continue
            if CAMEL.fullmatch(name) or ("-" in name and re.fullmatch(r"[a-z][\w'-]*", name)):
                ours.setdefault(name, set()).add(path)
    words = {path: names_in(path, text) for path, text in texts.items()}
    new = {}
    for name in sorted(ours, key=lambda n: ("-" in n, n)):
        to = snake(name)
        using = [path for path, found in words.items() if name in found]
        taken = {n for n, t in new.items() if t == to}
        if any(to in words[path] or words[path] & taken for path in using):
            print(f"fall together: {name} and {to}: {to}_lem")
            to += "_lem"
        new[name] = to
    return new


def respell(path, text, new):
    proof = path.endswith("/Proof.antt")

    def tokens(part, dashes):
        def one(m):
            name = m[0]
            if name not in new or ("-" in name and not dashes):
                return name
            if "-" in name and proof and m.start() and part[m.start() - 1] == ".":
                return name
            return new[name]

        return TOKEN.sub(one, part)

    lines = []
    for line in text.split("\n"):
        if path.endswith(".antt"):
            code, mark, said = line.partition("-- ")
            if mark and code.strip() and not code.endswith(" "):
                code, mark, said = line, "", ""
            said = re.sub(r"`[^`]*`", lambda m: "`" + tokens(m[0][1:-1], True) + "`", said)
            lines.append(tokens(code, True) + mark + tokens(said, False))
        elif path.endswith(".rt"):
            clause = re.match(r"\s*(ghost|requires|ensures)\b", line)
            lines.append(tokens(line, bool(clause)))
        else:
            lines.append(tokens(line, bool(re.match(r"(old|new):", line))))
    return "\n".join(lines)


def after():
    texts = {}
    for path in files(".rt", ".antt", ".edit"):
        with open(path, encoding="utf-8") as f:
            texts[path] = TOKEN.sub(lambda m: GIVE_WAY.get(m[0], m[0]), f.read())
    new = renaming(texts)
    for path, text in texts.items():
        said = re.sub(r"«(most|whole)[-_](quads|frames)»", r"\1_\2", respell(path, text, new))
        # a text in quotes is no name
        said = said.replace("per_character transform", "per-character transform")
        rewrite(path, lambda _: said)
    print(f"{len(new)} names")


if __name__ == "__main__":
    {"before": before, "after": after}[sys.argv[1]]()
