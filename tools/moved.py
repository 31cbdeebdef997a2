#!/usr/bin/env python3
"""What a change moved: moved.py BASE [HEAD]. Compares the crates of two commits item by item (HEAD: the tracked files of the working tree, unless
a commit is named) and prints, in Markdown, how many items stayed as they were, which were changed, are new or are gone, and the lines that git
counts. Comments, imports and spaces of code, definitions and proofs are no change of an item; stored input and output go by their bytes. The
proof of a function is one item, the files of its folder together, and so is an edit."""
import collections
import io
import pathlib
import re
import subprocess
import sys
import tarfile

TOP = pathlib.Path(__file__).resolve().parent.parent
STORED = "stored input and output"
GROUPS = ["definitions", "contracts", "bodies of functions", "types and constants", "names passed on", "laws", "proofs of functions", "must-fail edits", STORED]
NAME = re.compile(r"(?:(?:pub|abbrev|unfoldable)\s+)*(?:(?:record|data)\s+)?([^\s:(){}=]+)(?:\s[^=]*?)?\s:\s")
ITEM = re.compile(r"(\s*)(?:pub(?:\(crate\))?\s+)?(?:extern \"C\"\s+)?(fn|struct|enum|const|type|impl)(?:<[^>]*>)?\s+(\w+)")
WORDS = re.compile(r"\s+")


def git(*arguments):
    return subprocess.run(["git", *arguments], cwd=TOP, check=True, capture_output=True).stdout


def text_of(data):
    return data.decode(errors="surrogateescape")


def files(commit):
    """The tracked paths below crates/ with their text, of a commit or of the working tree."""
    if commit is None:
        paths = text_of(git("ls-files", "crates")).split("\n")
        return {path: text_of((TOP / path).read_bytes()) for path in paths if (TOP / path).is_file()}
    with tarfile.open(fileobj=io.BytesIO(git("archive", commit, "crates"))) as tree:
        return {file.name: text_of(tree.extractfile(file).read()) for file in tree if file.isfile()}


def antt_blocks(text):
    """Each declaration of a file of definitions or laws: its name, and its signature and clauses without comments. One that stands in a module
    begins with the module's head, whose parameters it takes."""
    found, name, module, indent = collections.defaultdict(list), None, "", 0
    for line in text.split("\n"):
        bare = line.strip()
        if not bare or bare.startswith(("--", "use ", "pub mod ", "mod ")):
            continue
        depth = len(line) - len(line.lstrip())
        if depth == 0:
            module, indent = ("", None) if bare.startswith("module ") else ("", 0)
        elif indent is None and module.endswith(" where"):
            indent = depth
        if indent is None:
            module += " " + bare
            continue
        head = NAME.match(bare) if depth == indent else None
        if head or bare.startswith("infix"):
            name = head.group(1) if head else bare
            found[name].append(module)
        found[name].append(re.sub(r"\s--\s.*", "", line))
    return {name: "\n".join(lines) for name, lines in found.items()}


def ends(line, indent, what, first):
    """Whether a line is the last of an item: a closing brace under its head, or all of it on one line."""
    return line in (indent + "}", indent + "{}", indent + "];") or (line.endswith((";", "}")) and (first or what in ("const", "type")))


def code_items(text):
    """Each function of a file of code as contract and body, each type and constant, and each name that is passed on."""
    found, owner, lines, at = {}, "", text.split("\n"), 0
    for line in lines:
        if line.startswith("pub use "):
            several = re.fullmatch(r"(.*::)\{(.*)\};", line[8:])
            for name in [several.group(1) + it + ";" for it in several.group(2).split(", ")] if several else [line[8:]]:
                found["names passed on", name] = name
    while at < len(lines):
        head = ITEM.match(lines[at])
        if not head:
            at += 1
            continue
        indent, what, name = head.groups()
        if what == "impl":
            owner, at = name + "::", at + 1
            continue
        owner = owner if indent else ""
        end = at
        while not ends(lines[end], indent, what, end == at):
            end += 1
        start = at
        while start > 0 and lines[start - 1].strip().startswith("#["):
            start -= 1
        item = [re.sub(r"//.*", "", line) for line in lines[start:end + 1]]
        if what == "fn":
            alone = [i for i, line in enumerate(item) if line in (indent + "{", indent + "{}")]
            opens = alone[0] if alone else next(i + 1 for i, line in enumerate(item) if line.endswith(("{", "{}")))
            found["contracts", owner + name] = "\n".join(item[:opens])
            found["bodies of functions", owner + name] = "\n".join(item[opens:])
        else:
            found["types and constants", owner + name] = "\n".join(item)
        at = end + 1
    return found


def items(tree):
    """Every item of a tree by group, path and name."""
    found = {}
    for path, text in tree.items():
        kind = path.split("/")[2]
        if kind == "out":  # rt's own, in commits of the port where it was not left out
            continue
        if path.endswith(".rt"):
            for (group, name), item in code_items(text).items():
                found[group, path, name] = item
        elif kind in ("specs", "proofs") and path.count("/") == 3:
            for name, block in antt_blocks(text).items():
                found["definitions" if kind == "specs" else "laws", path, name] = block
        elif kind == "proofs":
            key = "proofs of functions", path.rsplit("/", 1)[0], ""
            found[key] = found.get(key, "") + "\n" + "\n".join(antt_blocks(text).values())
        elif kind == "must-fail":
            found["must-fail edits", path, ""] = text
        else:
            found[STORED, path, ""] = text
    return {key: item if key[0] == STORED else WORDS.sub(" ", item).strip() for key, item in found.items()}


def group_of(path):
    """The rows of the table of lines: code, definitions, laws and so on, by where a file stands."""
    parts = path.split("/")
    if parts[0] != "crates" or len(parts) < 3:
        return "documents, tools, bindings"
    deep = parts[2] == "proofs" and len(parts) > 4
    return {"src": "code", "specs": "definitions", "proofs": "proofs of functions" if deep else "laws", "must-fail": "must-fail edits"}.get(parts[2], STORED)


def print_items(before, after):
    print("| | stayed | changed | new | gone |\n|---|---|---|---|---|")
    listed = []
    for group in GROUPS:
        old, new = ({key: text for key, text in side.items() if key[0] == group} for side in (before, after))
        moved = {"changed": [key for key in old if key in new and old[key] != new[key]],
                 "new": [key for key in new if key not in old],
                 "gone": [key for key in old if key not in new]}
        changed, added, gone = map(len, moved.values())
        print(f"| {group} | {len(old) - changed - gone} | {changed} | {added} | {gone} |")
        listed += [f"- {word} ({group}): {path} {name}".rstrip() for word, keys in moved.items() for _, path, name in sorted(keys)]
    print("\n" + ("\n".join(listed) or "Nothing moved."))


def print_lines(commits):
    added, taken_out = collections.Counter(), collections.Counter()
    for row in text_of(git("diff", "--numstat", "--no-renames", *commits)).splitlines():
        plus, minus, path = row.split("\t")
        if plus != "-":
            added[group_of(path)] += int(plus)
            taken_out[group_of(path)] += int(minus)
    print("\n| lines | added | taken out |\n|---|---|---|")
    for group in sorted(added):
        print(f"| {group} | {added[group]} | {taken_out[group]} |")


def main():
    commits = sys.argv[1:]
    if len(commits) not in (1, 2):
        sys.exit(__doc__)
    print_items(items(files(commits[0])), items(files(commits[1] if len(commits) == 2 else None)))
    print_lines(commits)


main()
