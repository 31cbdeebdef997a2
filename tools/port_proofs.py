#!/usr/bin/env python3
"""Turns each proofs/F/Proof.antt of a crate that walks by `tie` into Invariants.antt and Answers.antt.

usage: tools/port_proofs.py CRATE NAMES

CRATE is the crate's folder, NAMES the names.json that 'rt check --generated DIR --old-names' writes in it. A goal that was answered by the search alone
is left out. What it cannot turn it names, and leaves in the file under its old name. Run it once.
"""
import json
import os
import re
import sys

NAME = r"[^\s(){}\[\].;,@\"«»`]+"
PATH = re.compile(rf"(?<![\w.'-])({NAME})((?:\.{NAME})+)")


def plain(name):
    """A name as both spellings have it: port.py gave some steps the name of a word of the library."""
    return re.sub(r"-(\d+)$", r"\1", re.sub(r"-lem$", "", name.lower().replace("_", "-")))


def declarations(text):
    """The use lines, and the others in blocks, each with the comment above it."""
    uses, blocks, now = [], [], []
    for line in text.split("\n"):
        if line.startswith("use "):
            uses.append(line)
            continue
        if line and not line.startswith((" ", "\t", ")", "]", "}")) and now and not all(x.startswith("--") for x in now if x):
            head = now_head(now)
            if not (head and (line.startswith(head + " ") or line.startswith("unfolding"))):
                blocks.append(now)
                now = []
        now.append(line)
    if any(now):
        blocks.append(now)
    return uses, [trim(b) for b in blocks]


def now_head(block):
    for line in block:
        if line.startswith("--") or not line:
            continue
        m = re.match(r"(?:(?:pub|abbrev|unfoldable) )*(" + NAME + r")(?: \{[^{}]*\})* :", line)
        return m and m[1]
    return None


def trim(block):
    while block and not block[0]:
        block = block[1:]
    while block and not block[-1]:
        block = block[:-1]
    return block


def clause(path, fields, steps):
    """A clause by its place among nested pairs, by its name; of several, a tuple of them."""
    i = 0
    while len(fields) - i > 1 and steps and steps[0] in "01":
        if steps[0] == "0":
            return ".".join([path, fields[i], *steps[1:]])
        i, steps = i + 1, steps[1:]
    if len(fields) - i == 1:
        return ".".join([path, fields[i], *steps])
    parts = [f"{path}.{f}" for f in fields[i:]]
    text = parts.pop()
    while parts:
        text = f"({parts.pop()}, {text})"
    return text


class Function:
    def __init__(self, names):
        self.n = names
        self.places = {p[0]: (i, p) for i, p in enumerate(names["places"])}
        self.left = []

    def parent(self, place):
        return self.places[place][1][1]

    def path(self, var, steps, env):
        """A path of the walk as one of the flat record."""
        place = env[var]
        while steps and steps[0] == "before":
            place = self.parent(place) or "Start"
            steps = steps[1:]
        if not steps:
            return "c", place
        step, rest = steps[0], steps[1:]
        if step == "requires" and self.n["pre"] and self.n["pre"]["fields"]:
            return clause("c.requires", self.n["pre"]["fields"], rest), None
        # the step of this place or, as a walk may now have more places or fewer, of another
        return self.step(place, step, rest) or self.step(env[var], step, rest) or (".".join(["c", step, *rest]), None)

    def step(self, at, step, rest):
        while at is not None:
            i, (name, above, (old, new), callee, _) = self.places[at]
            arm = self.n["arms"][i]
            if arm and rest and plain(step) in {plain(f[1]) for f in arm[2]}:
                for field, was, sub in arm[2]:
                    if plain(was) == plain(step) and sub and rest[: len(sub)] == sub:
                        return ".".join(["c", arm[0], field, *rest[len(sub) :]]), None
            if plain(old) == plain(step):
                clauses = self.n["clauses"][i]
                if rest and rest[0] == "ensures" and clauses and clauses["fields"]:
                    return clause(".".join(["c", new, "ensures"]), clauses["fields"], rest[1:]), None
                return ".".join(["c", new, *rest]), None
            at = above
        return None

    def turn(self, body, env):
        out, at = [], 0
        for m in re.finditer(rf"let ({NAME}) = ({NAME})((?:\.before)*) in ?|(?<![\w.'-])({NAME})((?:\.{NAME})+)|(?<![\w.'-])({NAME})(?![\w.'-])", body):
            if m.start() < at:
                continue
            if m[1] is not None:
                if m[2] in env:
                    r = self.path(m[2], m[3].split(".")[1:], env)
                    if r and r[1] is not None:
                        env = {**env, m[1]: r[1]}
                        out.append(body[at : m.start()])
                        at = m.end()
                continue
            var = m[4] or m[6]
            if var in env:
                out.append(body[at : m.start()])
                r = self.path(var, m[5].split(".")[1:] if m[5] else [], env)
                out.append(r[0] if r else m[0])
                at = m.end()
        out.append(body[at:])
        text = re.sub(r"[ \t]+\n", "\n", "".join(out))
        return re.sub(r"\n(?:[ \t]*\n)+", "\n", text)


def split_tuple(text):
    """The parts of a tuple that is the whole of a text, or None."""
    text = text.strip()
    if not (text.startswith("(") and text.endswith(")")):
        return None
    parts, depth, start = [], 0, 1
    for i, ch in enumerate(text):
        if ch in "([{":
            depth += 1
        elif ch in ")]}":
            depth -= 1
            if depth == 0 and i != len(text) - 1:
                return None
        elif ch == "," and depth == 1:
            parts.append(text[start:i].strip())
            start = i + 1
    parts.append(text[start:-1].strip())
    return [p for p in parts if p]


def parts_of(text, n):
    """The n parts of nested pairs, or None."""
    parts = split_tuple(text)
    while parts and len(parts) < n:
        more = split_tuple(parts[-1])
        if not more:
            return None
        parts = parts[:-1] + more
    return parts if parts and len(parts) == n else None


def by_clause(body, fields):
    """A body that gives its clauses as a tuple, as a record of them."""
    lets = []
    while re.match(r"let ", body):
        cut = cut_let(body)
        if not cut:
            break
        lets.append(body[:cut].strip())
        body = body[cut:].strip()
    parts = parts_of(body, len(fields))
    tactic = re.match(r"(?:rw|simp) (?:\((?:[^()]|\([^()]*\))*\)|[\w.'-]+) (?=\()", body)
    if not parts and tactic and parts_of(body[tactic.end() :], len(fields)):
        parts = [tactic[0] + ("(" + p + ")" if " " in p and not p.startswith("(") else p) for p in parts_of(body[tactic.end() :], len(fields))]
    elif not parts and re.match(r"(omega|search|grind|rw|simp)\b", body):
        parts = [body] * len(fields)
    if parts:
        last = "record { " + "; ".join(f"{f} = {p}" for f, p in zip(fields, parts)) + " }"
    else:
        # a law gives three facts as a pair whose second is a pair
        at = [".1" * i + (".0" if i < len(fields) - 1 else "") for i in range(len(fields))]
        last = f"let asked = {body} in record {{ " + "; ".join(f"{f} = asked{a}" for f, a in zip(fields, at)) + " }"
    return "\n    ".join(["", *lets, last]) if lets else last


def cut_let(body):
    """Where the first let of a body ends."""
    depth, lets = 0, 0
    for m in re.finditer(r"[(\[{]|[)\]}]|(?<![\w.'-])(?:let|in)(?![\w.'-])", body):
        if m[0] in "([{":
            depth += 1
        elif m[0] in ")]}":
            depth -= 1
        elif depth == 0 and m[0] == "let":
            lets += 1
        elif depth == 0 and m[0] == "in":
            lets -= 1
            if lets == 0:
                return m.end()
    return None


def turn(folder, module, crate, names):
    path = os.path.join(folder, "Proof.antt")
    with open(path, encoding="utf-8") as f:
        text = f.read()
    if "tie.close" not in text:
        return f"{folder}: no walk by tie"
    uses, blocks = declarations(text)
    fn = Function(names)
    order = [n for n in re.findall(NAME, re.sub(r"[()]", " ", re.search(r"tie\s*\.\s*spec(.*)", text, re.S)[1]))]
    order = [n for n in order if not n.startswith(("invariant-", "decreases-"))]
    needs = names["needs"]
    said = []
    by_decl = {}
    olds = [plain(o) for o, _ in needs]
    for i, name in enumerate(order):
        if len(order) == len(needs):
            by_decl[name] = i
        else:
            p = plain(name)
            p = {"loop-holds": "loop-init", "loop-less": "loop-smaller", "loop-again": "loop-preserved"}.get(p, p)
            if p in olds:
                by_decl[name] = olds.index(p)
    if len(order) != len(needs):
        said.append(f"{len(order)} goals then, {len(needs)} now")
    loops = {plain(l[0][0]): (l[0][1], l[1], k) for k, l in enumerate(names["loops"])}
    invariants, answers, helpers = [], [], []
    reduced = []
    for block in blocks:
        head = now_head(block)
        code = trim([l for l in block if not l.startswith("--")])
        notes = [l for l in block if l.startswith("--") and not re.match(r"-- src/\S+:\d+:\d+$", l)]
        if not code:
            helpers.append("\n".join(block))
            continue
        joined = "\n".join(code)
        if "tie.close" in joined:
            continue
        m = re.match(r"(?:abbrev )?(?:pub )?(invariant|decreases)-(" + NAME + r") : tie\.", joined)
        if m:
            kind, loop = m[1], plain(m[2])
            eq = re.search(r"(?m)^" + re.escape(f"{m[1]}-{m[2]}") + r" ([^=]*)= ?(.*)", joined, re.S)
            if loop not in loops or not eq:
                said.append(f"{kind}-{m[2]}: which loop?")
                helpers.append("\n".join(block))
                continue
            new, variables, k = loops[loop]
            changed = names["changed"][k] if names["changed"] and isinstance(names["changed"][k], list) else names["changed"]
            params = eq[1].split()
            want = [("l.initial." if c else "l.") + v for v, c in zip(variables, changed)] + ["l." + v for v, c in zip(variables, changed) if c]
            if len(params) != len(want):
                said.append(f"{kind}-{m[2]}: {len(params)} variables then, {len(want)} now: {want}")
            subst = dict(zip(params, want))
            body = re.sub(rf"(?<![\w.'-])({NAME}|«data»)(?![\w'-])", lambda t: subst.get(t[1], t[1]), eq[2])
            unf = "".join(l + "\n" for l in code if l.startswith("unfolding"))
            invariants.append("\n".join(notes + [f"abbrev pub {kind}-{new} : goal.{kind}-{new}\n{unf}{kind}-{new} l = {body}"]))
            continue
        m = re.match(NAME + r" : tie\.Need-", joined)
        if m and head in by_decl:
            i = by_decl[head]
            goal = needs[i][1]
            eq = re.search(r"(?m)^" + re.escape(head) + r" (c\S*(?: κs)?|_(?: κs)?|[^=\n]*?) ?=\s?(.*)", joined, re.S)
            if not eq:
                said.append(f"{head}: no equation")
                helpers.append("\n".join(block))
                continue
            args, body = eq[1].split(), eq[2]
            if re.fullmatch(r"\s*(search rules|tt|omega arith|search needs)\s*", body) and "unfolding" not in joined:
                reduced.append(goal)
                continue
            place = names["asked_at"][i][0]
            env = {args[0]: place} if args and args[0] != "_" else {}
            body = fn.turn(body, env)
            fields = names["asked"].get(needs[i][0]) or []
            if fields and len(fields) > 1 and not body.strip().startswith("record"):
                body = by_clause(body.strip(), fields)
            unf = "".join(l + "\n" for l in code if l.startswith("unfolding"))
            body = body.strip()
            body = ("\n    " if "\n" in body and not body.startswith(("(", "record")) else " ") + body
            answers.append("\n".join(notes + [f"pub {goal} : goal.{goal}\n{unf}{goal} c ={body}"]))
            continue
        if m and re.search(r"=\s*(search rules|tt|omega arith|search needs)\s*$", joined):
            continue
        if m:
            said.append(f"{head}: no such goal now")
        helpers.append("\n".join(block))
    keep = [u for u in uses if not re.search(r"\.(Statement\.\{statement\}|Tie as tie|Lts as lts|Reads as reads)$", u)]
    lines = "\n".join(keep)

    def write(name, last, parts):
        if parts:
            with open(os.path.join(folder, name), "w", encoding="utf-8") as f:
                f.write(lines + ("\n" if lines else "") + f"use {module}.{last} as goal\n\n" + "\n\n".join(parts) + "\n")

    spots = {p[0]: new for p, new in zip(names["places"], names["places_by_name"])}
    by_plain = {plain(k): v for k, v in spots.items()}
    helpers = [re.sub(r"\btie\.(" + NAME + ")", lambda m: "goal." + by_plain.get(plain(m[1]), m[1]), h) for h in helpers]
    inv_helpers = [h for h in helpers if h.startswith("abbrev") or re.match(r"record|data", h)]
    write("Invariants.antt", "Given", invariants)
    write("Answers.antt", "Goals", helpers + answers if (helpers or answers) else [])
    os.remove(path)
    if helpers:
        said.append(f"{len(helpers)} helpers")
    if fn.left:
        said.append("; ".join(fn.left))
    return f"{folder}: {len(answers)} answers, {len(reduced)} left to the search" + ("; " + "; ".join(said) if said else "")


def main():
    crate, listed = sys.argv[1:]
    with open(listed, encoding="utf-8") as f:
        names = json.load(f)
    name = os.path.basename(os.path.realpath(crate))
    for top, _, found in sorted(os.walk(os.path.join(crate, "proofs"))):
        if "Proof.antt" not in found:
            continue
        steps = os.path.relpath(top, os.path.join(crate, "proofs")).split(os.sep)
        module = f"Rattle.{name}.proofs." + ".".join(steps)
        key = f"Rattle-{name}-proofs." + ".".join(steps) + ".Lts"
        if key not in names:
            print(f"{top}: not listed")
            continue
        print(turn(top, module, crate, names[key]))


if __name__ == "__main__":
    main()
