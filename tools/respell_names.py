#!/usr/bin/env python3
"""Brings the repository's own names of definitions and lemmas to snake case.

usage: python3 tools/respell_names.py      at the top of a checkout that port.py has just turned, once

It does nothing where docs/PORT.md stands, since it would turn today's names once more.

A name that specs/ or a file of lemmas declares, and that has a dash or a hump, as `no-trail` or `kidAt`, becomes
`no_trail` or `kid_at`, wherever it stands: in specs, proofs, clauses and must-fail edits, and between backticks in
README.md and docs/. Names of types and of functions in src/ are left. Where two names would fall together, the definition gets the plain
spelling and the lemma beside it `_lem` at its end; what that rule does not settle stands in BY_HAND.
"""

import os
import re
import sys

GENERATED = ("Answers.antt", "Invariants.antt", "Proof.antt", "Choices.antt")
TOKEN = re.compile(r"[^\s(){}\[\];,.«»\"`]+")
DECLARED = re.compile(r"^\s*(?:(?:pub|abbrev|unfoldable)\s+)*([^\s:(){}=]+(?:\s+[^\s:(){}=]+)*)\s*(?:[({].*)?:(?:\s|$)")
WORDS = {"data", "record", "module", "use", "let", "in", "where", "unfolding", "elim", "mod", "--", "ruleset", "open"}

# A name that would fall together with another one, where it does not get `_lem`.
BY_HAND = {
    "noKids": "empty_kids",  # a field of two records is `no_kids`
    "read-on": "read_on_at",  # the explicit form of the definition `read_on`
    "downTo": "down_to_decision",  # a decision, where `down_to` is a store
    "not_taken": "not_taken_lem",
    "from_first": "from_first_lem",
    "from_second": "from_second_lem",
    "from-third": "from_third_lem",
    "walkBegun": "walk_begun_system",  # `walk-begun` is a constructor
    "on-trail": "on_trail_before",  # a field that says it of `onTrail`
    "last-at": "last_at_lem",
    "shut-place": "shut_place_lem",
    "told-after": "told_after_lem",
}

# Names that are to change in one file alone, since the same name is right elsewhere.
IN_ONE_FILE = {
    "crates/kinds/specs/Codes.antt": {"first_of": "first_with_number"},  # a tactic's name
    "crates/model/proofs/Explicit.antt": {"let_go": "let_go_at"},  # the definition `let_go` is a decision
    "crates/model/proofs/Reached.antt": {"kid_of": "kid_with"},  # the definition `kid_of`
    "crates/orders/specs/RoundsLemmas.antt": {"size-stays": "size_stays", "due-is": "due_is", "due-is'": "due_is'"},
    "crates/figures/src/figures.rt": {"benchFigures": "bench_figures"},
}


def files(root, *endings):
    for top in ("crates", "docs"):
        for folder, dirs, names in os.walk(os.path.join(root, top)):
            dirs[:] = sorted(d for d in dirs if d != "out")
            for name in sorted(names):
                if name.endswith(endings):
                    yield os.path.join(folder, name)
    if ".md" in endings:
        yield os.path.join(root, "README.md")


def read(path):
    with open(path, encoding="utf-8") as f:
        return f.read()


def declared(root):
    names, of_std = set(), set()
    for path in files(root, ".antt"):
        text = read(path)
        for taken in re.findall(r"use Rattle\.std\.[\w.'\-]+\.\{([^}]*)\}", text):
            of_std.update(n.strip() for n in taken.split(","))
        if "/proofs/" in path and os.path.basename(path) in GENERATED:
            continue
        for line in text.splitlines():
            m = DECLARED.match(line)
            if m and m.group(1).split()[0] not in WORDS:
                names.update(m.group(1).split())
    return names - of_std


def snake(name):
    def part(word):
        if word[:1].isupper():  # a type or a constructor keeps its spelling
            return word
        return re.sub(r"([a-z0-9])([A-Z])", lambda m: m.group(1) + "_" + m.group(2).lower(), word)

    return "_".join(part(word) for word in name.split("-"))


def is_type(name):
    return re.fullmatch(r"[A-Z][A-Za-z0-9]*'*", name) is not None


def table(names):
    old = {n for n in names if re.fullmatch(r"[A-Za-z][\w'\-]*", n) and not is_type(n) and re.search(r"-|[a-z0-9][A-Z]", n)}
    humps = {snake(n) for n in old if "-" not in n and n not in BY_HAND}
    new = {}
    for n in sorted(old):
        plain = snake(n)
        new[n] = plain + "_lem" if "-" in n and plain in humps else plain
    new.update({k: v for k, v in BY_HAND.items() if k in names})
    return new


def together(new, names):
    kept = {n for n in names if n not in new}
    by = {}
    for a, b in new.items():
        by.setdefault(b, []).append(a)
    return [(b, sorted(a)) for b, a in sorted(by.items()) if len(a) > 1 or b in kept]


def turn(text, new, mark):
    def word(m):
        return new.get(m.group(0), m.group(0))

    lines = []
    for line in text.split("\n"):
        code, sep, note = line.partition(mark) if mark else (line, "", "")
        if mark == "--" and sep and not line.lstrip().startswith("--"):
            code, sep, note = line, "", ""
        humps = {k: v for k, v in new.items() if "-" not in k}
        note = TOKEN.sub(lambda m: humps.get(m.group(0), m.group(0)), note)
        lines.append(TOKEN.sub(word, code) + sep + note)
    return "\n".join(lines)


def main():
    root = os.getcwd()
    if os.path.exists(os.path.join(root, "docs", "PORT.md")):
        sys.exit("respell_names: docs/PORT.md stands here, so this tree is turned already")
    names = declared(root)
    new = table(names)
    for b, a in together(new, names):
        print(f"fall together as {b}: {', '.join(a)}", file=sys.stderr)
    for path in files(root, ".antt", ".rt", ".edit", ".md"):
        text = read(path)
        own = dict(new) if path.endswith(".antt") else {k: v for k, v in new.items() if k != k.lower() or "-" in k}
        own.update(IN_ONE_FILE.get(os.path.relpath(path, root), {}))
        if path.endswith(".md"):
            turned = re.sub(r"`[^`\n]+`", lambda m: turn(m.group(0), own, None), text)
        else:
            turned = turn(text, own, "--" if path.endswith(".antt") else "//" if path.endswith(".rt") else None)
        if turned != text:
            with open(path, "w", encoding="utf-8") as f:
                f.write(turned)
    print(f"{len(new)} names respelled")


if __name__ == "__main__":
    main()
