#!/usr/bin/env python3
"""Prints what docs/PROMISES.md names and the repository does not have.

usage: python3 tools/promises.py      at the top of a checkout

It prints a line for each function, definition, must-fail edit, test and line of an expected output that the page names and
that does not exist, for each edit that no longer fits its file, and for each row that lacks one of its three entries. It
prints nothing, and ends with status 0, where all is there. Whether an edit is refused is the gate's to see.
"""

import glob
import os
import re
import sys

PAGE = "docs/PROMISES.md"
UNKEPT = "## Not yet kept"
NAME = re.compile(r"`([^`]+)`")
DECLARED = r"^(\s*)(?:(?:abbrev|unfoldable)\s+)?(?:pub\s+)?(?:(?:record|data)\s+)?{}\b(?=.*[:(])"


def lines_of(path):
    with open(path, encoding="utf-8") as f:
        return f.read().split("\n")


def sources(crate, folder, ending):
    return sorted(glob.glob(os.path.join("crates", crate, folder, "*" + ending)))


def owner_of(header):
    """The type or trait that an `impl` or `trait` line is about, without its parameters."""
    while re.search(r"<[^<>]*>", header):
        header = re.sub(r"<[^<>]*>", "", header)
    trait = re.match(r"(?:pub\s+)?trait\s+(\w+)", header)
    if trait:
        return trait.group(1)
    implemented = re.match(r"impl\s+(?:[\w:]+\s+for\s+)?([\w:]+)", header)
    return implemented.group(1).split("::")[-1] if implemented else None


def functions(crate):
    """The public functions of a crate, as `name` or `Type::name`; what a trait or its impl has is as public as the trait."""
    found = set()
    for path in sources(crate, "src", ".rt"):
        owner, of_trait = None, False
        for line in lines_of(path):
            if re.match(r"impl\b|(?:pub )?trait\b", line):
                owner = owner_of(line)
                of_trait = " for " in line or "trait " in line
            elif line == "}":
                owner = None
            function = re.match(r"(\s*)(pub )?fn (\w+)", line)
            if function is None:
                continue
            indent, public, name = function.groups()
            if owner and indent and (public or of_trait):
                found.add(f"{owner}::{name}")
            elif not indent and public:
                found.add(name)
    return found


def tests(crate):
    found = set()
    for path in sources(crate, "src", ".rt"):
        lines = lines_of(path)
        for above, line in zip(lines, lines[1:]):
            function = re.match(r"fn (\w+)", line)
            if above.strip() == "#[test]" and function:
                found.add(function.group(1))
    return found


def block_of(lines, name):
    """The lines of a definition: deeper ones below its declaration, and equations that begin with its name."""
    for start, line in enumerate(lines):
        declared = re.match(DECLARED.format(re.escape(name)), line)
        if declared is None:
            continue
        indent = len(declared.group(1))
        end = start + 1
        while end < len(lines):
            text = lines[end]
            depth = len(text) - len(text.lstrip())
            if not text.strip() or (depth <= indent and text.split()[0] not in (name, "]", "}", ")")):
                break
            end += 1
        return lines[start:end]
    return None


def missing_definition(text):
    crate, _, rest = text.partition("/")
    parts = rest.split(".")
    path = os.path.join("crates", crate, "specs", parts[0] + ".antt")
    if len(parts) < 2 or not os.path.isfile(path):
        return "no such file of definitions"
    block = block_of(lines_of(path), parts[1])
    if block is None:
        return "no such definition"
    for case in parts[2:]:
        if not any(re.search(rf"(?<![\w]){re.escape(case)}(?![\w])", line) for line in block):
            return f"the definition has no {case}"
    return None


def missing_edit(text):
    crate, _, label = text.partition("/")
    path = os.path.join("crates", crate, "must-fail", label + ".edit")
    if not os.path.isfile(path):
        return "no such must-fail edit"
    turned = ""
    for line in lines_of(path):
        if line.startswith("file: "):
            with open(os.path.join("crates", crate, line[len("file: "):].strip()), encoding="utf-8") as f:
                turned = f.read()
        elif line.startswith("old: ") and line[len("old: "):] not in turned:
            return "the edit no longer fits its file"
    return None


def missing_output(text):
    path, _, line = text.partition(": ")
    if not os.path.isfile(path):
        return "no such file"
    if line not in [found.strip() for found in lines_of(path)]:
        return "no such line in it"
    return None


def missing_function(text, known={}):
    crate, _, name = text.partition("::")
    if crate not in known:
        known[crate] = functions(crate)
    return None if name in known[crate] else "no such public function"


def missing_notice(text, known={}):
    if text.startswith("crates/"):
        return missing_output(text)
    if "::" not in text:
        return missing_edit(text)
    crate, _, name = text.partition("::")
    if crate not in known:
        known[crate] = tests(crate)
    return None if name in known[crate] else "no such test"


def rows(lines):
    """Each row of the page's tables, with its line number, its cells and whether it stands under "not yet kept"."""
    unkept = False
    for number, line in enumerate(lines, 1):
        unkept = unkept or line.strip() == UNKEPT
        if line.startswith("|") and not line.startswith("|---") and not line.startswith("| promise |"):
            yield number, [cell.strip() for cell in line.strip("|").split("|")], unkept


def complaints():
    checks = (("contract of", missing_function), ("stated by", missing_definition), ("noticed by", missing_notice))
    count = 0
    for number, cells, unkept in rows(lines_of(PAGE)):
        count += 1
        if len(cells) != 4:
            yield f"{PAGE}:{number}: {len(cells)} cells in place of 4"
            continue
        for (column, missing), cell in zip(checks[:2] if unkept else checks, cells[1:]):
            names = NAME.findall(cell)
            if not names and not unkept:
                yield f"{PAGE}:{number}: nothing under `{column}`"
            for name in names:
                reason = missing(name)
                if reason:
                    yield f"{PAGE}:{number}: {name}: {reason}"
    if count == 0:
        yield f"{PAGE}: no rows"


def main():
    found = list(complaints())
    for line in found:
        print(line)
    return 1 if found else 0


if __name__ == "__main__":
    sys.exit(main())
