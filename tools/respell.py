#!/usr/bin/env python3
"""Respells this repository's own names, after the kit's port.py, and lays the must-fail edits over the ported text.

Definitions, record fields and constructors go to snake case. In the name of a lemma a dash stays where it joins two names
of definitions; any other dash becomes `_`. Types, modules, functions of src/ and exported names keep their spelling.
Run once, at the top of the repository."""
import glob
import os
import re
import sys

NAME = re.compile(r"[A-Za-zσπκμ_][A-Za-z0-9_'₀-₉ᴰ-]*")
DECLARED = re.compile(r"^( *)(?:abbrev |unfoldable )?(?:pub )?(data |record )?([A-Za-z][A-Za-z0-9_'₀-₉-]*)((?: \(.*?\)| \{.*?\})*) :(?: |$)")
SOURCES = sorted(glob.glob("crates/*/specs/**/*.antt", recursive=True) + glob.glob("crates/*/proofs/**/*.antt", recursive=True))
CODE = sorted(glob.glob("crates/*/src/**/*.rt", recursive=True))
EDITS = sorted(glob.glob("crates/*/must-fail/*.edit"))
PAGES = sorted(glob.glob("docs/*.md") + glob.glob("examples/*.md") + ["README.md"])
# Names of std and of the logic that the kit's script gave to names of this repository as well.
KIT = {"jobOf": "job_of", "nameOf": "name_of", "modeOf": "mode_of", "getD": "get_or", "classOf": "class_of",
       "byteAt": "byte_at", "upTo": "up_to", "at-rest": "at_rest"}
# A lemma inside `laws`, where no function is called so.
ALONE = {"byte-at": "byte_at"}


def read(path):
    with open(path, encoding="utf-8") as f:
        return f.read()


def write(path, text):
    with open(path, "w", encoding="utf-8") as f:
        f.write(text)


def is_walk(path):
    """A proof of one function: its names are Rattle's own."""
    return os.path.basename(path) in ("Proof.antt", "Answers.antt", "Invariants.antt") and path.count("/") > 3


def declared():
    """The names that specs/ and proofs/ declare at their tops, and those of them that stand for values or types."""
    names, nouns, inner = set(), set(), set()
    for path in SOURCES:
        if is_walk(path):
            continue
        block = ""
        for line in read(path).split("\n"):
            head = re.match(r"^(?:abbrev |unfoldable )?(?:pub )?(data|record|module)\b", line)
            if line and not line.startswith((" ", "-")):
                block = head.group(1) if head else ""
            hit = DECLARED.match(line)
            if not hit or len(hit.group(1)) > (0 if block == "" else 4):
                continue
            name = hit.group(3)
            names.add(name)
            if hit.group(1) and block in ("data", "record"):
                inner.add(name)
            if "/specs/" in path or hit.group(2):
                nouns.add(name)
    for path in CODE:
        nouns.update(re.findall(r"\bfn ([a-z_0-9]+)", read(path)))
    return names, nouns, inner


def snake(part):
    if not re.match(r"^[a-z][A-Za-z0-9']*[A-Z]", part):
        return part
    return re.sub(r"(?<=[a-z0-9'])([A-Z])", lambda m: "_" + m.group(1).lower(), part)


def spelled(name, nouns, inner):
    parts = name.split("-")
    if name in inner:
        return "_".join(snake(p) for p in parts)
    text = snake(parts[0])
    for left, right in zip(parts, parts[1:]):
        text += ("-" if left in nouns and right in nouns else "_") + snake(right)
    return text


def main():
    names, nouns, inner = declared()
    table = {n: spelled(n, nouns, inner) for n in sorted(names)}
    table = {n: to for n, to in table.items() if to != n}
    taken = {}
    for name, to in sorted(table.items()):
        if name in ALONE:
            continue
        if to in names or to in taken:
            print("falls together:", name, "and", taken.get(to, to), "as", to)
            to += "_lem"
            table[name] = to
        taken[to] = name

    def respell(text, also=()):
        return NAME.sub(lambda m: table.get(m.group(0), dict(also).get(m.group(0), m.group(0))), text)

    def respell_page(text):
        # On a page and in a comment only what is no plain English word: code between backticks.
        return re.sub(r"`[^`\n]+`", lambda m: respell(m.group(0), KIT.items()), text)

    for path in SOURCES:
        lines = read(path).split("\n")
        write(path, "\n".join(respell_page(l) if l.lstrip().startswith("--") else respell(l) for l in lines))
    for path in CODE:
        out = []
        for line in read(path).split("\n"):
            clause = re.match(r"^\s*(ghost |requires|ensures)", line)
            if clause:
                out.append(respell(line))
            else:
                out.append(respell_page(line) if line.lstrip().startswith("//") else line)
        write(path, "\n".join(out))
    for path in PAGES:
        write(path, respell_page(read(path)))
    for path in EDITS:
        turn_edit(path, lambda t: respell(t, KIT.items()))


def turn_edit(path, respell):
    crate = path.split("/must-fail/")[0]
    lines = read(path).split("\n")
    file = next(l[6:].strip() for l in lines if l.startswith("file: "))
    text = read(f"{crate}/{file}")
    out = []
    for line in lines:
        hit = re.match(r"^(old|new): (.*)$", line)
        if not hit or file.endswith(".rt"):
            out.append(line)
            continue
        body = hit.group(2).replace("List·Memᴰ", "Memᴰ").replace("′", "'")
        body = re.sub(r"\(([^\s()]+)((?: \.[^\s()]+)+)\)", lambda m: m.group(1) + m.group(2).replace(" ", ""), body)
        body = re.sub(r"(?<=[^\s(]) \.(?=[A-Za-z])", ".", body)
        out.append(f"{hit.group(1)}: {respell(body)}")
    write(path, "\n".join(out))
    for line in out:
        if line.startswith("old: ") and text.count(line[5:]) != 1:
            print("edit to mend by hand:", path, line)


if __name__ == "__main__":
    sys.exit(main())
