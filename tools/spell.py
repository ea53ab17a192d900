#!/usr/bin/env python3
"""Spells the repository's own definitions and lemmas as today's Rattle does: words in snake case, a prime as an apostrophe.

usage: python3 tools/spell.py [--list]      at the top of the repository, once, after the kit's port/port.py

The table of names is read from the .antt files below crates/. A name that a file imports from a library stays as the library has it. A
lemma whose name would fall together with that of a definition that it speaks of is called NAME_lem. Functions of src/, exported names,
strings, inputs and outputs keep theirs. The words are turned by the kit's own snake.py, which keeps the layout of a file. With --list
the table is printed, and nothing is changed.
"""

import os
import re
import subprocess
import sys
import tempfile

SNAKE = "port/notes/2026-11-18-names-are-in-snake-case/snake.py"
WORD = re.compile(r"[^\s(){}\[\];,.\"|◌@«»]+")
USE = re.compile(r"\buse ([^\s;{]+?)\.?\{([^}]*)\}")
DECLARED = re.compile(r"^ *(?:(?:abbrev|unfoldable|opaque|pub|pattern) +)*([^\s(){}\[\];,.\"|]+)(?: \{[^{}\n]*\})* :(?= |$)", re.M)
MADE = ("#", "Need-", "After-", "In-loop", "At-loop", "Goes-none", "Known-")
# lemmas that would be called as the definition that they speak of
LEMMAS = """advance-answer all-steps area-before bad-record bit-and bit-or bit-xor bad-row bad-step before-clock check-answer clock-only first-of-plan flow-count
grant-at is-done no-mark node-count old-then records-distance rows-distance start-answer steps-distance trailer-bytes with-figures
wrong-line""".split()
# words that already had today's spelling, and in this file alone would be called as a definition that the file speaks of
ALONE = {"crates/trade/proofs/TakenRules.antt": [("goes_on", "goes_on_lem")]}


def sources(kinds):
    for folder, dirs, files in os.walk("crates"):
        dirs[:] = sorted(d for d in dirs if d != "out")
        for f in sorted(files):
            if f.endswith(kinds):
                yield os.path.join(folder, f)


def read(path):
    with open(path, encoding="utf-8") as f:
        return f.read()


def own_crates():
    return {line.split(":")[0].split()[0] for line in read("crates.txt").split("\n") if ":" in line}


def of_libraries(text, own):
    """The names that a text imports from a library."""
    names = set()
    for head, items in USE.findall(text):
        steps = head.split(".")
        if not (steps[0] == "Rattle" and len(steps) > 1 and steps[1] in own):
            for item in items.split(","):
                names.update(item.split(" as ")[:1][0].split())
    return names


def turned(name):
    if name in LEMMAS:
        return name.replace("-", "_") + "_lem"
    name = name.replace("-", "_").replace("′", "'")
    return re.sub(r"(?<=[a-z0-9])([A-Z])", lambda m: "_" + m.group(1).lower(), name) if name[0].islower() else name


def old(name):
    if name.startswith(MADE) or ":" in name:
        return False
    camel = name[0].islower() and re.search(r"[a-z0-9][A-Z]", name)
    return bool(camel or re.search(r"[\w']-[\w]", name) or "′" in name)


def table():
    """The rows for every file, and for each file the names that stay in it."""
    own, names, lent, declared, stays = own_crates(), set(), set(), set(), {}
    for path in sources((".antt", ".rt")):
        text = read(path)
        here = {n for n in of_libraries(text, own) if old(n)}
        lent |= here
        stays[path] = here
        if path.endswith(".antt"):
            code = "\n".join(line for line in text.split("\n") if not line.lstrip().startswith("--"))
            names.update(w for w in WORD.findall(code) if old(w))
            declared.update(w for w in DECLARED.findall(code) if old(w))
    # a library's name that nothing here declares stays everywhere
    rows = {n: turned(n) for n in names if n not in lent or n in declared}
    return rows, {p: s & set(rows) for p, s in stays.items()}


def turn(rows, paths):
    with tempfile.NamedTemporaryFile("w", suffix=".tsv", encoding="utf-8", delete=False) as f:
        f.write("".join(f"{a}\t{b}\n" for a, b in sorted(rows.items())))
    try:
        kit = os.path.dirname(subprocess.run(["rt", "doc"], stdout=subprocess.PIPE, text=True, check=True).stdout.strip())
        return subprocess.run([sys.executable, os.path.join(kit, SNAKE), "--table", f.name, "--only", "antt,rt,md", *paths]).returncode
    finally:
        os.unlink(f.name)


def main():
    rows, stays = table()
    if sys.argv[1:] == ["--list"]:
        print("".join(f"{a}\t{b}\n" for a, b in sorted(rows.items())), end="")
        for path, names in stays.items():
            if names:
                print("stays in", path, *sorted(names))
        return 0
    for path, pairs in ALONE.items():
        text = read(path)
        for a, b in pairs:
            text = re.sub(rf"(?<![\w'-]){re.escape(a)}(?![\w'-])", b, text)
        with open(path, "w", encoding="utf-8") as f:
            f.write(text)
    status = turn(rows, [p for p, names in stays.items() if not names] + ["docs", "README.md", "wip"])
    for path, names in stays.items():
        if names:
            status |= turn({a: b for a, b in rows.items() if a not in names}, [path])
    return status


if __name__ == "__main__":
    sys.exit(main())
