#!/usr/bin/env python3
"""Brings this repository's own definitions and lemmas to the spelling of the installed Rattle: words in snake case, types and modules in camel case.

usage: tools/respell.py [--check] [TABLE]     at the top of the repository; TABLE is where the table of old and new names is written

It collects the names that specs/ and proofs/ declare, makes a table of those whose spelling moves, and lets the toolchain's snake.py turn
them in .antt files, in the clauses of .rt files and in code spans of pages. Names that fall together are told apart: what specs/ declares keeps
the plain name, and a lemma takes `_lem`. Functions of src/, exported names, strings, inputs and outputs keep their names.
"""

import collections
import os
import re
import subprocess
import sys
import tempfile

SNAKE = "/opt/rattle/port/notes/2026-11-18-names-are-in-snake-case/snake.py"
WORD = r"[^\s(){}.;,@\"«»:]+"
DECLARED = re.compile(rf"^\s*(?:(?:pub|abbrev|unfoldable)\s+)*((?:{WORD}\s+)+)(?:[({{].*?)?:(?:\s|$)")
IMPORT = re.compile(r"^\s*(?:ghost )?use ([\w.]+)\.\{([^}]*)\}", re.M)
GOAL = re.compile(rf"^(?:(?:abbrev|pub)\s+)*({WORD})\s*:\s*(?:\w+\.Need-|goal\.)")
# names that would fall together with another of the same file, and are told apart by hand
CHOSEN = {
    "handedOut": "lists_handed_out",
    "byKey": "rate_by_key",
    "load-number": "load_number_same",
    "encode-list": "encode_list_same",
    "encode-rows": "encode_rows_same",
    "in-turn": "each_in_turn",
}
# fields of src/ keep their spelling
FIELDS = {"fromA", "toA", "fromB", "toB"}
NOT = {"let", "in", "use", "module", "open", "unfolding", "where", "mod", "elim", "λ", "record", "data", "with"}


def spelled(name):
    """The new spelling: a hump or a dash between plain words becomes '_'; a dash beside a capital or a sign stays."""
    if not re.match(r"[a-z]", name) or name in FIELDS:
        return name
    name = name.replace("getD", "get_or").replace("-Load", "_load")
    name = re.sub(r"(?<=[a-z0-9'])-(?=[a-z0-9])", "_", name)
    return re.sub(r"(?<=[a-z0-9'])([A-Z])(?=[a-z]|$)", lambda m: "_" + m.group(1).lower(), name)


def files(kind):
    for folder, dirs, names in os.walk("crates"):
        dirs[:] = sorted(d for d in dirs if d not in ("out", ".git"))
        for n in sorted(names):
            if n.endswith(kind):
                yield os.path.join(folder, n)


def declared():
    """name -> the files that declare it; the goals' names of proofs by answers are the toolchain's, and left out"""
    found = collections.defaultdict(set)
    for p in files(".antt"):
        with open(p, encoding="utf-8") as f:
            lines = f.read().split("\n")
        goals = {m.group(1) for m in map(GOAL.match, lines) if m}
        for line in lines:
            m = DECLARED.match(line)
            if not m or line.lstrip().startswith("--"):
                continue
            for name in m.group(1).split():
                if name in NOT:
                    break
                if name not in goals:
                    found[name].add(p)
    return found


def brought():
    """the names that files bring in from the toolchain's libraries"""
    own = {os.path.basename(c) for c in os.listdir("crates")}
    names = set()
    for kind in (".antt", ".rt"):
        for p in files(kind):
            with open(p, encoding="utf-8") as f:
                for path, items in IMPORT.findall(f.read()):
                    parts = path.split(".")
                    if parts[0] != "Rattle" or parts[1] not in own:
                        names.update(i.split(" as ")[0].strip() for i in items.split(","))
    return names


def main(argv):
    check = "--check" in argv
    argv = [a for a in argv if a != "--check"]
    if len(argv) > 1 or any(a.startswith("-") for a in argv):
        print(__doc__)
        return 2
    found = declared()
    taken = brought()
    new = {n: CHOSEN.get(n) or spelled(n) for n in found if n not in taken}
    by = collections.defaultdict(list)
    for old, it in new.items():
        by[it].append(old)
    table = {}
    for it, olds in sorted(by.items()):
        if len(olds) > 1:
            # what specs/ declares goes first, then what is spelled so already, then what was a definition
            olds.sort(key=lambda o: (not any("/specs/" in p for p in found[o]), o != it, "-" in o, o))
            print("falls together:", it, "<-", ", ".join(olds))
        if it in taken:
            print("a library's word:", it, "<-", ", ".join(olds))
        for k, old in enumerate(olds, it in taken):
            to = it if k == 0 else it + "_lem" + "'" * (k - 1)
            if to != old:
                table[old] = to
    path = argv[0] if argv else tempfile.mkstemp(suffix=".tsv")[1]
    with open(path, "w", encoding="utf-8") as f:
        f.writelines(f"{a}\t{b}\n" for a, b in sorted(table.items()))
    print(len(table), "names, in", path)
    if check:
        return 0
    r = subprocess.run([sys.executable, SNAKE, "--table", path, "--only", "antt,rt,md", "crates", "docs", "README.md", "bench/README.md", "samples/README.md"])
    return r.returncode


if __name__ == "__main__":
    raise SystemExit(main(sys.argv[1:]))
