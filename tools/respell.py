#!/usr/bin/env python3
"""Brings the names of this repository's definitions and lemmas to the library's spelling: words in snake case, types in camel case.

usage: tools/respell.py [--dry]      at the top, once, after the kit's own port script

A name is one that specs/ or proofs/ declares. It goes by tokens: in .antt files, in the clauses and ghost lines of .rt files,
in must-fail edits, and in the code spans of README.md and docs/. Names of src/, generated names and the library's stay.
A name that a file takes from the library stays in that file, whatever it is called elsewhere.
"""

import glob
import os
import re
import sys

TOKEN = re.compile(r"[^\s(){}.,;:«»\"`\[\]|@!?<>]+")
SIGNATURE = re.compile(r"^(\s*)(?:(?:abbrev|unfoldable|pub|ruleset)\s+)*([^\s(){}.,;:λ]+)((?:\s+\{[^}]*\}|\s+\([^)]*\))*)\s+:\s")
BOUND = ["dcbaaEntry", "sameLength"]  # variables in camel case, which no signature declares
# laws that would have the name of the definition that they speak of
APART = {"head-of": "head_of_lem", "enable-one": "enable_one_lem", "on-slot": "on_slot_lem", "slot-in": "slot_in_lem"}
# .. and those that the kit's script has brought to snake case already, by the file that alone names them
APART_IN = {"definition/proofs/FormedSteps.antt": ("step_by", "step_by_lem"), "commands/proofs/OutcomeLaws.antt": ("in_use", "in_use_lem")}


def snake(name):
    name = name.replace("-", "_").replace("\u2032", "'")
    return re.sub(r"(?<=[a-z0-9])([A-Z])", lambda m: "_" + m.group(1).lower(), name)


def declared(root):
    found = {}
    for path in sorted(glob.glob(root + "/crates/*/specs/*.antt") + glob.glob(root + "/crates/*/proofs/*.antt")):
        for line in open(path, encoding="utf-8"):
            m = SIGNATURE.match(line)
            if m and not line.strip().startswith("--"):
                found.setdefault(m.group(2), set()).add(path)
    return found


def own(path):
    return re.match(r"Rattle\.(%s)\.(specs|proofs)\b" % "|".join(CRATES), path) and not re.search(r"\.proofs\.\w+(\.\w+)*\.(Tie|Statement|Goals|Given)\b", path)


def foreign(text):
    """The names that a file takes from elsewhere than this repository's own definitions and laws."""
    names = set()
    for m in re.finditer(r"^\s*(?:pub |ghost )*use ([\w.+'\u00b7-]+)\.\{([^}]*)\}", text, re.M):
        if not own(m.group(1)):
            for n in m.group(2).split(","):
                names.update(n.split())
    return names


def respell(text, names):
    keep = foreign(text)
    return TOKEN.sub(lambda m: names[m.group(0)] if m.group(0) in names and m.group(0) not in keep else m.group(0), text)


def spans(text, names, found):
    def word(t):
        return names.get(t.group(0)) or (snake(t.group(0)) if snake(t.group(0)) in found else t.group(0))

    return re.sub(r"`[^`\n]+`", lambda m: TOKEN.sub(word, m.group(0)), text)


def main():
    root = os.path.realpath(os.path.join(os.path.dirname(__file__), ".."))
    global CRATES
    CRATES = sorted(os.path.basename(p) for p in glob.glob(root + "/crates/*"))
    found = declared(root)
    names = {n: APART.get(n, snake(n)) for n in list(found) + BOUND if n[0].islower() and snake(n) != n}
    for n, to in sorted(names.items()):
        if to in found and (to, to + "_lem") not in APART_IN.values():
            print(f"falls together: {n} and {to}: {sorted(found.get(n, []))[:2]} {sorted(found[to])[:2]}")
    back = {}
    for n, to in names.items():
        back.setdefault(to, []).append(n)
    for to, ns in sorted(back.items()):
        if len(ns) > 1:
            print("falls together:", *ns)
    paths = glob.glob(root + "/crates/*/specs/*.antt") + glob.glob(root + "/crates/*/proofs/**/*.antt", recursive=True)
    paths += glob.glob(root + "/crates/*/src/*.rt") + glob.glob(root + "/crates/*/must-fail/*.edit")
    pages = glob.glob(root + "/docs/*.md") + [root + "/README.md"]
    for path in sorted(paths) + pages:
        before = open(path, encoding="utf-8").read()
        for end, (name, to) in APART_IN.items():
            if path.endswith(end):
                before = TOKEN.sub(lambda m: to if m.group(0) == name else m.group(0), before)
        after = spans(before, names, found) if path in pages else respell(before, names)
        if "--dry" not in sys.argv:
            open(path, "w", encoding="utf-8").write(after)
    print(len(names), "names")


if __name__ == "__main__":
    main()
