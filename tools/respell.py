#!/usr/bin/env python3
"""Turns the repository's own definitions and lemmas to today's spelling: words in snake case, types in camel case.

usage: python3 tools/respell.py      at the top of a repository that port.py has just turned; run once

It reads specs/*.antt and proofs/*.antt of every crate, and takes each name with a dash that stands there and is not the
library's. It writes the new name in every .antt file, and in the clauses and ghost lines of every .rt file. Functions of src/,
strings, inputs and outputs stay. It stops, and writes nothing, where two names fall together.
"""

import glob
import re

# Names of the library that no line imports from Rattle.std.
LIBRARY = {"mod-add-mod", "mod-mul", "pow-le-pow_right", "pow-succ'"}

# Names that a rule does not give: a lemma over two of the library's words keeps the dash between them.
BY_HAND = {
    "getD-same": "get_or-same",
    "getD-set-cell": "get_or-set_cell",
    "getD-set-cond": "get_or-set_cond",
    "getD-set-row": "get_or-set_row",
    "get_d_rows": "get_or-rows",
    "length-putMid": "length-put_mid",
    "here-is": "here_is",
    "other-is": "other_is",
}

WORD = re.compile(r"[^\s(){}\[\],;.:\"«»]+")
CLAUSE = re.compile(r"\s*(pub )?(ghost|requires|ensures)\b")


def read(path):
    with open(path, encoding="utf-8") as f:
        return f.read()


def paths(pattern):
    return sorted(p for p in glob.glob(pattern, recursive=True) if "/out/" not in p)


def code(line):
    """A line of antt without its comment."""
    return re.split(r"(?:^|\s)--(?:\s|$)", line)[0]


def own_names():
    library = set(LIBRARY)
    for p in paths("crates/**/*.antt"):
        for m in re.finditer(r"use Rattle\.std\.[\w.+]*\.\{([^}]*)\}", read(p)):
            library |= {x.strip() for x in m.group(1).split(",")}
    found = set()
    for p in paths("crates/*/specs/*.antt") + paths("crates/*/proofs/*.antt"):
        for line in read(p).split("\n"):
            found |= {w for w in WORD.findall(code(line)) if re.search(r"\w-\w", w)}
    return found - library


def spelling(name):
    if name in BY_HAND:
        return BY_HAND[name]
    if name[0].isupper():
        return "".join(part[0].upper() + part[1:] for part in name.split("-"))
    return name.replace("-", "_")


def turned(text, names):
    return WORD.sub(lambda m: names.get(m.group(0), m.group(0)), text)


def main():
    names = {n: spelling(n) for n in own_names() | set(BY_HAND)}
    back = {}
    for old, new in sorted(names.items()):
        back.setdefault(new, []).append(old)
    clash = [f"{new}: {olds}" for new, olds in back.items() if len(olds) > 1]
    for p in paths("crates/**/*.antt"):
        words = set(WORD.findall(re.sub(r"use Rattle\.[\w.+]*", "", read(p))))
        clash += [f"{p}: {old} and {new}" for old, new in names.items() if old in words and new in words]
    if clash:
        print("names fall together:\n" + "\n".join(clash))
        return 1
    changed = 0
    for p in paths("crates/**/*.antt") + paths("crates/**/*.rt"):
        old = read(p)
        if p.endswith(".antt"):
            new = turned(old, names)
        else:
            new = "\n".join(turned(l, names) if CLAUSE.match(l) else l for l in old.split("\n"))
        if new != old:
            changed += 1
            with open(p, "w", encoding="utf-8") as f:
                f.write(new)
    print(f"{len(names)} names, {changed} files")
    for old, new in sorted(names.items()):
        print(f"  {old} -> {new}")
    return 0


if __name__ == "__main__":
    raise SystemExit(main())
