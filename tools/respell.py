#!/usr/bin/env python3
"""Respells this repository's own definitions and lemmas: words in snake case, types in camel case.

usage: python3 tools/respell.py   at the top of the repository, once, after the toolchain's own port script

A name counts as ours if it stands in a file of definitions or of lemmas and no line imports it from the toolchain's libraries.
Names that the check makes for the goals of a function stay as they are. Functions of src/ keep their names, and so do strings.
"""
import collections
import os
import re

WORD = re.compile(r"[A-Za-z_⊎≢≡≤<][\w'⊎≢≡≤<-]*")
IMPORT = re.compile(r"use ([\w.·'-]+)\.\{([^}]*)\}")
GOALS = re.compile(r"/proofs/.*/(Answers|Invariants|Proof)\.antt$")
# Names that would fall together with another one in the same file.
APART = {
    "file-of": "file_with",
    "slots-in": "slots_within",
    "slots-of": "spots_of",
    "length-slots-of": "length_spots_of",
}
# Fields of our records that answers read by projection.
FIELDS = {"in-data", "in-file", "on-device"}


def files(ending):
    for folder, below, names in os.walk("crates"):
        below[:] = sorted(d for d in below if d != "out")
        for name in sorted(names):
            if name.endswith(ending):
                yield os.path.join(folder, name)


def text(path):
    with open(path, encoding="utf-8") as f:
        return f.read()


def older(name):
    return "-" in name.strip("-") or bool(re.match(r"^[a-z][a-z0-9']*[A-Z]", name))


def respelled(name):
    if name in APART:
        return APART[name]
    if name[0].isupper():
        return "".join(part[:1].upper() + part[1:] for part in name.split("-"))
    return re.sub(r"(?<=[a-z0-9])([A-Z])", r"_\1", name.replace("-", "_")).lower()


def ours():
    foreign, found = set(), set()
    for path in files((".rt", ".antt")):
        t = text(path)
        for module, names in IMPORT.findall(t):
            if module.startswith("Rattle.") and module.split(".")[1] != "std":
                continue
            foreign.update(n.strip().split(" as ")[0].strip() for n in names.split(","))
        if path.endswith(".antt") and not GOALS.search(path):
            found.update(n for n in WORD.findall(re.sub(r"--.*", "", t)) if older(n))
    return {n: respelled(n) for n in found - foreign}


def respell_antt(t, names, goals):
    def respell_code(code):
        def word(m):
            n = m.group(0)
            if n not in names:
                return n
            if goals and m.start() and code[m.start() - 1] == "." and n not in FIELDS:
                return n
            return names[n]

        return re.sub(WORD, word, code)

    lines = []
    for line in t.split("\n"):
        code, dashes, said = line.partition("--")
        lines.append(respell_code(code) + dashes + said)
    return "\n".join(lines)


def respell_rt(t, names):
    aliases = {n: respelled(n) for n in re.findall(r" as ([\w-]+-[\w-]+)", t)}
    lines = []
    ghost = False
    for line in t.split("\n"):
        s = line.strip()
        ghost = ghost or bool(re.match(r"ghost |(requires|ensures)\b|#\[tactic", s))
        if ghost and not s.startswith("//"):
            line = re.sub(r"«(\w+(?:-\w+)+)»", lambda m: respelled(m.group(1)), line)
            line = re.sub(WORD, lambda m: names.get(m.group(0), aliases.get(m.group(0), m.group(0))), line)
        if ghost and (s.endswith((";", "}", ",", "]")) or s == ""):
            ghost = False
        lines.append(line)
    return "\n".join(lines)


def under_its_own_name(t):
    """The gate takes no word of the library under the name of another one of its words."""
    if "AllByRecursion as All" not in t:
        return t
    t = t.replace("AllByRecursion as All", "AllByRecursion")
    return re.sub(WORD, lambda m: "AllByRecursion" if m.group(0) == "All" else m.group(0), t)


def main():
    names = ours()
    targets = collections.defaultdict(set)
    for n, to in names.items():
        targets[to].add(n)
    for to, those in sorted(targets.items()):
        if len(those) > 1:
            raise SystemExit(f"{', '.join(sorted(those))} would all become {to}")
    changed = 0
    for path in files((".rt", ".antt")):
        t = text(path)
        new = respell_rt(t, names) if path.endswith(".rt") else respell_antt(t, names, bool(GOALS.search(path)))
        new = under_its_own_name(new)
        if new != t:
            changed += 1
            with open(path, "w", encoding="utf-8") as f:
                f.write(new)
    print(f"{len(names)} names, {changed} files")


main()
