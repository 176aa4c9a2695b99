#!/usr/bin/env python3
"""Counts the places in crates/*/src that docs/DESIGN-PASS.md speaks of, kind by kind.

    python3 tools/places.py [--list] [REVISION]

Without a revision it reads the files as they stand. --list prints each place too.
The pairs of like lines are those of the command `duplicates`, where this machine has it.
"""
import re
import subprocess
import sys
import tempfile
from pathlib import Path

REPO = Path(__file__).resolve().parent.parent


def sources(revision):
    """The text of each file of crates/*/src, by its path."""
    if revision is None:
        return {str(p.relative_to(REPO)): p.read_text() for p in sorted(REPO.glob("crates/*/src/**/*.rt"))}
    names = subprocess.run(["git", "ls-tree", "-r", "--name-only", revision, "crates"], cwd=REPO, capture_output=True, text=True, check=True)
    found = [n for n in names.stdout.splitlines() if "/src/" in n and n.endswith(".rt")]
    show = lambda n: subprocess.run(["git", "show", f"{revision}:{n}"], cwd=REPO, capture_output=True, text=True, check=True).stdout
    return {n: show(n) for n in found}


def proofs(revision):
    """The files of crates/*/proofs and their lines."""
    if revision is None:
        texts = [p.read_text() for p in REPO.glob("crates/*/proofs/**/*.antt")]
    else:
        names = subprocess.run(["git", "ls-tree", "-r", "--name-only", revision, "crates"], cwd=REPO, capture_output=True, text=True, check=True)
        found = [n for n in names.stdout.splitlines() if "/proofs/" in n and n.endswith(".antt")]
        texts = [subprocess.run(["git", "show", f"{revision}:{n}"], cwd=REPO, capture_output=True, text=True, check=True).stdout for n in found]
    return len(texts), sum(t.count("\n") for t in texts)


def matches(files, pattern):
    """Each match of a pattern, with its file and line."""
    found = []
    for name, text in files.items():
        for m in re.finditer(pattern, text, re.M):
            line = text.count("\n", 0, m.start() + len(m.group()) - len(m.group().lstrip())) + 1
            found.append((f"{name}:{line}", " ".join(m.group().split())))
    return found


def small_enums(files):
    """Enums of two variants, of which one has a value: the shape of Option or Result."""
    found = []
    for name, text in files.items():
        for m in re.finditer(r"^\s*(?:pub(?:\(crate\))? )?enum (\w+)[^{]*\{(.*?)^\s*\}", text, re.M | re.S):
            variants = [v.strip() for v in m.group(2).splitlines() if v.strip() and not v.strip().startswith("//")]
            if len(variants) == 2 and any("(" in v for v in variants):
                found.append((f"{name}:{text.count(chr(10), 0, m.start()) + 2}", m.group(1)))
    return found


def repeated_clauses(files):
    """Clauses that stand three times or more, to the letter."""
    places = {}
    for where, clause in matches(files, r"^[ \t]*(?:requires|ensures)[^\n{]*\{.*\}[;]?$"):
        fact = re.sub(r"^(requires|ensures)( \w+)? ", "", clause).rstrip(";")
        places.setdefault(fact, []).append(where)
    return [(f"{len(w)} times, first {w[0]}", f) for f, w in sorted(places.items(), key=lambda x: -len(x[1])) if len(w) >= 3]


def like_lines(files):
    """The rows of `duplicates`, which reads .rs and not .rt."""
    with tempfile.TemporaryDirectory() as folder:
        for name, text in files.items():
            to = Path(folder) / name.replace("crates/", "").replace("/src/", "/").replace(".rt", ".rs")
            to.parent.mkdir(parents=True, exist_ok=True)
            to.write_text(text)
        try:
            ran = subprocess.run(["duplicates", "--repo", folder, "--most", "200", "--seconds", "60"], capture_output=True, text=True)
        except FileNotFoundError:
            return [("", "this machine has no `duplicates`")]
    return [tuple(row.split(" ", 1)) for row in ran.stdout.splitlines() if re.match(r"D\d", row) and "boilerplate" not in row]


KINDS = [
    ("1a numbers or bare structs as errors", lambda f: matches(f, r"Result<.*, (?:u8|u16|u32|u64|usize|bool|\(\)|Spot)>")),
    ("1b enums of the shape of Option or Result", small_enums),
    ("1c a refusal told by its number", lambda f: matches(f, r"\.number == .*")),
    ("1d arms that only hand an error on", lambda f: matches(f, r"Err\((\w+)\) => (?:return )?Err\(\1\)")),
    ("1e a match in the arm of a match", lambda f: matches(f, r"(?:Ok|Some)\(\w+\) => match")),
    ("1f changes that answer a flag", lambda f: matches(f, r"fn \w+\(&mut self[^)]*\) -> bool")),
    ("2 pairs of six or more like lines", like_lines),
    ("3a while and loop", lambda f: matches(f, r"^[ \t]*(?:'\w+: )?(?:while |loop\b).*")),
    ("3b for over numbers from 0", lambda f: matches(f, r"\bfor \w+ in 0\.\..*")),
    ("4a conversions and printing by functions of their own", lambda f: matches(f, r"fn (?:report|number|numbered|equal|line|word_at|two_words|put_word|put|width|put_digits)\(.*")),
    ("4b reports written out", lambda f: [m for m in matches(f, r"^.*\bReport \{$") if not re.search(r"struct|impl|->", m[1])]),
    ("5a clauses that stand three times or more", repeated_clauses),
    ("5b a device and an extent side by side", lambda f: matches(f, r"\bd: &mut D,\s*(?:e|extent): Extent")),
    ("5c a buffer and a place in it side by side", lambda f: matches(f, r"buffer: &mut \[u8\], at: usize")),
    ("6 lengths and arrays side by side", lambda f: matches(f, r"count: usize|&\[u32\]|&\[u32; 256\]|made: usize|room: usize")),
    ("7 functions as values", lambda f: matches(f, r"\bdyn |: fn\(")),
]


def main():
    words = [w for w in sys.argv[1:] if w != "--list"]
    revision = words[0] if words else None
    files = sources(revision)
    for kind, find in KINDS:
        found = find(files)
        print(f"{len(found):4}  {kind}")
        if "--list" in sys.argv:
            for where, what in found:
                print(f"        {where}  {what}")
    count, lines = proofs(revision)
    print(f"{count:4}  8 files of proofs, {lines} lines")


main()
