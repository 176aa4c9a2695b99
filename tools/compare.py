#!/usr/bin/env python3
"""Compares the programs with those of two other makers of cdb files, on random texts.

    tools/programs
    tools/compare.py [ROUNDS [SEED]]

It needs tinycdb's `cdb` (Debian: tinycdb), and uses freecdb's `cdbmake` and `cdbdump` too where /usr/bin has them (Debian: freecdb).
Each round makes a random text, from which all of them are to make the same bytes; the file is to be accepted, its dump is to be the
text, and each of some keys, there or not, is to have the same data by its number. It ends with status 1 at the first difference.
"""
import os
import random
import subprocess
import sys
import tempfile
from pathlib import Path

OURS = Path(__file__).resolve().parent.parent / "target" / "bin"
FREECDB = [Path("/usr/bin/cdbmake"), Path("/usr/bin/cdbdump")]


def run(words, given=b"", where=None):
    """Standard output and exit status of a program."""
    done = subprocess.run([str(w) for w in words], input=given, capture_output=True, cwd=where)
    return done.stdout, done.returncode


def same(what, ours, theirs):
    if ours != theirs:
        sys.exit(f"{what}: {ours[:200]!r} and not {theirs[:200]!r}")


def some_bytes(rng, most):
    """Few bytes, of which some have a meaning in a text, so that keys repeat and lengths have to be believed."""
    return bytes(rng.choice(b"ab+,:->\n\x00\xff0123") for _ in range(rng.randrange(most)))


def some_records(rng):
    count = rng.choice([0, 1, 2, 10, 100, 1000])
    longest = rng.choice([2, 6, 40, 700])
    keys = [some_bytes(rng, longest) for _ in range(max(1, count // rng.choice([1, 3])))]
    return [(rng.choice(keys), some_bytes(rng, longest)) for _ in range(count)]


def text_of(records):
    return b"".join(b"+%d,%d:%s->%s\n" % (len(k), len(d), k, d) for k, d in records) + b"\n"


def compare(rng, folder):
    records = some_records(rng)
    text = text_of(records)
    (folder / "text").write_bytes(text)
    same("cdbmake's status", run([OURS / "cdbmake", "ours.cdb", "ours.tmp"], text, folder)[1], 0)
    file = (folder / "ours.cdb").read_bytes()
    run(["cdb", "-c", "-t", "tiny.tmp", "tiny.cdb", "text"], where=folder)
    same("tinycdb's file", file, (folder / "tiny.cdb").read_bytes())
    if all(p.exists() for p in FREECDB):
        run([FREECDB[0], "free.cdb", "free.tmp"], text, folder)
        same("freecdb's file", file, (folder / "free.cdb").read_bytes())
        same("freecdb's dump", text, run([FREECDB[1]], file)[0])
    same("the dump", run([OURS / "cdbdump"], file), (text, 0))
    same("tinycdb's dump", text, run(["cdb", "-d", "ours.cdb"], where=folder)[0])
    if len(file) <= 61440:
        same("the audit", run([OURS / "audit"], file)[0].split(b",")[:2], [b"ok", b"%d" % len(records)])
    # An argument has neither zero bytes nor, for our program, bytes that are no text.
    sought = [k for k, _ in records if k.isascii() and b"\x00" not in k and not k.startswith(b"-")][:5] + [b"missing"]
    for key in sought:
        data = [d for k, d in records if k == key]
        for n in range(len(data) + 1):
            wanted = (data[n], 0) if n < len(data) else (b"", 1)
            same("the data", run([OURS / "cdbget", os.fsdecode(key), n], file), wanted)
            # tinycdb counts from 1, and has a status of its own for none.
            same("tinycdb's data", run(["cdb", "-q", "-n", n + 1, "ours.cdb", os.fsdecode(key)], where=folder)[0], wanted[0])
    return len(records)


def main():
    rounds = int(sys.argv[1]) if len(sys.argv) > 1 else 100
    seed = int(sys.argv[2]) if len(sys.argv) > 2 else 1
    total = 0
    for i in range(rounds):
        with tempfile.TemporaryDirectory() as folder:
            total += compare(random.Random(seed * 1000003 + i), Path(folder))
    if total == 0:
        sys.exit("no record was compared")
    print(f"{rounds} texts with {total} records: the same")


main()
