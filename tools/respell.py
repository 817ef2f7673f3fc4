#!/usr/bin/env python3
"""Spells the names of specs/ and proofs/ as the library spells its own, and gives the crate `bytes` another name.

usage: python3 tools/respell.py        at the top of the repository, once, after the kit's own script

A function or a lemma is in snake case, a fact or a type in camel case; a dash joins two names of definitions and
nothing else. Names of src/, strings, inputs and outputs stay. It stops where two names of a crate would fall together.
"""

import os
import re
import sys

# dashes that join two names of definitions
JOINED = {
    "encode-digit", "fit-unpacked", "hexOf-append", "length-bytesOf", "length-layered", "length-packed", "packed-unpacked",
}
# names that would fall together with another, and what they are called in place of it
OTHER = {"pages": {"letter_at": "letter_at_lem"}}
# a crate that the kit has too
CRATES = {"bytes": "big_endian"}

WORD = r"[\w'-]"
HEAD = re.compile(r"^(?:abbrev pub|unfoldable pub|pub data|pub record|abbrev|unfoldable|data|record|pub)\s+([^\s:({]+)")
PLAIN = re.compile(r"^([^\s:({-][^\s:({]*)\s*:")
FIELD = re.compile(r"^\s+(?:pub\s+)?([\w'-]+)\s*:\s")


def spelled(name):
    """How a name is spelled."""
    if name[0].isupper():
        return "".join(part[0].upper() + part[1:] for part in name.split("-")) if "-" in name else name
    snake = re.sub(r"(?<=[a-z0-9])([A-Z])", lambda m: "_" + m.group(1).lower(), name)
    return snake if name in JOINED else snake.replace("-", "_")


def texts(folder, endings):
    for where, dirs, files in os.walk(folder):
        dirs[:] = sorted(d for d in dirs if d != "out")
        for f in sorted(files):
            if f.endswith(endings):
                yield os.path.join(where, f)


def declared(path):
    """The names that a file of specs/ or proofs/ declares, but for those that the check gives to goals."""
    found = set()
    with open(path, encoding="utf-8") as f:
        for line in f:
            m = HEAD.match(line) or PLAIN.match(line) or FIELD.match(line)
            if m and "goal." not in line and m.group(1) not in ("mod", "use", "--"):
                found.add(m.group(1))
    return found


def main():
    crates = sorted(os.listdir("crates"))
    if any(new in crates for new in CRATES.values()):
        sys.exit("respell: this was done already")
    all_names, per_crate = set(), {}
    for crate in crates:
        own = set()
        for part in ("specs", "proofs"):
            for path in texts(os.path.join("crates", crate, part), ".antt"):
                own |= declared(path)
        per_crate[crate] = own
        all_names |= own
    renamed = {n: spelled(n) for n in all_names if spelled(n) != n}
    for crate, own in per_crate.items():
        other = OTHER.get(crate, {})
        seen = {}
        for n in sorted(own):
            to = other.get(n, renamed.get(n, n))
            if seen.get(to, n) != n:
                sys.exit(f"respell: in {crate} {seen[to]} and {n} would both be {to}")
            seen[to] = n
    for crate in crates:
        table = dict(renamed)
        table.update({n: to for n, to in OTHER.get(crate, {}).items() if n in per_crate[crate]})
        pattern = re.compile(rf"(?<!{WORD})({'|'.join(sorted(map(re.escape, table), key=len, reverse=True))})(?!{WORD})")
        for path in texts(os.path.join("crates", crate), (".rt", ".antt")):
            with open(path, encoding="utf-8") as f:
                old = f.read()
            new = pattern.sub(lambda m: table[m.group(1)], old)
            for was, now in CRATES.items():
                new = re.sub(rf"\bRattle\.{was}\.", f"Rattle.{now}.", new)
                new = re.sub(rf"^(pub use|use) {was}::", rf"\1 {now}::", new, flags=re.M)
            if new != old:
                with open(path, "w", encoding="utf-8") as f:
                    f.write(new)
    with open("crates.txt", encoding="utf-8") as f:
        lines = f.read().splitlines()
    for was, now in CRATES.items():
        lines = [l if l.startswith("#") else re.sub(rf"\b{was}\b", now, l) for l in lines]
        os.rename(os.path.join("crates", was), os.path.join("crates", now))
    with open("crates.txt", "w", encoding="utf-8") as f:
        f.write("\n".join(lines) + "\n")
    for n in sorted(renamed):
        print(n, renamed[n])


main()
