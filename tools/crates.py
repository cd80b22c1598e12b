#!/usr/bin/env python3
"""Holds crates.txt against the crates' files. Run it at the top of the repository.

    crates.py [-w]      names each crate that a file uses and its line lacks (-w: adds it), each that a line has and no file names,
                        and each line that stands above one that it needs; exits 1 where there is something to mend

A crate that no file names may still be needed: a type may be reached through another crate's function. So those are told, and not taken away:
try without, by `rt check` in its folder.
"""
import glob
import os
import re
import sys


# what no line of crates.txt names
LIBRARY = {"std", "core"}


def read_lines():
    with open("crates.txt", encoding="utf-8") as f:
        return f.read().split("\n")


def listed(lines):
    """{crate: the crates of its line}, in the file's order."""
    return {n.split()[0]: d.split() for n, _, d in (line.partition(":") for line in lines if line.strip() and not line.startswith("#"))}


def named_by(crate, crates):
    """The crates that the files of a crate name, by `Rattle.NAME` or in programs by `NAME::`."""
    found = set()
    for path in glob.glob(f"crates/{crate}/s*/**/*", recursive=True) + glob.glob(f"crates/{crate}/proofs/**/*", recursive=True):
        if os.path.isfile(path):
            with open(path, encoding="utf-8") as f:
                text = f.read()
            found |= set(re.findall(r"\bRattle\.([a-z_0-9]+)\b", text))
            if path.endswith(".rt"):
                found |= named_in_program(re.sub(r"//.*", "", text))
    return found & crates - {crate} - LIBRARY


def named_in_program(text):
    """The first words of the paths that are no module of the crate's own and no name that a `use` brings."""
    own = set(re.findall(r"^use [\w:]*::(\w+);", text, re.M)) | set(re.findall(r"^\s*(?:pub )?mod (\w+);", text, re.M))
    first = set(re.findall(r"(?<![\w:])([a-z_0-9]+)::", text))
    return {n for n in first if n not in own or re.search(rf"^use {n}::", text, re.M)}


def main(write):
    lines = read_lines()
    needs = listed(lines)
    order = {name: k for k, name in enumerate(needs)}
    kit = {d for deps in needs.values() for d in deps} - set(needs)
    wrong = []
    for crate, deps in needs.items():
        named = named_by(crate, set(needs) | kit)
        missing = sorted(named - set(deps), key=lambda d: order.get(d, len(order)))
        wrong += [f"{crate}: uses {d}, which its line lacks" for d in missing]
        wrong += [f"{crate}: stands above {d}" for d in deps if order.get(d, -1) > order[crate]]
        for d in deps:
            if d not in named:
                print(f"{crate}: no file names {d}")
        if missing and write:
            deps = sorted({*deps, *missing}, key=lambda d: (order.get(d, len(order)), d))
            k = next(k for k, line in enumerate(lines) if re.match(rf"{crate}( staticlib)?:", line))
            lines[k] = f"{lines[k].partition(':')[0]}: {' '.join(deps)}"
    wrong += [f"{n}: stands in crates/ and not in crates.txt" for n in sorted(os.listdir("crates")) if os.path.isdir(f"crates/{n}/src") and n not in needs]
    print("\n".join(wrong) or "crates.txt has what the files use")
    if write:
        with open("crates.txt", "w", encoding="utf-8") as f:
            f.write("\n".join(lines))
    return bool(wrong)


if __name__ == "__main__":
    sys.exit(__doc__ if sys.argv[1:] not in ([], ["-w"]) else main("-w" in sys.argv))
