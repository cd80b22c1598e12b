#!/usr/bin/env python3
"""Reads the tree and lists places to look at; a row is no verdict. Run it at the top of the repository.

    review.py unused [-w] [DIR..]        names that a `use` or `ghost use` line brings and the file does not mention (-w: takes them away)
    review.py repeats [LINES] [MOST]     runs of LINES lines (8) or more with the same shape, names and numbers aside; the MOST (12) longest
    review.py contracts                  public functions that promise little: no `ensures`; `ensures` that equate nothing; a `&mut` lent and
                                         nothing said of its `.exit`; an exported function with a `requires`
    review.py names                      names of definitions that stand in more than one crate, with the files
    review.py wide                       lines over 160 columns in src/ and specs/, over 300 in proofs/
"""
import glob
import os
import re
import sys
from collections import defaultdict

from uses import without_unused


def read(path):
    with open(path, encoding="utf-8") as f:
        return f.read()


def sources(roots=("crates",), endings=(".rt", ".antt")):
    return sorted(f for r in roots for f in glob.glob(f"{r}/**/*", recursive=True) if f.endswith(endings) and os.path.isfile(f))


def unused(*args):
    found = False
    for path in sources([a for a in args if a != "-w"] or ("crates",)):
        text, gone = without_unused(read(path), "--" if path.endswith(".antt") else "//")
        if gone:
            found = True
            print(f"{path}: {', '.join(gone)}")
            if "-w" in args:
                with open(path, "w", encoding="utf-8") as f:
                    f.write(text)
    return found


# ---- repeats

PASSED = re.compile(r"^\s*(--|//|use |ghost use |pub mod |mod |pub use |[)\]},;(]*\s*$)")
KEPT = {"if", "else", "while", "let", "mut", "return", "match", "fn", "pub", "unfolding", "abbrev", "unfoldable", "where", "record",
        "search", "needs", "omega", "arith", "simp", "rw", "cc", "refl", "ap", "subst", "λ", "true", "false", "λ.", "in", "as"}


def shape(line):
    words = re.findall(r"[\w'′·₀-₉-]+|\S", line.split(" -- ")[0].split(" // ")[0])
    return " ".join(w if w in KEPT or not re.match(r"^[\w'′·₀-₉-]+$", w) else "x" for w in words)


def repeats(least="8", most="12"):
    least, most = int(least), int(most)
    rows = {p: [(n, shape(line)) for n, line in enumerate(read(p).split("\n"), 1) if not PASSED.match(line)] for p in sources()}
    pairs, covered = [], set()
    for (p, i), (q, j), more in twins(rows, least):
        if p == q and abs(i - j) < least or (p, i, q, j) in covered:
            continue
        x, y, n = rows[p], rows[q], 0
        while i + n < len(x) and j + n < len(y) and x[i + n][1] == y[j + n][1]:
            covered.add((p, i + n, q, j + n))
            n += 1
        pairs.append((n, f"{p}:{x[i][0]}-{x[i + n - 1][0]} ~ {q}:{y[j][0]}-{y[j + n - 1][0]}" + (f" (+{more} more places)" if more else "")))
    for n, where in sorted(pairs, reverse=True)[:most]:
        print(f"{n} lines: {where}")
    if len(pairs) > most:
        print(f"(+{len(pairs) - most} more)")


def twins(rows, least):
    """Two places with the same shape over `least` lines, and how many more there are; thin lines say nothing."""
    seen = defaultdict(list)
    for path, lines in rows.items():
        for i in range(len(lines) - least + 1):
            window = tuple(s for _, s in lines[i:i + least])
            if sum(map(len, window)) >= 12 * least:
                seen[window].append((path, i))
    return [(places[0], places[1], len(places) - 2) for places in seen.values() if 2 <= len(places) <= 6]


# ---- contracts

FUNCTION = re.compile(r'^(\s*)((?:#\[no_mangle\]\s*)?pub )(extern "C" )?fn (\w+)')


def contracts():
    rows = []
    for path in sources(endings=(".rt",)):
        lines = read(path).split("\n")
        for n, line in enumerate(lines):
            m = FUNCTION.match(line)
            if m and m.group(4) != "main":
                rows += [f"{path}:{n + 1} {m.group(4)}: {row}" for row in promises_little(contract(lines, n, m.group(1)), bool(m.group(3)))]
    print("\n".join(rows + [f"{len(rows)} rows"]))


def contract(lines, n, indent):
    """A function's head, up to the bracket that opens its body."""
    for k in range(n, min(n + 80, len(lines))):
        opens = re.search(r"[\w)\]>] \{(.*\})?$", lines[k]) and not re.search("[⌜λ]", lines[k])
        if opens or k > n and lines[k] == indent + "{":
            break
    return "\n".join(lines[n:k + 1])


def promises_little(text, exported):
    asked, _, promised = text.partition("ensures")
    if not promised:
        yield "no ensures"
    elif "≡" not in promised:
        yield "its ensures equate nothing"
    if "&mut" in asked and ".exit" not in text and not re.search(r"->\s*&('\w+ )?mut", text):
        yield "is lent a &mut and says nothing of its exit"
    if exported and "requires" in text:
        yield "is exported and has a requires"


# ---- names

DEFINED = re.compile(r"^(?:  )?(?:(?:unfoldable|abbrev)(?: pub)?|pub (?:data|record)|data|record) (?!mutual)([^\s:(){}]+)", re.M)


def names():
    files = defaultdict(set)
    for path in sources(endings=(".antt",)):
        if "/specs/" in path:
            for name in DEFINED.findall(read(path)):
                files[name].add(path)
    crates = {name: {p.split("/")[1] for p in paths} for name, paths in files.items()}
    rows = sorted(name for name in files if len(crates[name]) > 1)
    for name in rows:
        print(f"{name}: {', '.join(sorted(files[name]))}")
    print(f"{len(rows)} of {len(files)} names")


# ---- widths

def wide():
    rows = []
    for path in sources():
        most = 300 if "/proofs/" in path else 160
        rows += [f"{path}:{n} {len(line)}" for n, line in enumerate(read(path).split("\n"), 1) if len(line) > most]
    print("\n".join(rows + [f"{len(rows)} lines"]))
    return bool(rows)


COMMANDS = {"unused": unused, "repeats": repeats, "contracts": contracts, "names": names, "wide": wide}

if __name__ == "__main__":
    command, *rest = sys.argv[1:] or ["help"]
    sys.exit(COMMANDS[command](*rest) if command in COMMANDS else __doc__)
