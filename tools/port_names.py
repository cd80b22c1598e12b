#!/usr/bin/env python3
"""Brings the repository's own definitions and lemmas to today's spelling: words in snake case. Run once at the top, after the kit's port.py.

    python3 tools/port_names.py [--dry]

A name of this repository that has a capital inside (hexValue) or a dash between plain words (room-byte) becomes hex_value, room_byte: in specs/,
proofs/, the clauses of src/ and the edits of must-fail/. Names of functions, exported names, strings and file names stay, and so do names that a
file imports from the kit. Names that would fall together are printed, and the run stops before it writes.
"""
import collections
import glob
import re
import sys

DRY = "--dry" in sys.argv
CAMEL = re.compile(r"(?<![A-Za-z0-9_'])[a-z][a-z0-9]*(?:[A-Z][a-z0-9]*)+")
PLAIN = re.compile(r"[a-z][A-Za-z0-9_']*(?:-[A-Za-z0-9_']+)+$")
WORD = re.compile(r"[^\s(){}\[\];,.\"`|:]+")
USE = re.compile(r"^\s*(?:pub )?use ([^\s{]+)\.\{([^}]*)\}", re.M)
DEFINED = re.compile(r"^\s*(?:(?:pub|abbrev|unfoldable)\s+)*([^\s:({]+)(?:\s*\{ℓ[^}]*\})?\s*:\s", re.M)


def snake(word):
    return CAMEL.sub(lambda m: re.sub(r"(?<=[a-z0-9])([A-Z])", r"_\1", m.group(0)).lower(), word)


crates = sorted(p.split("/")[1] for p in glob.glob("crates/*/src"))
logic = sorted(p for c in crates for p in glob.glob(f"crates/{c}/specs/**/*.antt", recursive=True) + glob.glob(f"crates/{c}/proofs/**/*.antt", recursive=True))
code = sorted(glob.glob("crates/*/src/**/*.rt", recursive=True))
edits = sorted(glob.glob("crates/*/must-fail/*.edit"))
text = {p: open(p, encoding="utf-8").read() for p in logic + code + edits}


def kit_names(t):
    """The words that a file imports from the kit."""
    names = set()
    for path, words in USE.findall(t):
        first = path.split(".")
        own = first[0] == "Rattle" and len(first) > 1 and first[1] in crates
        if not own:
            for w in words.split(","):
                names.add(w.split(" as ")[0].strip())
    return names


own = set()
for p in logic:
    if p.endswith("/Proof.antt"):
        for m in re.finditer(r"^(?:(?:pub|abbrev|unfoldable)\s+)*([^\s:({]+)\s*:\s*(?!tie\.|\{M)", text[p], re.M):
            own.add(m.group(1))
    else:
        own.update(DEFINED.findall(text[p]))
dashed = {n for n in own if PLAIN.match(n)}
# A lemma that would have its function's name gets _lem.
others = {snake(n) for n in own if n not in dashed}
table = {n: snake(n).replace("-", "_") + ("_lem" if snake(n).replace("-", "_") in others else "") for n in dashed}


def turned(word):
    return table.get(word) or snake(word)


def turn(p, t):
    kept = kit_names(t)
    changed = collections.defaultdict(set)
    words = set()

    def one(m):
        w = m.group(0)
        words.add(w)
        if w in kept:
            return w
        new = turned(w)
        if new != w:
            changed[new].add(w)
        return new

    if p.endswith(".antt"):
        out = []
        for line in t.split("\n"):
            # What a comment quotes of the RFC's grammar stays.
            if line.startswith("--") and ("%x" in line or "uXXXX" in line):
                out.append(line)
                continue
            parts = re.split(r'("[^"\n]*")', line)
            out.append("".join(x if i % 2 else WORD.sub(one, x) for i, x in enumerate(parts)))
        out = "\n".join(out)
    elif p.endswith(".rt"):
        parts = re.split(r"""(b?"(?:[^"\\]|\\[\s\S])*"|b?'(?:\\.|[^'\\\n])')""", "\n".join(l if "//" not in l else l.split("//")[0] + "//" for l in t.split("\n")))
        tails = ["//".join([""] + l.split("//")[1:])[2:] if "//" in l else None for l in t.split("\n")]
        body = "".join(x if i % 2 else re.sub(r"[A-Za-z0-9_'-]+", lambda m: m.group(0) if m.group(0) in kept else turned_rt(m, words, changed), x) for i, x in enumerate(parts))
        out = "\n".join(l if tail is None else l + re.sub(r"[A-Za-z0-9_'-]+", lambda m: turned_rt(m, words, changed), tail) for l, tail in zip(body.split("\n"), tails))
    else:
        out = re.sub(r"[A-Za-z0-9_'-]+", lambda m: turned_rt(m, words, changed), t)
    return out, words, changed


def turned_rt(m, words, changed):
    w = m.group(0)
    words.add(w)
    new = turned(w) if not re.search(r"-\d+$", w) else w
    if new != w:
        changed[new].add(w)
    return new


# Lemmas in snake case already, whose function would come to have their name: where each stands or is imported.
LEMMAS = {
    "item_in": ["path_read/proofs/Reading"],
    "by_default": ["season/proofs/Totals"],
    "is_digit": ["season_sum/proofs/Spelled"],
    "same_id": ["verdict/proofs/Theorems"],
    "path_bytes": ["verdict_call/proofs/Spelled", "verdict_call/proofs/loaded/call/Proof", "cli_table/proofs/explanation/list/Proof", "cli_table/proofs/Matches"],
}
for name, places in LEMMAS.items():
    for place in places:
        p = f"crates/{place}.antt"
        text[p] = re.sub(rf"(?<![A-Za-z0-9_.'-]){name}(?![A-Za-z0-9_'-])", name + "_lem", text[p])

bad = 0
out = {}
total = collections.Counter()
for p, t in text.items():
    new, words, changed = turn(p, t)
    out[p] = new
    for n, olds in changed.items():
        total[n] += 1
        if len(olds) > 1 or (p.endswith(".antt") and n in words):
            print(f"together: {p}: {sorted(olds)} and {n if n in words else ''}")
            bad += 1
print(f"{len(total)} names turned, {sum(out[p] != open(p, encoding='utf-8').read() for p in out)} files, {bad} places where names fall together")
if not DRY:
    for p in out:
        if out[p] != open(p, encoding="utf-8").read():
            open(p, "w", encoding="utf-8").write(out[p])
