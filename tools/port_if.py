#!/usr/bin/env python3
"""Gives the repository's own if_then_else_ the name whether_then_else_, since today's library has that operator. Run once, after port_crates.py."""
import glob
import re

OLD, NEW = "if◌then◌else◌", "whether◌then◌else◌"
OURS = re.compile(r"Rattle\.text\.specs\.Test\.\{[^}]*" + OLD)
WORD = re.compile(r"(?<![\w.'◌-])if(?![\w'◌-])")


def turned(text):
    """Outside comments and strings."""
    lines = []
    for line in text.split("\n"):
        code, dash, comment = line.partition("--")
        parts = re.split(r'("[^"]*")', code)
        lines.append("".join(p if i % 2 else WORD.sub("whether", p) for i, p in enumerate(parts)) + dash + comment)
    return "\n".join(lines)


def block(text, at):
    depth = 0
    for i in range(at, len(text)):
        depth += text[i] == "{"
        depth -= text[i] == "}"
        if depth == 0:
            return i + 1
    return len(text)


ours = set()
for p in glob.glob("crates/*/specs/**/*.antt", recursive=True) + glob.glob("crates/*/proofs/**/*.antt", recursive=True):
    t = open(p, encoding="utf-8").read()
    if OURS.search(t) or p == "crates/text/specs/Test.antt":
        ours.add(p)
        open(p, "w", encoding="utf-8").write(turned(t).replace(OLD, NEW))
for p in glob.glob("crates/*/src/**/*.rt", recursive=True):
    t = open(p, encoding="utf-8").read()
    if not OURS.search(t) and OLD not in t:
        continue
    ours.add(p)
    t = t.replace(OLD, NEW)
    out, at = "", 0
    for m in re.finditer(r"(?m)^\s*(?:requires|ensures|ghost)\b[^{;\n]*(?=\{)", t):
        if m.start() < at or "ghost use" in m.group(0):
            continue
        end = block(t, m.end())
        out += t[at : m.end()] + WORD.sub("whether", t[m.end() : end])
        at = end
    open(p, "w", encoding="utf-8").write(out + t[at:])
for p in glob.glob("crates/*/must-fail/*.edit"):
    t = open(p, encoding="utf-8").read()
    crate = "/".join(p.split("/")[:2])
    if f"{crate}/{re.search(r'file: (.*)', t).group(1).strip()}" in ours and re.search(r"\bif [^{]* then ", t):
        open(p, "w", encoding="utf-8").write(re.sub(r"\bif (?=[^{]* then )", "whether ", t))
print(len(ours), "files")
