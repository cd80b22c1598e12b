#!/usr/bin/env python3
"""Takes the counting out of proof files. Run it at the top of the repository.

Of the older kit, and kept for who reads the history: it works on proof files (Proof.antt) and by commands (`rt dev`, `rt goals`) that today's rt does not have.

    prove.py dev CRATE [WORDS..]           rt dev, shortened; the proof files that it offers are written where none stands yet
    prove.py things CRATE FUNCTION         for each need: the things on the way to it, nearest first, with their fields
    prove.py fill CRATE FUNCTION [FILE]    puts answers into an offered proof file: lines `NAME := BODY` (a body may go on in indented lines;
                                           `NAME [f g] := BODY` unfolds f and g; `use ..` lines are added) of FILE or standard input;
                                           a need with no line gets `search needs`
    prove.py returns CRATE FUNCTION SPECS-MODULE DEF[,DEF..]
                                           answers the open `returns` needs of a decision function (tests and returns, no loop) by a rewrite
                                           with the tests on the way, in code order
    prove.py expand CRATE FUNCTION         writes the places of proofs/FUNCTION/Proof.antt from the goals: each `@THING` of an answer, and
                                           the places that stand there; and the list of `spec`
    prove.py share CRATE                   an answer that repeats an earlier one of its file, at a place that lies on the way, is answered by that
                                           one; each is tried by rt dev, and what is refused stays as it was
    prove.py spare CRATE                   an answer that names no law, only facts on the way, is left to the search; tried in the same way
    prove.py tidy [CRATE.. | FILE..]       brings proof files (default: all) into the form of answers.py, then rt fmt; in the other files of
                                           proofs/ it only breaks lines over 300 columns

An answer cites facts at places: write `@loop .inv`, `@str-at .ensures`, `@if1 .taken`, `@start .args .f`, and expand. After an added call or
local a second `expand` repairs all places, gives each new need `search needs`, and names what a person has to mend. FUNCTION is its folder under
proofs/, as `scan/find`; a cycle of calls is `+even+odd`. RT=COMMAND runs another `rt`.
"""
import glob
import os
import re
import subprocess
import sys

import answers
from places import RT, goals, make_goals, read_goals


def read(path):
    with open(path, encoding="utf-8") as f:
        return f.read()


def write(path, text):
    os.makedirs(os.path.dirname(path), exist_ok=True)
    with open(path, "w", encoding="utf-8") as f:
        f.write(text)


def proof_file(crate, function):
    return f"crates/{crate}/proofs/{function}/Proof.antt"


def proof_files(crate, name="Proof"):
    return sorted(glob.glob(f"crates/{crate}/proofs/**/{name}.antt", recursive=True))


def dev(crate, *words):
    run = subprocess.run([RT, "dev", crate, *words], capture_output=True, text=True, env={**os.environ, "RT_CUT": "0"})
    lines = (run.stdout + run.stderr).split("\n")
    while lines:
        line = lines.pop(0)
        offer = re.match(r"help: write (\S+) with these lines", line)
        if offer:
            take_offer(offer.group(1), indented(lines, "    "))
        elif re.match(r"note: (antt|what antt said)", line):
            indented(lines, "  ")
        elif line and "so this cannot be checked" not in line and not line.startswith("logic /"):
            print(line[:1500])
    return run.returncode


def indented(lines, indent):
    """Takes the lines at the front that are indented or blank."""
    out = []
    while lines and (lines[0].startswith(indent) or not lines[0].strip()):
        out.append(lines.pop(0)[len(indent):])
    return out


def take_offer(path, lines):
    if os.path.exists(path):
        print("offered", path)
    else:
        write(path, "\n".join(lines).rstrip() + "\n")
        print("wrote", path)


def things(crate, function):
    for member, places in goals(crate, function).items():
        for need in places.needs:
            *way, _ = places.chain(need)
            row = [f"{thing}({','.join(places.fields(place))})" for thing, place in way]
            print(" ".join([f"{member} {need}:".strip(), *row, "start(args,pre,good)"]))


def expand(crate, function):
    path = proof_file(crate, function)
    text, wrong = answers.expand(read(path), goals(crate, function))
    write(path, text)
    if wrong:
        print("\n".join(wrong))
        return 1
    return tidy(path)


def tidy(*names):
    files = [f for n in names or ["*"] for f in ([n] if n.endswith(".antt") else proof_files(n, "*"))]
    before = {f: read(f) for f in files}
    for _ in range(4):                                     # rt fmt indents, which may make a line too long
        old = {f: read(f) for f in files}
        left = {}
        for f in files:
            text, left[f] = answers.tidy(old[f]) if f.endswith("/Proof.antt") else (answers.narrow(old[f], answers.WIDEST), [])
            if text != old[f]:
                write(f, text)
        subprocess.run([RT, "fmt"], check=True)
        if all(read(f) == old[f] for f in files):
            break
    for f in files:
        if left[f]:
            print(f"{f}: run expand, the places are unclear: {' '.join(left[f])}")
    after = {f: read(f) for f in files}
    print(f"{sum(after[f] != before[f] for f in files)} of {len(files)} files changed, lines {lines_of(before)} -> {lines_of(after)}")


def share(crate):
    """Answers that repeat an earlier one are answered by it."""
    make_goals(crate)
    files = {f: read(f) for f in proof_files(crate)}
    shared = {f: answers.repeats(t, read_goals(crate, os.path.dirname(f).split("/proofs/", 1)[1])) for f, t in files.items()}
    print(f"{crate}: {keep_accepted(crate, files, shared, answers.with_shared)} answers by an earlier one")


def spare(crate):
    """Answers that the search finds by itself are left to it."""
    files = {f: read(f) for f in proof_files(crate)}
    spared = {f: answers.without_law(t) for f, t in files.items()}
    print(f"{crate}: {keep_accepted(crate, files, spared, answers.with_searched)} answers left to the search")
    return tidy(crate)


def keep_accepted(crate, files, changes, changed):
    """Makes all changes of the files' answers, then takes back those that the prover refuses, until it refuses nothing; how many stay."""
    while any(changes.values()):
        for f in files:
            write(f, changed(files[f], changes[f]))
        run = subprocess.run([RT, "dev", crate], capture_output=True, text=True, env={**os.environ, "RT_CUT": "0"})
        if run.returncode == 0:
            break
        refused = {(f, name) for f, name in re.findall(r"(crates/\S+?):\d+:\d+: error: `([^`]+)`", run.stdout + run.stderr)}
        kept = {f: [c for c in changes[f] if (f, c[0].name) not in refused] for f in files}
        changes = kept if kept != changes else {f: [] for f in files}
    for f in files:
        write(f, changed(files[f], changes[f]))
    return sum(map(len, changes.values()))


def lines_of(texts):
    """The lines with content: not blank, no comment."""
    return sum(not re.match(r"\s*(--.*)?$", line) for t in texts.values() for line in t.split("\n"))


def fill(crate, function, source=None):
    path = proof_file(crate, function)
    wanted, uses = read_answers(read(source) if source else sys.stdin.read())
    blocks, known = answers.blocks_of(read(path)), set()
    for k, block in enumerate(blocks):
        block = re.sub(r"^-- src/[^\n]*\n", "", block)
        head = answers.HEAD.search(block) or re.search(r"^(\S+)(?: [^\s:]\S*)* =", block[block.find("\n") + 1:], re.M)
        if head and (answers.NEED.search(block) or re.match(r"abbrev \S+ : tie\.", block)):
            known.add(head.group(1))
            block = put_answer(block, head.group(1), wanted)
        blocks[k] = block
    first = blocks[0].split("\n")
    blocks[0] = "\n".join([u for u in uses if u not in first] + first)
    write(path, "\n\n".join(blocks) + "\n")
    for name in sorted(set(wanted) - known):
        print(f"no such need: {name} (there are: {' '.join(sorted(known))})")
    return expand(crate, function)


def read_answers(text):
    """({name: (unfolded, body)}, use lines)"""
    wanted, uses, name = {}, [], None
    for line in text.split("\n"):
        m = re.match(r"^([^\s:\[]+)(?: \[([^\]]*)\])? := ?(.*)$", line)
        if line.startswith("use "):
            uses.append(line)
        elif m:
            name = m.group(1)
            wanted[name] = [m.group(2), m.group(3)]
        elif name and line.startswith(" "):
            wanted[name][1] += "\n" + line
    return wanted, uses


def put_answer(block, name, wanted):
    """The block of an offered file with the wanted body, or `search needs` where it had a hole."""
    head, body = re.match(rf"(.*?^{re.escape(name)} (?!:)[^=\n]*=)(.*)", block, re.S | re.M).groups()
    if name not in wanted:
        return head + (" search needs" if body.strip() == "?" else body)
    unfolded, body = wanted[name]
    if unfolded:
        lines = [line for line in head.split("\n") if not line.startswith("unfolding ")]
        head = "\n".join([*lines[:-1], f"unfolding {unfolded}", lines[-1]])
    return f"{head} {body.strip()}"


def returns(crate, function, module, defs):
    (places,) = goals(crate, function).values()
    path, lemmas, defs = proof_file(crate, function), set(), defs.split(",")
    proof = read(path)
    for hole in list(re.finditer(r"^(returns\S*) : (tie\.Need-(\S+))\n(?:unfolding [^\n]*\n)?returns\S* c = \?", proof, re.M)):
        name, need, label = hole.groups()
        answer = f"{name} : {need}\nunfolding {' '.join(defs)}\n{name} c = {rewrite(places, label, lemmas)}"
        proof = proof.replace(hole.group(0), answer)
    uses = ["use mathlib.Core.Path.{sym, _∙_}", f"use Rattle·{crate}·specs.specs.{module}.{{{', '.join(defs)}}}"]
    if lemmas:
        uses.append(f"use borrow.Author.Tests.{{{', '.join(sorted(lemmas))}}}")
    write(path, answers.tidy("\n".join(uses) + "\n" + proof)[0])


def rewrite(places, need, lemmas):
    """`rw` with the tests on the way to the need, closed by the last call's promise."""
    facts, call, chain = [], None, places.chain(need)
    for depth, (thing, place) in enumerate(chain):
        way = "c" + " .before" * depth
        test = re.search(r"pub (taken|left) : (.*)", places.own.get(place, ([], ""))[1])
        if test:
            side, kind = test.group(1), test.group(2).strip()
            lemma = test_lemma(side, kind)
            fact = f"{way} .{thing} .{side}"
            facts.append(f"{lemma} _ _ ({fact})" if lemma else f"sym ({way} .before .{chain[depth + 1][0]} .ensures) ∙ {fact}")
            lemmas |= {lemma} - {None}
        elif thing.startswith("enum-told"):
            facts.append(f"{way} .{thing} .given .1")
        elif depth == 0 and place.startswith("After-") and "known" not in thing:
            call = f"{way} .{thing} .ensures"
    if not facts:
        return call or "refl"
    return f"rw ({', '.join(reversed(facts))})" + (f" ({call})" if call else "")


def test_lemma(side, kind):
    """The lemma that turns the fact of a test of numbers into one on its boolean; None where the test is of a boolean."""
    if kind.startswith("Path'._≡_") and kind.endswith("→ ⊥"):
        return "ne-eqb"
    if kind.startswith("Path'._≡_ {A = Nat.ℕ}"):
        return "eq-eqb"
    for start, taken, left in (("Nat._<_", "lt-ltb", "lt-leb"), ("Nat._≤_", "le-leb", "le-ltb")):
        if kind.startswith(start):
            return left if side == "left" else taken
    return None


COMMANDS = {"dev": dev, "things": things, "fill": fill, "returns": returns, "expand": expand, "share": share, "spare": spare, "tidy": tidy}

if __name__ == "__main__":
    command, *args = sys.argv[1:] or ["help"]
    least = {"dev": 1, "things": 2, "fill": 2, "returns": 4, "expand": 2, "share": 1, "spare": 1}.get(command, 0)
    if command not in COMMANDS or len(args) < least:
        sys.exit(__doc__)
    sys.exit(COMMANDS[command](*args))
