#!/usr/bin/env python3
"""What the repository measures: the rows of a before/after table for docs/changes.

    tools/measure.py [--root DIR] [--log GATE.LOG] > before.txt
    tools/measure.py [--root DIR] [--log GATE.LOG] --before before.txt      a Markdown table, before and after

Lines of code are neither blank nor comments. GATE.LOG is what `.ci/run` printed.
"""
import argparse
import glob
import os
import re
import sys

sys.dont_write_bytecode = True

# sizes that follow from the limit of keys: where it changes, all of them do
KEY_SIZES = (130, 521, 586, 845, 9377, 13520, 14000, 14001, 43532)


def files(root, pattern):
    return sorted(p for p in glob.glob(os.path.join(root, "crates", "*", pattern), recursive=True) if os.path.isfile(p))


def lines(path):
    return open(path, encoding="utf-8").read().split("\n")


def is_code(line):
    text = line.strip()
    return bool(text) and not text.startswith("//") and not (text == "--" or text.startswith("-- "))


def code(paths):
    return sum(is_code(line) for path in paths for line in lines(path))


def is_in(folder, path):
    return f"{os.sep}{folder}{os.sep}" in path


def over(paths, width):
    found = [len(line) for path in paths for line in lines(path)]
    return max(found, default=0), sum(n > width for n in found)


def commas(n):
    return f"{n:,}"


def believed(root):
    sys.path.insert(0, os.path.dirname(os.path.abspath(__file__)))
    import believed as b

    here = os.getcwd()
    os.chdir(root)
    try:
        read = b.load()
        seen, _ = b.reached(read, b.DETERMINED)
    finally:
        os.chdir(here)
    counts = [sum(len(x["lines"]) for x in f.blocks if id(x) in seen) for f in read.values()]
    return f"{commas(sum(counts))} in {sum(n > 0 for n in counts)} files"


ANSWERS = ("Proof.antt", "Answers.antt", "Invariants.antt")


def sources(root):
    src = files(root, "src/**/*.rt")
    specs = [p for p in files(root, "specs/**/*.antt") if os.path.basename(p) != "Lib.antt"]
    proofs = [p for p in files(root, "proofs/**/*.antt") if os.path.basename(p) != "Lib.antt"]
    answers = [p for p in proofs if os.path.basename(p) in ANSWERS]
    laws = [p for p in proofs if os.path.basename(p) not in ANSWERS]
    yield "crates", commas(sum(bool(re.match(r"[a-z0-9_]+( staticlib)?:", line)) for line in lines(os.path.join(root, "crates.txt"))))
    yield "lines of programs (`src`)", commas(code(src))
    yield "lines of definitions (`specs`)", commas(code(specs))
    yield "of them to be believed", believed(root)
    yield "lines of laws (`proofs`)", commas(code(laws))
    yield "lines of answers (`Answers.antt`, `Invariants.antt`; once `Proof.antt`)", commas(code(answers))
    yield "`let at-` lines in answers", commas(sum(line.strip().startswith("let at-") for p in answers for line in lines(p)))
    yield "`.before` in answers", commas(sum(line.count(".before") for p in answers for line in lines(p)))
    loops = [(above, line) for p in answers for above, line in zip([""] + lines(p), lines(p)) if re.match(r"abbrev Inv-\S+ :", line)]
    yield "loops' invariants; with words above them", f"{len(loops)}; {sum(above.startswith('-- ') for above, _ in loops)}"
    yield "must-fail edits", commas(len(files(root, "must-fail/*.edit")))
    for name, group in (("`src`, `specs`", src + specs), ("`proofs`", proofs)):
        group = [p for p in group if not p.startswith(os.path.join(root, "crates", "limits") + os.sep)]
        found = [sum(len(re.findall(r"(?<![\w.])(?:%s)(?!\w)" % "|".join(map(str, KEY_SIZES)), line)) for line in lines(p) if is_code(line)) for p in group]
        yield f"sizes that follow from the limit of keys as literals, {name}", f"{commas(sum(found))} in {sum(n > 0 for n in found)} files"
    widest, many = over(src + specs, 160)
    yield "widest line of `src`, `specs`; lines over 160", f"{commas(widest)}; {commas(many)}"
    widest, many = over(proofs, 300)
    yield "widest line of `proofs`; lines over 300", f"{commas(widest)}; {commas(many)}"


def minutes(seconds):
    return f"{seconds // 60} min {seconds % 60} s" if seconds >= 60 else f"{seconds} s"


def gate(log):
    text = open(log, encoding="utf-8").read()
    phases = dict((name, int(s)) for name, s in re.findall(r"^phase: ([a-z]+), (\d+) s, status 0$", text, re.M))
    if "proofs" in phases:
        yield "`rt ci`", minutes(phases["proofs"])
    if "lines" in phases:
        yield "`.ci/run`", minutes(sum(phases.values()))
    yield "functions proved", commas(len(set(re.findall(r"^fn (\S+): proved$", text.split("phase: proofs")[0], re.M))))
    done = re.findall(r"^rt: ok; .*; (done in this run: .*|every proof .*)$", text, re.M)
    if done:
        yield "of that", done[-1]
    last = re.findall(r"^\d+ passed, \d+ failed$", text, re.M)
    if last:
        yield "its last line", last[-1]


def main():
    given = argparse.ArgumentParser(description=__doc__, formatter_class=argparse.RawDescriptionHelpFormatter)
    given.add_argument("--root", default=os.path.join(os.path.dirname(os.path.abspath(__file__)), ".."))
    given.add_argument("--log")
    given.add_argument("--before")
    args = given.parse_args()
    rows = list(sources(args.root)) + (list(gate(args.log)) if args.log else [])
    if not args.before:
        print("\n".join(f"{name}\t{value}" for name, value in rows))
        return
    before = dict(line.split("\t", 1) for line in lines(args.before) if "\t" in line)
    print("| | before | after |\n|---|---:|---:|")
    for name, value in rows:
        print(f"| {name} | {before.get(name, '')} | {value} |")


if __name__ == "__main__":
    main()
