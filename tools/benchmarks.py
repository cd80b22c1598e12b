#!/usr/bin/env python3
"""Writes docs/BENCHMARKS.md from a benchmark run and a gate's log.

    .ci/run | tee gate.log                                     # leaves target/benchmarks.md
    tools/benchmarks.py gate.log [target/benchmarks.md]        # writes docs/BENCHMARKS.md
    tools/benchmarks.py --compare BEFORE.md [AFTER.md]         # rows whose proved call became slower by a tenth or more, best times

The words stand in tools/benchmarks.template.md; what stands there in braces is filled in here.
"""
import os
import re
import sys

ROOT = os.path.join(os.path.dirname(os.path.abspath(__file__)), "..")
RUN = os.path.join(ROOT, "target", "benchmarks.md")


def read(path):
    return open(path, encoding="utf-8").read()


def tables(run):
    """Title and lines of each table of a run."""
    for part in re.split(r"(?m)^##+ ", read(run))[1:]:
        title, _, rest = part.partition("\n")
        lines = [line for line in rest.split("\n") if line.startswith("|")]
        if lines and "Rattle" in lines[0] + title or "tree verdict" in (lines or [""])[0]:
            yield title.strip(), lines


def cells(line):
    return [cell.strip() for cell in line.strip("|").split("|")]


def minutes(seconds):
    return f"{seconds // 60} min {seconds % 60} s" if seconds >= 60 else f"{seconds} s"


def fill(log, run):
    text, found = read(log), dict(tables(run))
    if not found:
        sys.exit(f"{run} has no tables")
    phases = re.findall(r"^phase: ([a-z]+), (\d+) s, status (\d+)$", text, re.M)
    bad = [name for name, _, status in phases if status != "0"]
    if bad or not phases:
        sys.exit(f"{log} is not of a gate that passed: {', '.join(bad) or 'it has no phases'}")
    edits = re.findall(r"^rt: must-fail ([a-z0-9_/]+)\.edit: refused", text, re.M)
    done = re.findall(r"^rt: ok; .*; (done in this run: .*|every proof .*)$", text, re.M)
    if not done:
        sys.exit(f"{log} has no line of rt ci that all is well")
    ratios = {title: [float(cells(line)[5]) for line in lines[2:] if len(cells(line)) == 6] for title, lines in found.items()}
    over = [f"`{cells(line)[0]}` {cells(line)[5]} ({title})" for title, lines in found.items() for line in lines[2:] if len(cells(line)) == 6 and float(cells(line)[5]) > 1.5]
    values = {
        "tables": "\n\n".join(f"## {title}\n\n" + "\n".join(lines) for title, lines in found.items()),
        "above 1.5": "stand " + "; ".join(over) if over else "there is no row",
        "gate": minutes(sum(int(s) for _, s, _ in phases)),
        "phases": ", ".join(f"{name} {s} s" for name, s, _ in phases),
        "proofs": minutes(int(dict((name, s) for name, s, _ in phases)["proofs"])),
        "done": done[-1],
        "count of edits": str(len(edits)),
    }
    for title, numbers in ratios.items():
        if numbers:
            values["most " + title], values["least " + title] = f"{max(numbers):.2f}", f"{min(numbers):.2f}"
    page = re.sub(r"\{([^{}\n]+)\}", lambda m: values[m.group(1)], read(os.path.join(ROOT, "tools", "benchmarks.template.md")))
    with open(os.path.join(ROOT, "docs", "BENCHMARKS.md"), "w", encoding="utf-8") as out:
        out.write(page)


def nanoseconds(cell):
    number, unit = cell.split()
    return float(number) * {"ns": 1, "us": 1000}[unit]


def compare(before, after):
    old = {(title, cells(line)[0]): nanoseconds(cells(line)[2]) for title, lines in tables(before) for line in lines[2:] if len(cells(line)) == 6}
    slower = 0
    for title, lines in tables(after):
        for line in lines[2:]:
            row = cells(line)
            if len(row) == 6 and (title, row[0]) in old and nanoseconds(row[2]) > 1.1 * old[title, row[0]]:
                slower += 1
                print(f"{title}: {row[0]}: {old[title, row[0]]:.0f} ns, now {nanoseconds(row[2]):.0f} ns")
    print(f"{len(old)} rows before, {slower} slower by a tenth or more")


if __name__ == "__main__":
    words = sys.argv[1:]
    if words[:1] == ["--compare"] and len(words) in (2, 3):
        compare(words[1], words[2] if len(words) == 3 else RUN)
    elif len(words) in (1, 2) and not words[0].startswith("-"):
        fill(words[0], words[1] if len(words) == 2 else RUN)
    else:
        sys.exit(__doc__)
