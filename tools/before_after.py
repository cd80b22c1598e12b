#!/usr/bin/env python3
"""before_after.py OLD NEW [ROUNDS]: the benchmarks of two checkouts, run in turn in one go, compared row by row.

OLD and NEW are checkouts of this repository in which `tools/build.sh library` was run. Their benchmarks are built, then run alternately (5 rounds
unless told otherwise); of each row the proved library's best time counts. Prints every row with its ratio new/old, the dearest last, and ends with status 1
where a row is more than 3 % slower than before. Rows below 100 ns are noisy: look twice before you believe them.
"""
import json
import os
import re
import subprocess
import sys

ALLOWED = 1.03


def programs(checkout):
    """The benchmark programs of a checkout, by name. Built at its top, where its .cargo/config.toml counts: elsewhere both would be built in one place."""
    command = ["cargo", "bench", "--quiet", "--offline", "--no-run", "--message-format=json", "--manifest-path", "rust/Cargo.toml"]
    environment = {name: value for name, value in os.environ.items() if name not in ("CARGO_TARGET_DIR", "CARGO_BUILD_TARGET_DIR")}
    built = subprocess.run(command, capture_output=True, text=True, check=True, cwd=checkout, env=environment).stdout
    found = {}
    for line in built.split("\n"):
        message = json.loads(line) if line.startswith("{") else {}
        if message.get("executable") and "bench" in message["target"]["kind"]:
            found[message["target"]["name"]] = message["executable"]
    return found


def nanoseconds(shown):
    number, unit = shown.split()
    return float(number) * (1000 if unit == "us" else 1)


def rows(program):
    """(title, input) -> the proved library's best time."""
    printed, title, found = subprocess.run([program], capture_output=True, text=True, check=True).stdout, "", {}
    for line in printed.split("\n"):
        title = line[4:] if line.startswith("### ") else title
        cells = [cell.strip() for cell in line.strip("|").split("|")]
        if len(cells) == 6 and re.match(r"[\d.]+ (ns|us)$", cells[2]):
            found[(title, cells[0])] = nanoseconds(cells[2])
    return found


def main(old, new, rounds=5):
    sides = [programs(old), programs(new)]
    if set(sides[0].values()) & set(sides[1].values()):
        sys.exit("both sides are one program")
    best = [{}, {}]
    for _ in range(int(rounds)):
        for name in sorted(sides[0]):
            for side in (0, 1):
                for row, time in rows(sides[side][name]).items():
                    best[side][row] = min(time, best[side].get(row, time))
    compared = sorted((best[1][row] / best[0][row], row) for row in best[0] if row in best[1])
    for ratio, (title, row) in compared:
        print(f"{ratio:.3f}  {best[0][title, row]:>9.0f} -> {best[1][title, row]:>9.0f} ns  {title}: {row}")
    slower = [row for ratio, row in compared if ALLOWED < ratio]
    print(f"{len(compared)} rows, {len(slower)} more than 3 % slower, median {compared[len(compared) // 2][0]:.3f}")
    return 1 if slower else 0


if __name__ == "__main__":
    if len(sys.argv) not in (3, 4):
        sys.exit(__doc__)
    sys.exit(main(*sys.argv[1:]))
