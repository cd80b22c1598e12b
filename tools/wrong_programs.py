#!/usr/bin/env python3
"""wrong_programs.py [CRATE/EDIT ..]: runs wrong programs on the inputs that docs/PROMISES.md names for them, and compares their answers with the page's.

Takes the must-fail edits that change a program, or those that are named. `rt` builds no program without its proof, so each is made as `rt try` makes one: from the
sources, proving nothing (tools/unproved.py). Half a minute for each edit; the repository is not touched, but for target/. Run it at its top.
"""
import re
import shutil
import subprocess
import sys
import tempfile
from pathlib import Path

import unproved

PAGE = Path("docs/PROMISES.md").read_text(encoding="utf-8")


def replacements(edit):
    """The files, old texts and new texts of an edit."""
    name = old = None
    for line in edit.read_text(encoding="utf-8").split("\n"):
        if line.startswith("file: "):
            name = line[6:]
        elif line.startswith("old: "):
            old = line[5:]
        elif line.startswith("new:"):
            yield name, old, line[4:].removeprefix(" ")


def copy_of_sources(work):
    """A copy of the crates as they stand, without what rt made of them."""
    tree = work / "tree"
    shutil.copytree("crates", tree / "crates", ignore=lambda folder, _: ["out"] if Path(folder).parent.name == "crates" else [])
    shutil.copy("crates.txt", tree)
    return tree


def answer(command, program):
    """What a command of the page answers with this program as the command line, or as `vectors`."""
    script = f'burgee() {{ {program} "$@"; }}\n. tests/inputs.bash\n{command.replace("target/bin/vectors", str(program))}'
    run = subprocess.run(["bash", "-c", script], stdout=subprocess.PIPE, stderr=subprocess.STDOUT)
    return run.stdout.decode("latin-1").rstrip("\n").replace("\n", "; ")


def main(wanted):
    table = PAGE.split("| crate | edit |", 1)[1]
    rows = [[cell.strip() for cell in line.split("|")[1:-1]] for line in table.splitlines() if line.startswith("| ") and line.count("|") == 6]
    asked = {}
    for crate, edit, command, _, wrong in rows:
        if command.startswith("`") and (not wanted or f"{crate}/{edit}" in wanted):
            asked.setdefault((crate, edit), []).append((command.strip("`"), re.match("`([^`]*)`", wrong)[1]))
    failed = 0
    with tempfile.TemporaryDirectory() as folder:
        work = Path(folder)
        tree = copy_of_sources(work)
        for (crate, edit), inputs in asked.items():
            home = tree / "crates" / crate
            changes = list(replacements(home / f"must-fail/{edit}.edit"))
            if any(name.startswith("specs/") for name, _, _ in changes):
                continue
            kept = {name: (home / name).read_text(encoding="utf-8") for name, _, _ in changes}
            for name, old, new in changes:
                text = (home / name).read_text(encoding="utf-8")
                (home / name).write_text(text.replace(old, new), encoding="utf-8")
            built = {}
            for command, wrong in inputs:
                program = "vectors" if command.startswith("target/bin/vectors") else "cli"
                if program not in built:
                    said = unproved.build(tree, program, work / program)
                    if said:
                        sys.exit(f"{program} is not built: {said}")
                    built[program] = work / program
                got = answer(command, built[program])
                failed += not got.startswith(wrong)
                print(f"{crate}/{edit}: {command}: {got[:200]}" + ("" if got.startswith(wrong) else f" AND NOT {wrong}"), flush=True)
            for name, text in kept.items():
                (home / name).write_text(text, encoding="utf-8")
    return 1 if failed else 0


if __name__ == "__main__":
    sys.exit(main(sys.argv[1:]))
