#!/usr/bin/env python3
"""Writes the output shown under each `$ command` in README.md and docs/*.md anew, with what the command prints now.

    fixdocs.py [FILE..]      run it at the top of the repository, built; then read `git diff`
"""
import glob
import os
import subprocess
import sys


def output(command):
    env = {**os.environ, "PATH": os.path.join(os.getcwd(), "bin") + os.pathsep + os.environ["PATH"]}
    run = subprocess.run(["bash", "-c", command], env=env, stdout=subprocess.PIPE, stderr=subprocess.STDOUT, text=True)
    return run.stdout.split("\n")[:-1]


def renewed(lines):
    """The lines, where those that follow a `$ command` in a ``` block, up to the next one or the block's end, are its output."""
    out, inside, shown = [], False, False
    for line in lines:
        if line.startswith("```"):
            inside, shown = not inside, False
        if inside and line.startswith("$ "):
            out += [line, *output(line[2:])]
            shown = True
        elif not shown:
            out.append(line)
    return out


def main(files):
    for path in files or ["README.md", *sorted(glob.glob("docs/*.md"))]:
        with open(path, encoding="utf-8") as f:
            lines = f.read().split("\n")
        with open(path, "w", encoding="utf-8") as f:
            f.write("\n".join(renewed(lines)))


if __name__ == "__main__":
    main(sys.argv[1:])
