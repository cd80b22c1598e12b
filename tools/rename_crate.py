#!/usr/bin/env python3
"""rename_crate.py OLD=NEW ..: renames crates, all at once. Run it at the top of the repository.

Moves crates/OLD to crates/NEW and rewrites what names it: `Rattle.OLD` in antt files and ghost lines, `OLD::` and `use OLD::` in programs (where
OLD is a crate there and not a module of the crate's own), the lines of crates.txt and of must-fail edits. Documents, scripts and tests
name crates in backquotes, as `crates/OLD`, `OLD/specs` or after `rt`: these are rewritten too, and the rest is listed for a look.
"""
import os
import re
import subprocess
import sys


def crates():
    """The crates of crates.txt, each with those that it uses."""
    listed = {}
    for line in open("crates.txt", encoding="utf-8"):
        name, colon, used = line.split("#")[0].partition(":")
        if colon:
            listed[name.split()[0]] = used.split()
    return listed


def in_antt(text, names):
    """Names of modules; in comments `crate/specs/..`, `(crate/File)` and `crate::module::function`."""
    def new(match):
        return match.group(1) + names.get(match.group(2), match.group(2))

    text = re.sub(r"(\bRattle\.)([a-z_0-9]+)(?=\.)", new, text)
    text = re.sub(r"((?<![\w/]))([a-z_0-9]+)(?=/(?:specs|proofs|src)/|/[A-Z]\w*\))", new, text)
    return re.sub(r"(`)([a-z_0-9]+)(?=::\w+::\w+`)", new, text)


def in_program(text, names, used, own):
    """Rewrites the crates that this one uses, but for names that `own`, its modules, or the file's imports take."""
    taken = own | set(re.findall(r"^use [\w:]+::(\w+);", text, re.M))

    def rewrite(match):
        name = match.group(1)
        return names[name] + "::" if name in names and name in used and name not in taken else match.group(0)

    return in_antt(re.sub(r"(?<![\w:])([a-z_0-9]+)::", rewrite, text), names)


def modules(folder):
    """The modules that the programs of a crate declare."""
    found = set()
    for path in files(folder + "/src", (".rt",)):
        found |= set(re.findall(r"^\s*(?:pub )?mod (\w+);", open(path, encoding="utf-8").read(), re.M))
    return found


def files(folder, endings):
    for base, _, names in os.walk(folder):
        for name in names:
            if name.endswith(endings):
                yield os.path.join(base, name)


def rewrite_file(path, change):
    text = open(path, encoding="utf-8").read()
    new = change(text)
    if new != text:
        open(path, "w", encoding="utf-8").write(new)


def in_listing(text, names):
    """crates.txt: every word of its lines that names a crate, comments left."""
    lines = []
    for line in text.split("\n"):
        code, mark, comment = line.partition("#")
        lines.append(re.sub(r"[a-z_0-9]+", lambda m: names.get(m.group(0), m.group(0)), code) + mark + comment)
    return "\n".join(lines)


def in_document(text, names):
    """Where a word is certainly the name of a crate."""
    one = "|".join(sorted(names, key=len, reverse=True))
    text = re.sub(rf"(?<![\w/])(crates/)({one})(?![\w])", lambda m: m.group(1) + names[m.group(2)], text)
    text = re.sub(rf"`({one})(?=`|/specs|/proofs|/src|::|/[a-z_]+`)", lambda m: "`" + names[m.group(1)], text)
    text = re.sub(rf"(?<![\w/])((?:rt (?:ci|must-fail)|tools/build.sh) )({one})(?![\w])", lambda m: m.group(1) + names[m.group(2)], text)
    return re.sub(rf"(?<=[(, ])`?({one})(?=/(?:specs|must-fail)/)", lambda m: m.group(0).replace(m.group(1), names[m.group(1)]), text)


def main(pairs):
    names = dict(pair.split("=") for pair in pairs)
    listed = crates()
    unknown = [old for old in names if old not in listed]
    if unknown or not names:
        sys.exit(__doc__ if not names else f"no such crate: {' '.join(unknown)}")
    for name, used in listed.items():
        folder, own = "crates/" + name, modules("crates/" + name)
        for path in files(folder, (".rt", ".edit")):
            rewrite_file(path, lambda text: in_program(text, names, set(used), own))
        for path in files(folder, (".antt",)):
            rewrite_file(path, lambda text: in_antt(text, names))
    for old, new in names.items():
        subprocess.run(["git", "mv", f"crates/{old}", f"crates/{new}"], check=True)
    rewrite_file("crates.txt", lambda text: in_listing(text, names))
    shown = subprocess.run(["git", "ls-files"], capture_output=True, text=True, check=True).stdout.split("\n")
    for path in shown:
        if path.endswith((".md", ".sh", ".py", ".rs")) or path in (".ci/run", "bin/burgee"):
            rewrite_file(path, lambda text: in_document(text, names))


if __name__ == "__main__":
    main(sys.argv[1:])
