#!/usr/bin/env python3
"""The definitions that have to be believed: those that the contracts of the exported functions and the statements of the promises reach.

    tools/believed.py            a line for each file: lines of code of the definitions reached, of the others, and the names of the others
    tools/believed.py --total    the total alone
    tools/believed.py --check    docs/READING.md has exactly these files and types, with these numbers of lines, and tests/believed.txt the sums of them
    tools/believed.py --write    puts the numbers into docs/READING.md and the sums into tests/believed.txt, and says which rows are lacking

The sums are there so that no definition and no promise changes unseen: whoever changes one changes its line of tests/believed.txt too.

It goes by names: from the names in the `ensures` of each exported function of `burgee_c`, and from every definition of `promises/specs`, through
`use` lines to definitions, and on from the names in these. Lines of code are those that are neither blank nor comments; `use` lines
are not counted. A name that is also that of a variable may reach too much, never too little.

A function that a promise determines is not followed: whatever its definition says, the promise says what it answers (DETERMINED below).
"""
import glob
import hashlib
import os
import re
import sys

# a function's file and name, the page of promises that speaks of it, and the promises that say what it answers, for each input that occurs
DETERMINED = {
    ("path_read/TextReader", "read_text"): ("PathReturn", ["PathReturn"]),
    ("json_grammar/Parser", "parse"): ("Json", ["JsonPromise"]),
    ("path_read/Calls", "answer"): ("PathReturn", ["FillPromise"]),
    ("path_read/Calls", "lent"): ("PathReturn", ["FillPromise", "AnyBytes", "Leaves", "Words"]),
    ("table/Group", "group_count"): ("Groups", ["GroupPromise", "CountRefusals"]),
    ("verdict/Verdict", "tree"): ("Verdicts", ["TreePromise"]),
    ("verdict_request/Calls", "path_verdict"): ("Verdicts", ["PathPromise", "VerdictRefusals"]),
    ("verdict_request/Calls", "tree_verdict"): ("Verdicts", ["TreePromise", "VerdictRefusals"]),
    ("request_log/Log", "check_log"): ("Season", ["ReportAnswers"]),
    ("season/Calls", "season_answer"): ("Season", ["ReportAnswers"]),
    ("season/Calls", "season_lent"): ("Season", ["ReportAnswers"]),
    ("rpc/Call", "rpc_verdict"): ("Rpc", ["RpcPromise", "RpcRefusals"]),
    ("rotation/Machine", "answers"): ("Rotation", ["StepPromise", "RotationPromise"]),
    ("rotation/Machine", "leaves"): ("Rotation", ["StepPromise"]),
    ("rotation_probe/Probe", "probe_path"): ("Probes", ["Answers", "TableProbePromise"]),
    ("rotation_probe/Probe", "probe_tree"): ("Probes", ["Answers", "TableProbePromise"]),
    ("rotation_probe/Rpc", "probe_rpc"): ("Probes", ["Answers", "PolicyProbePromise"]),
    ("burgee/Calls", "outcome"): ("Words", ["Words", "Leaves"]),
}
# of these not even those who compare definitions read the bodies: they are parsers
PARSERS = {("path_read/TextReader", "read_text"), ("json_grammar/Parser", "parse")}
# which answer of the definitions a program's value is: contracts of programs speak by these, and nothing that is promised does
SPOKEN = {
    ("path_read/Calls", "filled_of"),
    ("rotation/Calls", "step_of"),
    ("rotation/State", "length_of"),
    ("rotation/State", "kind_number"),
    ("rotation/State", "kind_of"),
    ("rotation/State", "force_of"),
    ("rotation_probe/Answer", "answer_of"),
    ("rpc/Answer", "decision_of"),
    ("rpc/Answer", "answer_of"),
    ("table/Checked", "checked_as"),
    ("table/Counted", "counted_as"),
}
DECLARED = re.compile(r"^ *(unfoldable |abbrev |pub (record|data) |(record|data) \S.* where$)")
PLAIN = re.compile(r"^ *pub \S+ :")
NAME = re.compile(r"^ *(?:unfoldable |abbrev )?(?:pub )?(?:(record|data) )?([^\s:(){}]+)")
USE = re.compile(r"^(?:ghost )?use ([^\s{]+?)(?:\.\{([^}]*)\})?(?: as (\S+?))?;?$")


def words(text):
    return set(re.split(r"[\s(){};,.⌜⌝λ«»]+", text)) | set(re.split(r"[\s(){};,⌜⌝λ]+", text))


def mentions(name, tokens):
    if name in tokens:
        return True
    if name in ("◌>>=◌", "◌>>◌"):
        return "do" in tokens or name.strip("◌") in tokens
    parts = [p for p in name.split("◌") if p]
    return "◌" in name and bool(parts) and all(p in tokens for p in parts)


def uncommented(line):
    return re.sub(r"(^|\s)--(\s.*|$)", "", line).rstrip()


def file_of(module, crates="crates"):
    """The file of a module named in a `use` line; None for the libraries; a declared type is `crate:Type`."""
    m = re.match(r"Rattle\.([a-z0-9_]+)\.specs\.(.+)$", module)
    if not m or not os.path.isdir(os.path.join(crates, m.group(1))):
        return None
    crate, path = m.groups()
    if path.startswith("declared."):
        parts = [p for p in path.split(".")[1:] if p != "TheVariants"]
        return f"{crate}:{parts[-1]}"
    return os.path.join(crates, crate, "specs", *path.split(".")) + ".antt"


class File:
    """A file of definitions: what its names stand for, and its blocks, each a definition with its clauses."""

    def __init__(self, path):
        self.path, self.imports, self.aliases, self.blocks, self.of, self.fields = path, {}, {}, [], {}, []
        block = None
        for raw in open(path, encoding="utf-8"):
            line = uncommented(raw.rstrip("\n"))
            indent = len(line) - len(line.lstrip())
            use = USE.match(line)
            if use:
                self.add_use(*use.groups())
            if use or not line.strip() or re.match(r"^(infix[lr]?\b|(unfoldable )?mutual$)", line):
                continue
            inside = block and block["kind"] in ("record", "data") and indent > block["indent"]
            if line.startswith("module "):
                block = self.begin(None, "module", indent)
            elif DECLARED.match(line) or PLAIN.match(line) and not inside:
                kind, name = NAME.match(line).groups()
                block = self.begin(name, kind, indent)
            elif inside:
                inner = re.match(r"^ +(?:pub )?([^:{}()]+?) +:", line)
                for name in inner.group(1).split() if inner else []:
                    self.of.setdefault(name, block)
                    self.fields.append((name, block))
            block["lines"].append(line)

    def begin(self, name, kind, indent):
        block = {"name": name, "kind": kind, "indent": indent, "lines": [], "file": self}
        self.blocks.append(block)
        if name:
            self.of[name] = block
        return block

    def add_use(self, module, names, alias):
        if names is None:
            self.aliases[alias or module.split(".")[-1]] = module
            return
        for name in names.split(","):
            old, _, new = name.strip().partition(" as ")
            self.imports[(new or old).strip()] = (module, old.strip())


def load():
    return {p: File(p) for p in sorted(glob.glob("crates/*/specs/**/*.antt", recursive=True)) if os.path.basename(p) != "Lib.antt"}


def contracts():
    """Pairs of a module and a name that the `ensures` of exported functions mention."""
    for path in sorted(glob.glob("crates/burgee_c/src/**/*.rt", recursive=True)):
        text = open(path, encoding="utf-8").read()
        named = {}
        for line in text.split("\n"):
            use = USE.match(line.strip())
            if use and line.startswith("ghost use") and use.group(2):
                for name in use.group(2).split(","):
                    named[name.strip()] = use.group(1)
        for head in re.findall(r'extern "C" fn .*?\n\{', text, re.S):
            tokens = words(head[head.index("ensures"):])
            for name, module in named.items():
                if mentions(name, tokens):
                    yield module, name


def reached(files, unread):
    """The blocks that are reached, and the types; the functions of `unread` are not followed."""
    seen, types, todo = set(), set(), []

    def want(module, name):
        path = file_of(module)
        if path is None:
            return
        if ":" in path:
            types.add(path)
        elif path in files:
            if (short(path), name) in unread:
                return
            block = files[path].of.get(name)
            if block is None:
                sys.exit(f"{path} has no definition of {name}")
            push(block)

    def push(block):
        if id(block) not in seen:
            seen.add(id(block))
            todo.append(block)

    def follow(file):
        for block in file.blocks if file else []:
            push(block)

    for module, name in contracts():
        want(module, name)
    for path, file in files.items():
        if path.startswith("crates/promises/"):
            follow(file)
    while todo:
        block = todo.pop()
        file = block["file"]
        tokens = words("\n".join(block["lines"]))
        taken = set(re.findall(r"\.\w+", " ".join(block["lines"])))
        for name, other in file.of.items():
            if other is not block and mentions(name, tokens) and (short(file.path), name) not in unread:
                push(other)
        for name, other in file.fields:  # also where a definition has the name of a field
            if other is not block and f".{name}" in taken:
                push(other)
        for name, (module, old) in file.imports.items():
            if mentions(name, tokens):
                want(module, old)
        for alias, module in file.aliases.items():
            for name in {t[len(alias) + 1:].split(".")[0] for t in tokens if t.startswith(alias + ".")}:
                want(module, name)
        for other in file.blocks:  # the parameters that it has from a `module _ .. where`
            if other["kind"] == "module" and block["indent"] > 0:
                push(other)
    return seen, types


def undetermined(files):
    """The functions of DETERMINED that are gone, those of which their page does not speak, and promises that are not there."""
    promised = {name for path, file in files.items() if path.startswith("crates/promises/") for name in file.of}
    for (file, name), (page, promises) in DETERMINED.items():
        crate, stem = file.split("/")
        if name not in files[f"crates/{crate}/specs/{stem}.antt"].of:
            yield f"{file} has no {name}"
        told = files[f"crates/promises/specs/{page}.antt"]
        tokens = words("\n".join(line for block in told.blocks for line in block["lines"]))
        if not mentions("word" if name == "outcome" else name, tokens):
            yield f"promises/{page} does not speak of {name}"
        yield from (f"no page has the promise {promise}, by which {name} is determined" for promise in promises if promise not in promised)


def main():
    files = load()
    seen, types = reached(files, DETERMINED)
    everything, _ = reached(files, PARSERS)
    rows, sums, strangers = [], [], list(undetermined(files))
    for path, file in files.items():
        read = sum(len(b["lines"]) for b in file.blocks if id(b) in seen)
        rest = [b for b in file.blocks if id(b) not in seen and b["name"]]
        if read:
            rows.append((path, read, sum(len(b["lines"]) for b in rest), [b["name"] for b in rest]))
            strangers += [f"{short(path)} has {b['name']}, which nothing reaches" for b in rest if id(b) not in everything and (short(path), b["name"]) not in PARSERS | SPOKEN]
        if any(id(b) in everything for b in file.blocks):
            sums.append(f"{short(path)} {sum_of(b for b in file.blocks if id(b) in everything)}\n")
    total = sum(r[1] for r in rows)
    stated = sum(r[1] for r in rows if r[0].startswith("crates/promises/"))
    determined = sum(len(b["lines"]) for file in files.values() for b in file.blocks if id(b) in everything and id(b) not in seen)
    totals = f"{total:,} lines in {len(rows)} files, {total - stated:,} of definitions and {stated} of promises"
    spared = f"{determined} lines of definitions"
    if "--total" in sys.argv:
        print(totals)
    elif "--check" in sys.argv or "--write" in sys.argv:
        if strangers:
            sys.exit("\n".join(strangers))
        kept(sums, "--write" in sys.argv)
        page(rows, types, totals, spared, "--write" in sys.argv)
    else:
        for path, read, rest, names in rows:
            print(f"{read:5} {rest:4}  {path[len('crates/'):]}  {' '.join(names)}")
        print(totals + f"; {spared} that promises determine")
        print("types of the programs that answers are given in:", " ".join(sorted(types)))


def short(path):
    """The file as docs/READING.md names it."""
    return path[len("crates/"):-len(".antt")].replace("/specs/", "/")


def sum_of(blocks):
    """A sum of definitions, whatever their comments and their layout."""
    words = " ".join(word for block in blocks for line in block["lines"] for word in line.split())
    return hashlib.sha256(words.encode()).hexdigest()[:16]


def kept(sums, write):
    """Compares tests/believed.txt with the sums, or writes it."""
    name = "tests/believed.txt"
    if write:
        open(name, "w", encoding="utf-8").writelines(sums)
    old = open(name, encoding="utf-8").readlines() if os.path.exists(name) else []
    for line in sorted(set(sums) ^ set(old)):
        if line in sums:
            print(f"{name} has no such line, so this file changed: {line.strip()}")
    if sums != old:
        print(f"what has to be believed is not what {name} says; `tools/believed.py --write` renews it")
        sys.exit(1)


def page(rows, types, totals, spared, write):
    name = "docs/READING.md"
    text = open(name, encoding="utf-8").read()
    now = {short(path): read for path, read, _, _ in rows}
    wrong, row = [], re.compile(r"^\| `([a-z0-9_]+/[A-Za-z/]+)` \| (\d+) \|", re.M)
    said = [file for file, _ in row.findall(text)]
    for file in sorted(set(now) - set(said)):
        wrong.append(f"{name} lacks `{file}`, {now[file]} lines")
    for file in said:
        if file not in now or said.count(file) > 1:
            wrong.append(f"{name} has `{file}`, " + ("which nothing reaches" if file not in now else "twice"))
    told = set(re.findall(r"`([a-z0-9_]+)::([A-Z]\w*)`", text))
    for crate, kind in sorted(told ^ {tuple(t.split(":")) for t in types}):
        wrong.append(f"{name} " + ("has" if (crate, kind) in told else "lacks") + f" the type `{crate}::{kind}`" + (", which nothing reaches" if (crate, kind) in told else ""))

    # the numbers: of each file, of each section, of all
    fresh = row.sub(lambda m: f"| `{m.group(1)}` | {now.get(m.group(1), 0)} |", text)
    parts = re.split(r"(?m)^(?=## )", fresh)
    for k, part in enumerate(parts):
        lines = sum(int(n) for _, n in row.findall(part))
        parts[k] = re.sub(r"^(## .*): \d+ lines?, \d+ minutes?$", lambda m: f"{m.group(1)}: {lines} lines, {(lines + 5) // 10} minutes", part, flags=re.M)
    fresh = re.sub(r"[\d,]+ lines in \d+ files, [\d,]+ of definitions and \d+ of promises", totals, "".join(parts))
    fresh = re.sub(r"[\d,]+ lines of definitions(?= that promises determine)", spared, fresh)
    listed = set(re.findall(r"`(\w+)`", "".join(part for part in parts if part.startswith("## Functions that promises determine"))))
    wrong += [f"{name} does not list `{function}` among those that promises determine" for _, function in DETERMINED if function not in listed]
    for old, new in zip(text.split("\n"), fresh.split("\n")):
        if old != new and not write:
            wrong.append(f"{name} says: {old[:90]}\n  and it is: {new[:90]}")
    if write:
        open(name, "w", encoding="utf-8").write(fresh)
    print("\n".join(wrong) if wrong else f"reading: {totals}, ok")
    sys.exit(1 if wrong else 0)


if __name__ == "__main__":
    os.chdir(os.path.dirname(os.path.dirname(os.path.abspath(__file__))))
    main()
