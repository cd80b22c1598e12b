#!/usr/bin/env python3
"""docs/PROMISES.md names what is there, and all of it.

- Each file of crates/promises/specs has a row in the first table, but for those that promise nothing themselves. Each type that it states, and that no
  other promise cites, is proved: the file of its name in proofs/ has a theorem of that very type, with the same parameters.
- Each must-fail edit is named, and each that is named is there. Those that change a definition are marked with a dagger, and no others. Each exported call
  has two at least, and one of them changes a program.
- Each file, folder and crate that the page names is there. Each folder of crates/ is a crate that is proved, `promises` among them.
"""
import glob
import re
import sys
from pathlib import Path

from sources import definitions, imports, parameters, plain

PAGE = "docs/PROMISES.md"
# files of crates/promises/specs that promise nothing themselves
HELPERS = {"Lib", "First"}
# folders of the repository and of crates
FOLDERS = ["bin", "crates", "docs", "examples", "include", "must-fail", "proofs", "rust", "specs", "src", "tests", "tools"]

# the library has a name in several modules: definitions take it from one of them, proofs from another
LIBRARY = "the library"
OWN = {path.name for path in Path("crates").iterdir()}

failures = []


def fail(text):
    failures.append(text)
    print(f"promises: {text}")


def same(names, what, others, where):
    for name in sorted(names ^ others):
        fail(f"{name}: {what}, but not {where}" if name in names else f"{name}: {where}, but not {what}")


# ---- what is stated, and what is proved


def is_own(module):
    return module.startswith("Rattle.") and module.split(".")[1] in OWN


class File:
    """A file of antt: where its names come from, and its declarations as pairs of a text and the parameters of the sections that it stands in."""

    def __init__(self, folder, name):
        self.module = f"Rattle.promises.{folder}.{name}"
        text = definitions(f"crates/promises/{folder}/{name}.antt")
        self.imported = {name: (module, there) for name, module, there in imports(text)}
        self.declared, self.own = [], set()
        lines = [line for line in text.splitlines() if line.strip()]
        indents = [len(line) - len(line.lstrip()) for line in lines]
        sections = []
        for i, line in enumerate(lines):
            end = next((k for k in range(i + 1, len(lines)) if indents[k] <= indents[i]), len(lines))
            block = plain("\n".join(lines[i:end]))
            sections = [(indent, given) for indent, given in sections if indent < indents[i]]
            if block.startswith("module _ "):
                sections.append((indents[i], parameters(block.removeprefix("module _ "))[0]))
            elif named := re.match(r"(?:unfoldable |abbrev |pub |record |data )*([^\s:]+)[^=]* :", block):
                self.own.add(named[1])
                self.declared.append((block, [p for _, given in sections for p in given]))

    def stated(self):
        """The types that it states, each with its parameters."""
        for block, given in self.declared:
            if found := re.match(r"pub record (\S+)(.*?) : Type \d+ where\b|abbrev pub (\S+) : Type \d+$", block):
                yield found[1] or found[3], given + parameters(found[2] or "")[0]

    def proved(self):
        """Its theorems that others may cite: what each is given, and what it says."""
        for block, given in self.declared:
            if found := re.match(r"pub (\S+) : (.*)", block):
                more, says = parameters(found[2])
                yield given + more, says

    def source(self, name):
        """Where a name comes from."""
        for known in (name, f"◌{name}◌", name.split(".")[0]):
            if known in self.imported:
                module, there = self.imported[known]
                return module if is_own(module) else LIBRARY, there
            if known in self.own:
                return self.module, known
        return None


def words(text):
    return re.findall(r"[^\s(){}]+", text)


def renamed(text, names):
    return re.sub(r"[^\s(){}]+", lambda word: names.get(word[0], word[0]), text)


def is_proof(page, name, given, proofs, theorem):
    """Whether a theorem of the file says what is stated under this name, of the same parameters and in names of the same meaning."""
    assumed, says = theorem
    names = {theirs: ours for (theirs, _), (ours, _) in zip(assumed, given)}
    if [renamed(kind, names) for _, kind in assumed] != [kind for _, kind in given] or renamed(says, names).split() != [name] + [n for n, _ in given]:
        return False
    spoken = {name} | {word for _, kind in given for word in words(kind)} - {n for n, _ in given}
    return all(page.source(word) == proofs.source(word) for word in spoken)


def try_promises(rows):
    pages = {path.stem for path in Path("crates/promises/specs").rglob("*.antt")} - HELPERS
    same(pages, "in crates/promises/specs", rows, f"in the first table of {PAGE}")
    files = {name: File("specs", name) for name in pages}
    cited = {}
    for file in files.values():
        for block, _ in file.declared:
            for word in set(words(block)):
                cited[word] = cited.get(word, 0) + 1
    count = 0
    for name in sorted(pages):
        if not Path(f"crates/promises/proofs/{name}.antt").is_file():
            fail(f"{name}: nothing of crates/promises/proofs proves it")
            continue
        proofs = File("proofs", name)
        stated = [(what, given) for what, given in files[name].stated() if cited[what] == 1]
        if not stated:
            fail(f"{name} states no promise")
        for what, given in stated:
            count += 1
            if not any(is_proof(files[name], what, given, proofs, theorem) for theorem in proofs.proved()):
                fail(f"{name}: no theorem of crates/promises/proofs/{name}.antt is `{what}`, of the parameters that it is stated of")
    return count


# ---- the page


def table(page, title):
    """The rows of the table whose first column has this title."""
    found = re.search(rf"^\| {title} \|.*\n\|[-:| ]*\n((?:\|.*\n)+)", page, re.M)
    if not found:
        fail(f"{PAGE} has no table with a column `{title}`")
    return found[1].splitlines() if found else []


def edits_in(text):
    return set(re.findall(r"`([a-z0-9_]+/[a-z0-9_]+)`", text)) - {token for token in re.findall(r"`([^`]+)`", text) if Path(token).exists()}


def try_edits(page):
    edits = {f"{path.parts[1]}/{path.stem}": path.read_text(encoding="utf-8") for path in Path("crates").glob("*/must-fail/*.edit")}
    of_definitions = {name for name, text in edits.items() if "\nfile: specs/" in "\n" + text}
    same(set(edits), "an edit", edits_in(page), f"named as one by {PAGE}")
    same(set(re.findall(r"`([a-z0-9_]+/[a-z0-9_]+)` †", page)), "marked †", of_definitions, "an edit of a definition")
    for row in table(page, "call"):
        named = edits_in(row)
        if row.startswith("| `burgee_") and (len(named) < 2 or named <= of_definitions):
            fail(f"{row.split(' | ')[0].strip('| ')}: not two wrong programs, one of them an edit of a program")
    return len(edits)


def try_files(page):
    """What looks like a file or a folder, of the repository, of a crate or of `promises`, is there; a word in capitals stands for any name."""
    for name in re.findall(rf"`((?:[a-z0-9_]+/)?(?:{'|'.join(FOLDERS)})/[^`\s]*|[a-z0-9_]+/[A-Z]\w*)`", page):
        path = re.sub(r"\b[A-Z]+\b", "*", name.rstrip("/"))
        crate, _, rest = path.partition("/")
        tried = [path, f"crates/{path}", f"crates/promises/{path}", f"crates/{path}.antt", f"crates/{crate}/specs/{rest}.antt"]
        if not any(map(glob.glob, tried)):
            fail(f"{name}: named by {PAGE}, and not there")


def try_crates():
    listed = set(re.findall(r"^(\w+)(?: staticlib)?:", Path("crates.txt").read_text(encoding="utf-8"), re.M))
    same(listed | {"promises"}, "a crate", {path.parent.name for path in Path("crates").glob("*/src")} & listed, "proved")
    same(listed, "in crates.txt", {path.name for path in Path("crates").iterdir() if path.is_dir()}, "a folder of crates/")


def try_named_crates(page):
    """A word of the page that begins as crates do, and is no exported call, nor a definition or a theorem, is a crate."""
    crates = {path.name for path in Path("crates").iterdir()}
    rooms = {crate.split("_")[0] for crate in crates}
    texts = [definitions(path) for part in ("specs", "proofs") for path in Path("crates").glob(f"*/{part}/*.antt")]
    named = {name for text in texts for name in re.findall(r"^ *(?:unfoldable |abbrev )*(?:pub )?([^\s:(){}]+) :", text, re.M)}
    for name in sorted(set(re.findall(r"`([a-z]+(?:_[a-z]+)+)`", page)) - crates - named):
        if name.split("_")[0] in rooms and not name.startswith("burgee_"):
            fail(f"{name}: a crate that {PAGE} names, but not there")


def main():
    page = Path(PAGE).read_text(encoding="utf-8")
    promises = try_promises({re.match(r"\| `(\w+)`", row)[1] for row in table(page, "file")})
    edits = try_edits(page)
    try_files(page)
    try_crates()
    try_named_crates(page)
    if not failures:
        print(f"promises: {promises} with their theorems, {edits} edits, ok")


main()
sys.exit(1 if failures else 0)
