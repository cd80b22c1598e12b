#!/usr/bin/env python3
"""Every exported function is proved to do what its constructor of `PublicCall` says, whatever it is given.

    tests/exports.py           tries that
    tests/exports.py --names   the names of the exported functions, one to a line

`burgee_path_read` is the function of `PathRead`, and is given what the constructor is given, in the same order. Its contract is one `ensures` and no
`requires`, and has to be the text that follows from its parameters, but for white space: it answers `word` of its call, and what it is lent to store to is
`after` of its call. The names of the contract are those of crates/burgee/specs, and `≡` is the library's: a file that brings in another `≡` has contracts
that look right and say nothing. What they cite, but for `outcome`, is compared to the letter as well. All of them stand in crates/burgee_c, the static
library, and each calls the function of its name of crates/burgee, which has the very same contract.

The exported functions, the constructors, the declarations of the C header, the calls of the Rust tests, the rows of docs/PROMISES.md and the calls whose
answers are read back from their words (promises/specs/Words) are the same set.
"""
import re
import sys
from pathlib import Path

from sources import USE, definitions, imports, parameters, plain, program

CALLS = "crates/burgee/specs/Calls.antt"

# the type that a constructor has for a parameter
TYPES = {"&[u8]": "Str", "&mut [u8]": "Str", "u32": "ℕ", "&mut Record": "Record"}

# a record that is given by its numbers
NUMBERS = ["kind", "live_slot", "live_len", "rotating", "candidate_len"]

# where the names of a contract come from, besides its constructor; `result`, `now`, `old`, `new` and `×` are lent to every contract
OWN = "Rattle.burgee.specs.Calls"
PRELUDE = "Rattle.std.specs.Prelude"
SOURCES = {"◌≡◌": PRELUDE, "word": OWN, "after": OWN, "buffer": OWN, "held": OWN, "record_of": OWN}
LENT = {"result", "now", "old", "new", "◌×◌"}

# what contracts cite, to the letter, since they say no more than this; what `outcome` is, the promises say
CITED = [
    "pub record Loan : Type 0 where\n  pub rec : Option Record\n  pub bytes : Str",
    "buffer out = record { rec = none; bytes = out }",
    "held rec store = record { rec = some rec; bytes = store }",
    "record_of kind slot len rotating candidate = record { kind = kind; live_slot = slot; live_len = len; rotating = rotating; candidate_len = candidate }",
    "word c = (outcome c).word",
    "before c = (outcome c).before",
    "after c = (outcome c).after",
]

EXPORT = re.compile(r'#\[unsafe\(no_mangle\)\]\s*pub extern "C" fn (\w+)\(([^)]*)\) -> (.*?)\n\{\n(.*?)\n\}', re.S)
OF_LIBRARY = re.compile(r"\bpub fn (burgee_\w+)\(([^)]*)\) -> (.*?)\n\{", re.S)

failures = []


def fail(text):
    failures.append(text)
    print(f"exports: {text}")


class Export:
    """An exported function: its parameters as pairs of a name and a type, and all that stands between these and its body."""

    def __init__(self, path, name, listed, contract, body=""):
        self.path, self.name, self.contract, self.body = path, name, plain(contract), plain(body)
        self.parameters = [tuple(map(plain, p.split(":"))) for p in listed.split(",") if p.strip()]
        self.call = "".join(part.capitalize() for part in name.removeprefix("burgee_").split("_"))
        self.by_numbers = [name for name, _ in self.parameters[: len(NUMBERS)]] == NUMBERS

    def given(self):
        """What its constructor is given: pairs of a name and a type."""
        given = [(name, TYPES.get(kind, kind)) for name, kind in self.parameters]
        return [("rec", "Record")] + given[len(NUMBERS) :] if self.by_numbers else given

    def prescribed(self):
        """Its contract as it has to be."""
        values = [name + (".old" if kind.startswith("&mut") else ".now" if kind.startswith("&") else "") for name, kind in self.parameters]
        if self.by_numbers:
            values[: len(NUMBERS)] = [f"(record_of {' '.join(NUMBERS)})"]
        call = f"({self.call} {' '.join(values)})"
        lent = [name for name, kind in self.parameters if kind.startswith("&mut")]
        left = {name: f"{name}.{'new' if name in lent else 'now'}" for name, _ in self.parameters}
        says = f"result ≡ word {call}"
        if lent and dict(self.parameters)[lent[0]] == "&mut Record" and "store" in left:
            says = f"({says}) × (held {left[lent[0]]} {left['store']} ≡ after {call})"
        elif lent:
            says = f"({says}) × (buffer {left[lent[0]]} ≡ after {call})"
        return f"u64 ensures {{{says}}}"

    def calls(self):
        """Its body as it has to be: the call of the function of its name, of the same file of `burgee`, on the very parameters."""
        module = "" if self.path.stem == "lib" else f"{self.path.stem}::"
        return f"burgee::{module}{self.name}({', '.join(name for name, _ in self.parameters)})"


def exported():
    """The exported functions. All of them stand in `burgee_c`, and each is written in the one way."""
    found = [Export(path, *parts) for path in sorted(Path("crates/burgee_c/src").rglob("*.rt")) for parts in EXPORT.findall(program(path))]
    marks = sum(len(re.findall(r"\bno_mangle\b|\bextern\b", program(path))) for path in Path("crates").glob("*/src/**/*.rt"))
    if marks != 2 * len(found) or not found:
        fail(f"{len(found)} functions are exported from burgee_c as they should be, and {marks} marks of exports or of C functions stand in crates/*/src")
    return found


def of_library():
    """The functions of `burgee` that these call."""
    return [Export(path, *parts) for path in sorted(Path("crates/burgee/src").rglob("*.rt")) for parts in OF_LIBRARY.findall(program(path))]


def constructors():
    """The constructors of PublicCall, and what each is given."""
    _, found, block = definitions(CALLS).partition("pub data PublicCall : Type 0 where\n")
    if not found:
        fail(f"{CALLS} has no PublicCall")
    lines = re.match(r"(?:  .*\n|\n(?=  ))*", block).group()
    return {name: parameters(rest)[0] for name, rest in re.findall(r"^  (\w+) : (.*) → PublicCall$", lines, re.M)}


def try_cited():
    """What the contracts cite is defined as it has to be."""
    for text in CITED:
        if not re.search(rf"^{re.escape(text)}$(?!\n +\S)", definitions(CALLS), re.M):
            fail(f"{CALLS} does not say: {text}")


def try_contract(export):
    """The contract is the prescribed one, and no parameter hides a name of it."""
    if export.contract != export.prescribed():
        fail(f"{export.name}: its contract is not that of {export.call}.\n  it is:        {export.contract}\n  it has to be: {export.prescribed()}")
    for name, kind in export.parameters:
        if kind.startswith("&mut") and not re.search(rf"\b{name}\.new\b", export.contract):
            fail(f"{export.name}: its contract does not say what it leaves in {name}")
        if name in {export.call} | LENT | set(SOURCES):
            fail(f"{export.name}: its parameter {name} hides a name of its contract")


def try_names(path, exports):
    """The names in the contracts of a file mean what they should."""
    text = program(path)
    if re.search(r"\bghost\b", USE.sub("", text)):
        fail(f"{path} has `ghost` elsewhere than in a line `ghost use`")
    brought = {}
    for name, module, there in imports("\n".join(use[0] for use in USE.finditer(text) if use[0].startswith("ghost"))):
        if name in brought or name != there or name in LENT or "◌" in name and module != PRELUDE:
            fail(f"{path} brings in {name} of {module} as it should not")
        brought[name] = module
    spoken = {word for export in exports for word in re.split(r"[\s(){}.]+", export.contract)}
    for name, module in (SOURCES | {export.call: OWN for export in exports}).items():
        if name.strip("◌") in spoken and brought.get(name) != module:
            fail(f"{path}: {name}, which its contracts name, does not come from {module}")


def same(what, names, others):
    for name in sorted(names ^ others):
        fail(f"{name}: {'a call, but not among' if name in names else 'not a call, but among'} {what}")


def rows():
    """The calls that docs/PROMISES.md has a row for."""
    for line in Path("docs/PROMISES.md").read_text(encoding="utf-8").splitlines():
        if line.startswith("| `burgee_"):
            yield from re.findall(r"`(burgee_\w+)`", line.split("|")[1])


def main():
    exports = exported()
    names = {export.name for export in exports}
    if sys.argv[1:] == ["--names"]:
        print("\n".join(sorted(names)))
        return
    calls = constructors()
    try_cited()
    for path in {export.path for export in exports}:
        try_names(path, [export for export in exports if export.path == path])
    inner = {export.name: export for export in of_library()}
    same("the functions of crates/burgee", names, set(inner))
    for path in {export.path for export in inner.values()}:
        try_names(path, [export for export in inner.values() if export.path == path])
    for export in exports:
        try_contract(export)
        if export.body.replace(", )", ")").replace(",)", ")") != export.calls():
            fail(f"{export.name} is not the call of its function of burgee: {export.body}")
        if export.name in inner:
            try_contract(inner[export.name])
        if export.call in calls and calls[export.call] != export.given():
            fail(f"{export.name} is given {export.given()}, and {export.call} {calls[export.call]}")
    same("the constructors of PublicCall", {export.call for export in exports}, set(calls))
    header = re.sub(r"/\*.*?\*/", "", Path("include/burgee.h").read_text(encoding="utf-8"), flags=re.S)
    same("the declarations of include/burgee.h", names, set(re.findall(r"^uint64_t (burgee_\w+)\([^)]*\);", header, re.M)))
    rust = "\n".join(path.read_text(encoding="utf-8") for path in Path("rust/src/boundary").glob("*.rs"))
    same("the calls of rust/src/boundary", names, set(re.findall(r"^call!\(\w+ = (burgee_\w+)\(", rust, re.M)))
    listed = list(rows())
    same("the rows of docs/PROMISES.md", names, set(listed))
    if len(listed) != len(set(listed)):
        fail("docs/PROMISES.md has two rows for a call")
    read_back = set(re.findall(r"\(word \((\w+) ", definitions("crates/promises/specs/Words.antt")))
    if "publicly" in read_back:  # the calls on a record, which Leaves names one by one
        leaves = Path("crates/promises/specs/Leaves.antt").read_text(encoding="utf-8")
        named = {new: old for old, new in re.findall(r"(\w+) as (\w+)", leaves)}
        read_back = read_back - {"publicly"} | {named.get(name, name) for name in re.findall(r"(?m)^publicly .* = (\w+) ", leaves)}
    same("the calls of crates/promises/specs/Words.antt", set(calls), read_back)
    if not failures:
        print(f"exports: {len(exports)}, each with the contract of its call, ok")


main()
sys.exit(1 if failures else 0)
