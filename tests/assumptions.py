#!/usr/bin/env python3
"""Nothing is taken on trust but the prover, its libraries and what they say.

- No axiom, no hole, no classical axiom of the library, and no attribute that could leave code out. (The prover refuses these too; here they are seen at once.)
- Definitions and contracts rest on definitions: neither specs/ nor src/ names a file of proofs/, where a reader does not look. (The library keeps some
  plain types, as that of options, in `Rattle.std.proofs.Math`, and in `Rattle.std.proofs.Props` by what a ghost field is seen to be a fact.)
- An operator of the library is the library's in every file: none is declared anew, and definitions and contracts have each from one module. (The prover
  would accept a contract that is written with an `≡` of its own.)
- The exported functions and the promises reach no library that has contracts of C functions, which nothing proves.
"""
import re
import sys
from pathlib import Path

from sources import definitions, imports, program

# libraries of the toolchain that declare functions of C
OF_C = {"libc", "io", "os"}

# where the library has plain types that definitions may name
PLAIN = ("Rattle.std.proofs.Math.", "Rattle.std.proofs.Props.")

# what proofs have operators from: any of its modules
LIBRARY = "the library"

# the modules of the library with the operators of definitions and contracts: the first hands on those of the others
PRELUDE = "Rattle.std.specs.Prelude"
SAME = {"mathlib.Core.List": PRELUDE, "Prim.Native.Nat": PRELUDE}

OWN = {path.name for path in Path("crates").iterdir()}

BARRED = {
    ".antt": {"an axiom": r"(?m)^\s*axiom\b|\bPrim\.Axiom\b", "a hole": r"(?:(?<=[\s(])|^)\?|\{!"},
    ".rt": {
        "an attribute": r"#!?\[(?!unsafe\(no_mangle\)\]|repr\(C\)\]|tactic\(|derive\(|cycle\(|test\])[^\]]*\]",
        "`unsafe`": r"(?<!#\[)\bunsafe\b",
    },
}

failures = []


def fail(text):
    failures.append(text)
    print(f"assumptions: {text}")


def is_own(module):
    return module.startswith("Rattle.") and module.split(".")[1] in OWN


def try_files():
    """What stands in no file, and what no definition or contract may name; the operators, with where they come from."""
    operators = {}
    for path in sorted(p for part in ("src", "specs", "proofs") for p in Path("crates").glob(f"*/{part}/**/*") if p.suffix in BARRED):
        text = definitions(path) if path.suffix == ".antt" else program(path)
        for what, pattern in BARRED[path.suffix].items():
            if found := re.search(pattern, text):
                fail(f"{path}: {what}: {found[0].strip()}")
        for name, module, _ in imports(text):
            is_proof = path.parts[2] == "proofs"
            if ".proofs." in module + "." and not is_proof and not (module + ".").startswith(PLAIN):
                fail(f"{path} rests on a file of proofs: {module}")
            if "◌" in name:
                operators.setdefault(name, {}).setdefault(LIBRARY if is_proof and not is_own(module) else SAME.get(module, module), path)
        for name in re.findall(r"^ *(?:unfoldable |abbrev )*(?:pub )?([^\s:(){}]*◌[^\s:(){}]*) :", text, re.M) if path.suffix == ".antt" else []:
            operators.setdefault(name, {}).setdefault("its own", path)
    return operators


def try_operators(operators):
    for name, modules in operators.items():
        if not all(module == "its own" or is_own(module) for module in modules):
            named = {module: path for module, path in modules.items() if module != LIBRARY}
            if len(named) > 1 or any(module == "its own" or is_own(module) for module in named):
                fail(f"{name} is that of " + ", ".join(f"{module} in {path}" for module, path in modules.items()))


def try_libraries():
    uses = {name: deps.split() for name, deps in re.findall(r"^(\w+)(?: staticlib)?:(.*)$", Path("crates.txt").read_text(encoding="utf-8"), re.M)}
    for root in ("burgee_c", "promises"):
        reached, todo = set(), [root]
        while todo:
            name = todo.pop()
            if name not in reached:
                reached.add(name)
                todo += uses.get(name, [])
        for name in sorted(reached & OF_C):
            fail(f"{root} reaches {name}, whose functions are C's")


try_operators(try_files())
try_libraries()
if not failures:
    print("assumptions: none, ok")
sys.exit(1 if failures else 0)
