"""What the tests of exports, promises and assumptions read in sources: files without comments, `use` lines, parameters."""
import re
from pathlib import Path

USE = re.compile(r"^(?:ghost |pub )?use\s+([^\s{;]+?)(?:\.\{([^}]*)\})?(?:\s+as\s+(\S+?))?;?$", re.M)


def program(path):
    """A file of Rattle without its comments."""
    return re.sub(r"/\*.*?\*/|//[^\n]*", "", Path(path).read_text(encoding="utf-8"), flags=re.S)


def definitions(path):
    """A file of antt without its comments."""
    return re.sub(r"(?m)(?:^|(?<=\s))--(?=\s|$).*$", "", Path(path).read_text(encoding="utf-8"))


def plain(text):
    """The text with one space for white space, and none within brackets."""
    return re.sub(r"(?<=[({]) | (?=[)}])", "", " ".join(text.split()))


def imports(text):
    """What `use` lines bring in: triples of a name, the module that it comes from and its name there, which a module as a whole does not have."""
    for module, names, alias in USE.findall(text):
        if not names:
            yield alias or module.split(".")[-1], module, None
        for name in names.split(",") if names else []:
            there, _, here = (part.strip() for part in name.partition(" as "))
            yield here or there, module, there


def parameters(text):
    """The parameters that a text begins with, `(a b : T) {c : U} → ..`, as pairs of a name and a type, which keeps its braces; and the text behind them."""
    found, text = [], text.strip()
    while text.startswith(("(", "{")):
        depth = end = 0
        while not end or depth:
            depth += (text[end] in "({") - (text[end] in ")}")
            end += 1
        names, colon, kind = text[1 : end - 1].partition(" : ")
        if not colon:
            break
        found += [(name, plain(kind) if text[0] == "(" else f"{{{plain(kind)}}}") for name in names.split()]
        text = text[end:].strip()
    return found, text.removeprefix("→").strip()
