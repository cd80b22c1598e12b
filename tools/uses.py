"""The names that `use` lines bring, and which of them a file mentions. (`rt tidy` drops those that a proved crate does not need.)"""
import re

BRINGS = re.compile(r"^((?:ghost )?use [^\s{]+\.\{)([^}]*)(\};?)$", re.M)
MODULE = re.compile(r"^use [^\s{]+ as (\S+)\n", re.M)


def without_unused(text, comment="--"):
    """The text without the names, of items and of modules, that nothing mentions; and those names."""
    used, gone = mentioned(re.sub(rf"(^|\s){comment}(\s.*|$)", "", BRINGS.sub("", text), flags=re.M)), []

    def keep(m):
        names = [n.strip() for n in m.group(2).split(",")]
        kept = [n for n in names if used(n)]
        gone.extend(n for n in names if n not in kept)
        return m.group(1) + ", ".join(kept) + m.group(3) if kept else "\0"

    def keep_module(m):
        if re.search(rf"(?<![\w·′'.-]){re.escape(m.group(1))}\.", text):
            return m.group(0)
        gone.append(m.group(1))
        return ""

    return MODULE.sub(keep_module, BRINGS.sub(keep, text).replace("\0\n", "")), gone


def mentioned(text):
    """Whether a text mentions the name of a `use` item; an operator as `_+_` is mentioned by its parts."""
    words = set(re.split(r"[\s(){};,.]+", text)) | set(re.split(r"[\s(){};,.⌜⌝λ@]+", text))
    signs = [w for w in words if not w.isalnum()]

    def used(item):
        name = item.split(" as ")[-1].strip()
        parts = [p for p in name.split("_") if p]
        if name in words or name in ("_>>=_", "_>>_") and "do" in words:
            return True
        return "_" in name and bool(parts) and all(p in words or any(p in s for s in signs) for p in parts)

    return used
