#!/usr/bin/env python3
"""Gives two crates other names, since the kit has libraries of theirs: json becomes json_text, log becomes request_log. Run once, after port_names.py."""
import glob
import os
import re

NEW = {"json": "json_text", "log": "request_log"}

for old, new in NEW.items():
    os.rename(f"crates/{old}", f"crates/{new}")
line = open("crates.txt", encoding="utf-8").read()
line = "\n".join(l if l.startswith("#") else re.sub(r"(?<![\w])(json|log)(?![\w])", lambda m: NEW[m.group(1)], l) for l in line.split("\n"))
open("crates.txt", "w", encoding="utf-8").write(line)
for p in glob.glob("crates/**/*", recursive=True):
    if not p.endswith((".rt", ".antt", ".edit")):
        continue
    t = open(p, encoding="utf-8").read()
    n = re.sub(r"\bRattle\.(json|log)\.", lambda m: f"Rattle.{NEW[m.group(1)]}.", t)
    n = re.sub(r"\bRattle·(json|log)·", lambda m: f"Rattle·{NEW[m.group(1)]}·", n)
    if p.endswith((".rt", ".edit")):
        n = re.sub(r"(?<![\w:.])(json|log)::", lambda m: NEW[m.group(1)] + "::", n)
    if n != t:
        open(p, "w", encoding="utf-8").write(n)
