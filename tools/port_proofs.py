#!/usr/bin/env python3
"""Turns the older Proof.antt files of a crate to Invariants.antt and Answers.antt, by the names that the check lists.

    python3 tools/port_proofs.py CRATE [FUNCTION..]      at the top of the repository

Runs `rt check --generated DIR --old-names` in the crate, reads names.json, and for each proofs/F/Proof.antt whose function has an entry writes the two
files and removes the old one. What it cannot turn is printed with 'hand:' and stands in the answer as it was. Run it once for a crate; then rt check.
"""
import glob
import json
import os
import re
import subprocess
import sys
import tempfile

NAME = r"[^\s(){}\[\],;.:\"]+"
OPEN, CLOSE = "([{", ")]}"


def norm(word):
    return re.sub(r"_lem\b", "", word.replace("-", "_").replace("′", "'")).lower()


def generated(crate):
    """What the check lists of the crate's functions: names, old and new."""
    folder = tempfile.mkdtemp(prefix=f"names-{crate}-")
    run = subprocess.run(["rt", "check", "--generated", folder, "--old-names"], cwd=f"crates/{crate}", capture_output=True, text=True)
    path = os.path.join(folder, "names.json")
    if not os.path.exists(path):
        sys.exit("no names: " + (run.stdout + run.stderr)[-1500:])
    return json.load(open(path, encoding="utf-8"))


def balanced(text, at):
    """Where the brace that opens at `at` closes."""
    depth = 0
    for i in range(at, len(text)):
        depth += text[i] == "{"
        depth -= text[i] == "}"
        if depth == 0:
            return i + 1
    return len(text)


def contracts():
    """For each function, by crate, module and name: the names of its clauses."""
    found = {}
    for p in glob.glob("crates/*/src/**/*.rt", recursive=True):
        crate, inner = p.split("/")[1], "/".join(p.split("/")[3:])[:-3]
        module = "" if inner in ("lib", "main") else inner.replace("/", "::") + "::"
        text = re.sub(r"(?m)//.*$", "", open(p, encoding="utf-8").read())
        for m in re.finditer(r"\bfn (\w+)", text):
            at, names = m.end(), {"requires": [], "ensures": []}
            depth = 0
            while at < len(text) and not (depth == 0 and text[at] in "{;"):
                depth += text[at] in "(<["
                depth -= text[at] in ")]" or (text[at] == ">" and text[at - 1] != "-")
                word = re.match(r"\b(requires|ensures)\b\s*(\w+)?\s*(?=\{)", text[at:]) if depth == 0 else None
                if word and not (text[at - 1].isalnum() or text[at - 1] == "_"):
                    names[word.group(1)].append(word.group(2))
                    at = balanced(text, at + word.end())
                    continue
                at += 1
            found[f"{crate}::{module}{m.group(1)}"] = names
    return found


CONTRACTS = {}


def as_record(tail, name, fields):
    """An answer whose goal has several named clauses: the tuple becomes a record."""
    eq = re.search(r"^" + re.escape(name) + r"(?:[ ]+[^\s=]+)*\s*=\s*", tail, re.M)
    body = tail[eq.end() :]
    at = 0
    while True:
        m = re.match(r"\s*let\b", body[at:])
        if not m:
            break
        depth, i = 1, at + m.end()
        while i < len(body) and depth:
            w = re.match(r"(?<![\w'-])(let|in)(?![\w'-])", body[i:]) if (body[i - 1].isspace() or body[i - 1] in OPEN) else None
            if w:
                depth += 1 if w.group(1) == "let" else -1
                i += len(w.group(0))
            else:
                i += 1
        at = i
    lead, last = body[:at], body[at:].strip()
    parts = None
    if last.startswith("("):
        depth, cuts = 0, [1]
        for i, ch in enumerate(last):
            depth += ch in OPEN
            depth -= ch in CLOSE
            if depth == 1 and ch == ",":
                cuts.append(i + 1)
            if depth == 0:
                if i == len(last) - 1:
                    cuts.append(i + 1)
                    parts = [last[a:b].strip().rstrip(",)" if b == len(last) and False else ",").strip() for a, b in zip(cuts, cuts[1:])]
                    parts[-1] = last[cuts[-2] : -1].strip().rstrip(",").strip()
                break
        if parts and not parts[-1]:
            parts.pop()
    if parts and len(parts) == len(fields):
        inner = "; ".join(f"{f} = {p}" for f, p in zip(fields, parts))
        return tail[: eq.end()].rstrip() + "\n    " + lead + (" " if lead else "") + "record { " + inner + " }"
    inner = "; ".join(f"{f} = both.{i}" for i, f in enumerate(fields))
    return tail[: eq.end()].rstrip() + "\n    " + lead + (" " if lead else "") + "let both = " + last + " in record { " + inner + " }"


def items(text):
    """The top-level items: (comment lines, lines)."""
    out, comment, now = [], [], None
    for line in text.split("\n"):
        if line.startswith("--"):
            now = None
            comment.append(line)
        elif not line.strip():
            if now is not None:
                now[1].append(line)
        elif line[0].isspace() or line[0] in CLOSE:
            if now is None:
                now = (comment, [])
                out.append(now)
                comment = []
            now[1].append(line)
        else:
            first = re.match(r"(?:(?:pub|abbrev|unfoldable)\s+)*(" + NAME + ")", line)
            same = now is not None and (line.startswith("unfolding") or (first and item_name(now) == first.group(1)))
            if line.startswith("use "):
                same = False
            if not same:
                now = (comment, [])
                out.append(now)
                comment = []
            now[1].append(line)
    if comment:
        out.append((comment, []))
    return [(c, "\n".join(l).rstrip()) for c, l in out]


def item_name(item):
    first = re.match(r"(?:(?:pub|abbrev|unfoldable)\s+)*(" + NAME + ")", item[1][0]) if item[1] else None
    return first.group(1) if first else None


def split_args(text):
    """The arguments of an application, by spaces outside brackets."""
    args, depth, now = [], 0, ""
    for ch in text:
        if ch in OPEN:
            depth += 1
        if ch in CLOSE:
            depth -= 1
        if ch.isspace() and depth == 0:
            if now.strip():
                args.append(now.strip())
            now = ""
        else:
            now += ch
    if now.strip():
        args.append(now.strip())
    return args


class Function:
    def __init__(self, crate, path, entry, stem=""):
        self.crate, self.path, self.entry, self.stem = crate, path, entry, stem
        self.steps, self.fields = {}, {}
        for place in entry["places"]:
            if place[2] and place[2][0]:
                self.steps.setdefault(norm(place[2][0]), place[2][1])
                if place[4]:
                    for old, new in place[4]:
                        self.fields.setdefault(place[2][1], {})[old] = new
        self.known = {}
        for typed in entry["typed"]:
            for var, step in typed or []:
                self.known[norm(step)] = var
        self.needs = {norm(a): b for a, b in entry["needs"]}
        self.order = [b for a, b in entry["needs"]]
        self.clauses = {}
        for place, clause, arm in zip(entry["places"], entry["clauses"], entry["arms"]):
            if clause and place[2][1]:
                self.clauses.setdefault(place[2][1], clause)
        self.arms = {}
        for place, arm in zip(entry["places"], entry["arms"]):
            if arm and place[2][1]:
                self.arms.setdefault(norm(place[2][0]), []).append((place[0], place[2][1], arm))
        self.matched = {}
        for arm in entry["arms"]:
            for field, step, old in (arm[2] if arm else []):
                if old:
                    self.matched.setdefault(norm(step), {})[tuple(old)] = (arm[0], field)
        self.hands, self.placed = [], []
        self.own = CONTRACTS.get(f"{crate}::" + path.replace(".", "::"), {"requires": [], "ensures": []})
        self.callee = {norm(place[2][0]): place[3] for place in entry["places"] if place[3] and place[2] and place[2][0]}

    def clauses_of(self, old):
        """The names of the clauses that a goal joins, if they are several."""
        if old.startswith("returns"):
            names = self.own["ensures"]
        else:
            m = re.match(r"(.*)_requires(?:_(\d+))?$", old)
            path = self.callee.get(m.group(1) + (m.group(2) or ""), self.callee.get(m.group(1))) if m else None
            names = CONTRACTS.get(path, {}).get("requires", []) if path else []
        return names if len(names) > 1 else []

    def need(self, old):
        for a, b in (("", ""), ("overflow_", ""), ("nonzero_", ""), ("slice_bounds_", "part_"), ("bounds_", "index_"), ("offset_bounds_", "offset_"), ("shape_of_", "keeps_"), ("invariant_of_", "ghost_"), ("invariant_of_", "invariant_")):
            if old.startswith(a) and b + old[len(a) :] in self.needs:
                return self.needs[b + old[len(a) :]]
        return None

    def lent(self, key):
        """The fact on a lent buffer's length that the step states: where the call that had the buffer has it."""
        places = {place[0]: place for place in self.entry["places"]}
        at = next((p for p in self.entry["places"] if p[2] and norm(p[2][0]) == key), None)
        name = re.sub(r"\d+$", "", key)
        while at:
            at = places.get(at[1])
            if at and at[3]:
                return f"{at[2][1]}.auto.{name}" if name in self.entry["params"].get(at[3], []) else None
        return None

    def hand(self, what):
        self.hands.append(what)

    def chain(self, m):
        """A path from c."""
        segments = [s for s in m.group(2).split(".")[1:] if s != "before"]
        if not segments:
            return m.group(1)
        first, rest = segments[0], segments[1:]
        if norm(first) not in self.steps and norm(first) not in self.known and re.sub(r"\d+$", "", norm(first)) in self.steps:
            first = re.sub(r"\d+$", "", first)
            segments = [first] + rest
        if self.stem and first == "requires" and rest:
            if rest[0] == "0":
                return ".".join([m.group(1), "decreases"] + rest[1:])
            rest = rest[1:]
            segments = [first] + rest
        key = norm(first)
        if key in self.known and rest and rest[0] == "given":
            return ".".join([m.group(1), "type_inv", self.known[key]] + rest[1:])
        for old in sorted(self.matched.get(key, {}), key=len, reverse=True):
            if tuple(rest[: len(old)]) == old:
                return ".".join([m.group(1), *self.matched[key][old]] + rest[len(old) :])
        if key in self.steps:
            new = self.steps[key]
            if rest == ["given"] and self.lent(key):
                return f"{m.group(1)}.{self.lent(key)}"
            if "given" in rest[:1]:
                self.hand(f"given of {first}")
            out = [m.group(1), new]
            names = self.fields.get(new, {})
            if rest:
                rest = [names.get(rest[0], rest[0])] + rest[1:]
            if rest[:1] in (["auto"], ["new"]) and len(rest) > 1 and rest[1].isdigit():
                ones = 0
                while rest[1 + ones] == "1":
                    ones += 1
                params = self.entry["params"].get(self.callee.get(key), [])
                if ones < len(params):
                    rest = [rest[0], params[ones]] + rest[2 + ones :]
                else:
                    self.hand(f"{'.'.join(rest)} of {first}")
            clause = self.clauses.get(new)
            if clause and rest and rest[0] == "ensures" and clause.get("fields"):
                fields = clause["fields"]
                if len(fields) > 1 and len(rest) == 1:
                    return "(" + ", ".join(".".join(out + ["ensures", x]) for x in fields) + ")"
                if len(rest) > 1 and rest[1].isdigit() and int(rest[1]) < len(fields) and len(fields) > 1:
                    rest = ["ensures", fields[int(rest[1])]] + rest[2:]
                elif len(fields) == 1 and (len(rest) == 1 or rest[1] not in fields):
                    rest = ["ensures", fields[0]] + rest[1:]
            return ".".join(out + rest)
        if first == "well-formed":
            return ".".join([m.group(1), "well_formed"] + rest)
        if first == "requires" and not rest and len(self.own["requires"]) > 1:
            return "(" + ", ".join(f"{m.group(1)}.requires.{x}" for x in self.own["requires"]) + ")"
        if first == "requires" and rest and rest[0].isdigit() and len(self.own["requires"]) > 1:
            return ".".join([m.group(1), "requires", self.own["requires"][int(rest[0])]] + rest[1:])
        if first not in ("args", "requires", "ranges", "type_inv"):
            self.hand(f"step {first}")
        return ".".join([m.group(1)] + segments)

    def expression(self, text, first="c"):
        aliases = {"c", first}
        while True:
            m = re.search(r"let (" + NAME + r") = (" + NAME + r")((?:\.before)*) in\s?", text)
            found = None
            for m in re.finditer(r"let (" + NAME + r") = (" + NAME + r")((?:\.before)*) in\s*", text):
                if m.group(2) in aliases:
                    found = m
                    break
            if not found:
                break
            aliases.add(found.group(1))
            gap = "\n    " if "\n" in found.group(0) else ""
            text = text[: found.start()] + gap + text[found.end() :]
        for h in self.placed:
            for a in aliases - {"c"}:
                text = re.sub(r"(?<![\w.'-])" + re.escape(h) + r" " + re.escape(a) + r"(?![\w.'-])", h + " c", text)
        for a in sorted(aliases - {"c"}, key=len, reverse=True):
            text = re.sub(r"(?<![^\s(\[{,;])" + re.escape(a) + r"(?=\.)", "c", text)
            if re.search(r"(?<![^\s(\[{,;])" + re.escape(a) + r"(?![^\s)\]},;])", text):
                self.hand(f"bare place {a}")
        text = re.sub(r"(?<![^\s(\[{,;])(c)((?:\.[^\s(){}\[\],;.]+)+)", self.chain, text)
        text = re.sub(r"not-(true|false) _\s+(c(?:\.[^\s(){}\[\],;.]+)+\.\1)-raw", r"\2", text)
        text = re.sub(r"[ \t]+\n", "\n", text)
        return re.sub(r"=\s*\n\s*\n", "=\n", text)

    def loop_args(self, loop, patterns):
        names, vars_, changed = loop
        slots = ["l.initial." + v if ch else "l." + v for v, ch in zip(vars_, changed)] + ["l." + v for v, ch in zip(vars_, changed) if ch]
        if len(slots) < len(patterns):
            patterns = [p for p in patterns if not re.fullmatch(r"t\d+₀?", p)]
        if len(slots) != len(patterns):
            self.hand(f"loop {names[0]}: {len(patterns)} arguments {' '.join(patterns)} for {' '.join(slots)}")
            return None
        return dict(zip(patterns, slots))


def cited(answers, bodies, answered=None, f=None):
    """An answer that cites another answer by its old name has that answer's term instead, unless both goals have the same record."""
    at = dict(zip(f.order, [b for _, b in f.entry["asked_at"]])) if f else {}
    for _ in range(3):
        for name, (args, value) in bodies.items():
            pattern = r"(?<![\w.'-])" + re.escape(name) + r"(?P<args>" + "".join(r"\s+" + NAME for _ in args) + r")(?![\w.'-])"

            def inside(m):
                term = value
                for a, b in zip(args, m.group("args").split()):
                    if a != b:
                        term = re.sub(r"(?<![^\s(\[{,;])" + re.escape(a) + r"(?=[\s.)\]},;]|$)", b, term)
                return "(" + term.strip() + ")"

            for i, (c, n, x) in enumerate(answers):
                head = re.search(r"^" + re.escape(n) + r"(?:[ ]+[^\s=]+)*\s*=", x, re.M)
                alike = answered and name != "returns" and at.get(answered.get(name)) == at.get(n) and n in at
                if head and not alike:
                    answers[i] = (c, n, x[: head.end()] + re.sub(pattern, inside, x[head.end() :]))
    return answers


def parameters():
    """For each function, by crate, module and name: the names of its parameters."""
    found = {}
    for p in glob.glob("crates/*/src/**/*.rt", recursive=True):
        crate, inner = p.split("/")[1], "/".join(p.split("/")[3:])[:-3]
        module = "" if inner in ("lib", "main") else inner.replace("/", "::") + "::"
        text = re.sub(r"(?m)//.*$", "", open(p, encoding="utf-8").read())
        for m in re.finditer(r"\bfn (\w+)\s*\(([^)]*)\)", text):
            found[f"{crate}::{module}{m.group(1)}"] = re.findall(r"(?:^|,)\s*(?:mut\s+)?(\w+)\s*:", m.group(2))
    return found


def turn_cycle(crate, folder, names):
    """The proof of functions that call each other: one pair of files for all of them."""
    path = os.path.relpath(folder, f"crates/{crate}/proofs").replace("/", ".")
    module = ".".join(path.split(".")[:-1])
    start = f"Rattle-{crate}-proofs.{path}.Lts-"
    members = {k[len(start) :]: names[k] for k in names if k.startswith(start)}
    functions = {m: Function(crate, (module + "." if module else "") + m, e, e["stem"]) for m, e in members.items()}
    params = parameters()
    text = open(os.path.join(folder, "Proof.antt"), encoding="utf-8").read()
    uses, header, measures, invariants, answers, others, hands, bodies = [], [], [], [], [], [], [], {}
    for comment, body in items(text):
        if body.startswith("use "):
            if comment:
                header += comment
            uses.append(body)
            continue
        sig = re.match(r"(?:(?:pub|abbrev|unfoldable)\s+)*(" + NAME + r")\s*:\s*(.*)", body, re.S)
        if not sig:
            others.append((comment, body))
            continue
        name, rest = sig.group(1), sig.group(2)
        if re.match(r"\{M", rest):
            inline = [a for a in re.findall(r"\(λ c(?: κs)?\. (?!search rules)[^\n]*", rest)]
            if inline:
                hands.append(f"inline: {inline}")
            continue
        if re.match(r"(ℕ → In|ℕ → \S+\.Claims)", rest) or ("→ Type 0) → Type 0" in rest and name.endswith("need")):
            continue
        measure = re.match(r"Measures [^\n]*\n" + re.escape(name) + r" κs a = (.*)", rest, re.S)
        if measure:
            who = next(m for m in members if norm(m) == norm(name.split("-", 1)[1]))
            ps = params[f"{crate}::{module.replace('.', '::') + '::' if module else ''}{who}"]
            value = re.sub(r"(?<![^\s(])a((?:\.1)*)\.0(?![\w])", lambda m: "l." + ps[m.group(1).count("1")], measure.group(1))
            measures.append((comment, f"abbrev pub decreases-{who} : goal.decreases-{who}\ndecreases-{who} l = {value}"))
            continue
        kind = re.match(r"(\S+)-lts\.(invariant|decreases)[-_](\S+)\s*\n", rest)
        if kind:
            who = next(m for m in members if norm(m) == norm(kind.group(1)))
            f, entry = functions[who], members[who]
            loops = {norm(n[0]): (n, v, ch) for (n, v), ch in zip(entry["loops"], entry["changed"])}
            loop = loops.get(norm(kind.group(3)))
            eq = re.search(r"^" + re.escape(name) + r"((?:\s+[^\s=]+)*)\s*=\s?(.*)", rest[kind.end() :], re.S | re.M)
            unfolding = rest[kind.end() :][: eq.start()]
            table = f.loop_args(loop, eq.group(1).split())
            new, value = f"{kind.group(2)}-{f.stem}{loop[0][1]}", eq.group(2)
            if table:
                value = re.sub(r"(?<![^\s(){}\[\],;])" + NAME, lambda m: table.get(m.group(0), m.group(0)), value)
            invariants.append((comment, f"abbrev pub {new} : goal.{new}\n{unfolding}{new} l = {value}"))
            continue
        need = re.match(r"\S+need (\S+)-lts\.Need-(\S+)([^\n]*)\n", rest)
        if need:
            who = next(m for m in members if norm(m) == norm(need.group(1)))
            f = functions[who]
            new = f.need(norm(need.group(2)))
            tail = rest[need.end() :]
            if not new:
                f.hand(f"goal {who} {need.group(2)}")
                new = "UNKNOWN-" + need.group(2)
            new = f.stem + new
            tail = re.sub(r"^" + re.escape(name) + r"((?:[ ]+[^\s=]+)*)\s*=", lambda m: new + "".join(" " + a for a in m.group(1).split() if a != "κs") + " =", tail, flags=re.M)
            tail = f.expression(tail)
            eq = re.search(r"^" + re.escape(new) + r"((?:[ ]+[^\s=]+)*)\s*=(.*)", tail, re.M | re.S)
            if eq:
                bodies[name] = (eq.group(1).split(), eq.group(2))
            several = f.clauses_of(norm(need.group(2)))
            if several:
                tail = as_record(tail, new, several)
            answers.append((comment, new, f"pub {new} : goal.{new}\n" + tail))
            continue
        others.append((comment, body))
    answers = cited(answers, bodies)
    keep = [u for u in uses if not re.search(r"\.(Tie|Lts-\w+|Reads|Kinds|PlainCycle)\b|\{statement\}|borrow\.Author\.Rules", u)]
    helper = "\n\n".join("\n".join(c + [b]) for c, b in others if b)
    if "rules" in " ".join(b for _, _, b in answers) + helper:
        keep.append("use Rattle.std.proofs.Common.{rules}")
    top = "\n".join(header)
    write(folder, "Invariants.antt", top, keep, f"use Rattle.{crate}.proofs.{path}.Given as goal", "\n\n".join("\n".join(c + [b]) for c, b in measures + invariants))
    write(folder, "Answers.antt", "", keep, f"use Rattle.{crate}.proofs.{path}.Goals as goal", (helper + "\n\n" if helper else "") + "\n\n".join("\n".join(c + [b]) for c, _, b in answers))
    os.remove(os.path.join(folder, "Proof.antt"))
    for h in hands + [h for f in functions.values() for h in f.hands]:
        print(f"hand: {folder}: {h}")


def turn(crate, folder, entry):
    path = os.path.relpath(folder, f"crates/{crate}/proofs").replace("/", ".")
    f = Function(crate, path, entry)
    text = open(os.path.join(folder, "Proof.antt"), encoding="utf-8").read()
    for name in re.findall(r"(?m)^(?:pub )?(?:record|data) ([A-Z]\w*(?:-[a-z]\w*)+)", text):
        camel = "".join(w[0].upper() + w[1:] for w in name.split("-"))
        text = re.sub(r"(?<![\w'-])" + re.escape(name) + r"(?![\w'-])", camel, text)
    loops = {norm(names[0]): (names, vars_, changed) for (names, vars_), changed in zip(entry["loops"], entry["changed"])}
    uses, header, invariants, answers, others, spec, bodies = [], [], [], [], [], None, {}
    answered = {}
    parts = items(text)
    placed = r"(?:(?:pub|abbrev|unfoldable)\s+)*(" + NAME + r")\s*:\s*(?:\(c : )?tie\.(?!Need|invariant|decreases)"
    f.placed = [re.match(placed, body).group(1) for _, body in parts if re.match(placed, body)]
    for comment, body in parts:
        if body.startswith("use "):
            if comment:
                header += comment
            uses.append(body)
            continue
        sig = re.match(r"(?:(?:pub|abbrev|unfoldable)\s+)*(" + NAME + r")\s*:\s*(.*)", body, re.S)
        if not sig:
            others.append((comment, body))
            continue
        name, rest = sig.group(1), sig.group(2)
        kind = re.match(r"tie\.(invariant|decreases)[-_](\S+)\s*\n", rest)
        if kind:
            loop = loops.get(norm(kind.group(2)))
            eq = re.search(r"^" + re.escape(name) + r"((?:\s+[^\s=]+)*)\s*=\s?(.*)", rest[kind.end() :], re.S | re.M)
            unfolding = rest[kind.end() :][: eq.start()] if eq else ""
            if not loop or not eq:
                f.hand(f"{name} : no loop")
                others.append((comment, body))
                continue
            table = f.loop_args(loop, eq.group(1).split())
            new = f"{kind.group(1)}-{loop[0][1]}"
            value = eq.group(2)
            if table:
                value = re.sub(r"(?<![^\s(){}\[\],;])" + NAME, lambda m: table.get(m.group(0), m.group(0)) if m.group(0) != "_" else "_", value)
                head = f"{new} l"
            else:
                head = f"{new} l {eq.group(1).strip()}"
            invariants.append((comment, f"abbrev pub {new} : goal.{new}\n{unfolding}{head} = {value}"))
            continue
        need = re.match(r"tie\.Need-(\S+)([^\n]*)\n", rest)
        if need:
            new = f.need(norm(need.group(1)))
            tail = rest[need.end() :]
            if not new:
                f.hand(f"goal {need.group(1)}")
                new = "UNKNOWN-" + need.group(1)
            answered[name] = new
            tail = re.sub(r"^" + re.escape(name) + r"((?:[ ]+[^\s=]+)*)\s*=", lambda m: new + "".join(" " + a for a in m.group(1).split() if a != "κs") + " =", tail, flags=re.M)
            tail = f.expression(tail)
            eq = re.search(r"^" + re.escape(new) + r"((?:[ ]+[^\s=]+)*)\s*=(.*)", tail, re.M | re.S)
            if eq:
                bodies[name] = (eq.group(1).split(), eq.group(2))
            several = f.clauses_of(norm(need.group(1)))
            if several:
                tail = as_record(tail, new, several)
            answers.append((comment, new, f"pub {new} : goal.{new}\n" + tail))
            continue
        if "statement M" in rest or re.match(r"\{M", rest):
            spec = rest
            if comment:
                header += comment
            continue
        others.append((comment, body))
    places = {}
    for comment, body in list(others):
        m = re.match(r"(?:(?:pub|abbrev|unfoldable)\s+)*(" + NAME + r")\s*:\s*(?:\(c : )?tie\.[^\n]*?→ ([^\n]*)\n(?:unfolding[^\n]*\n)*\1 ([^\s=]+)((?:\s+[^\s=]+)*)\s*=\s*(.*)", body, re.S)
        if m:
            ps = m.group(4).split()
            value = f.expression(m.group(5), m.group(3)).strip()
            kind = m.group(2).strip()
            if kind.startswith("tie."):
                places[m.group(1)] = value
            elif ps:
                places[m.group(1)] = f"(let it : {kind} = λ {' '.join(ps)}. {value} in it)"
            else:
                places[m.group(1)] = f"(let it : {kind} = {value} in it)"
            others.remove((comment, body))
    for _ in range(3):
        for name, value in places.items():
            pattern = r"(?<![\w.'-])" + re.escape(name) + r" c(?![\w.'-])"
            for other in places:
                places[other] = re.sub(pattern, lambda m: value, places[other])
            answers = [(a, b, re.sub(pattern, lambda m: value, t)) for a, b, t in answers]
    answers = cited(answers, bodies, answered, f)
    for old, new in answered.items():
        if old != new and old != "returns":
            answers = [(a, b, re.sub(r"(?<![\w.'-])" + re.escape(old) + r"(?= c(?![\w'-]))", new, t)) for a, b, t in answers]
    if places:
        answers = [(a, b, re.sub(r"\((c(?:\.[^\s()]+)*)\)(?=[\s.)])", r"\1", t)) for a, b, t in answers]
    if spec:
        m = re.search(r"tie\.spec\s*(.*)", spec, re.S)
        body = m.group(1) if m else ""
        depth, end = 0, len(body)
        for i, ch in enumerate(body):
            depth += ch in OPEN
            depth -= ch in CLOSE
            if depth < 0:
                end = i
                break
        args = split_args(body[:end])
        skip = 2 * len(loops)
        if len(args) - skip == len(f.order):
            for arg, new in zip(args[skip:], f.order):
                inner = re.match(r"\(λ\s*([^.]*)\.\s*(.*)\)$", arg, re.S)
                if inner and not re.match(r"search rules$", inner.group(2).strip()):
                    ps = [p for p in inner.group(1).split() if p != "κs"]
                    answers.append(([], new, f"pub {new} : goal.{new}\n{new} {' '.join(ps)} = " + f.expression(inner.group(2))))
        else:
            inline = [a for a in args if a.startswith("(λ") and "search rules" not in a]
            if inline:
                f.hand(f"{len(args) - skip} needs then, {len(f.order)} now; inline: {inline}")
    keep = [u for u in uses if not re.search(r"\.(Tie|Statement)(\.\{| as )", u) and not re.search(r"borrow\.Author\.Rules|proofs\.[^ ]*\.Lts", u)]
    lts = [u for u in uses if re.search(r"\.Lts\b", u)]
    shared, names = [], set()
    told = "\n".join(b for _, b in invariants)
    while True:
        more = [(c, b) for c, b in others if b and (c, b) not in shared and any(used(n, told) for n in declared(b))]
        if not more:
            break
        shared += more
        told += "\n".join(b for _, b in more)
    shared = [x for x in others if x in shared]
    others = [x for x in others if x not in shared]
    for c, b in shared:
        names |= set(declared(b))
    helper = "\n\n".join("\n".join(c + [b]) if b else "\n".join(c) for c, b in others if b)
    if "lts." in helper or "tie." in helper:
        f.hand("helpers typed by a place")
    if "rules" in " ".join(b for _, _, b in answers) + helper and not any(re.search(r"Common\.\{[^}]*\brules\b", u) for u in keep):
        keep.append("use Rattle.std.proofs.Common.{rules}")
    top = "\n".join(header)
    if invariants:
        body = "\n\n".join("\n".join(c + [published(b)]) for c, b in shared) + "\n\n" if shared else ""
        body += "\n\n".join("\n".join(c + [b]) for c, b in invariants)
        write(folder, "Invariants.antt", top, keep, f"use Rattle.{crate}.proofs.{path}.Given as goal", body)
    if answers or helper:
        body = (helper + "\n\n" if helper else "") + "\n\n".join("\n".join(c + [b]) for c, _, b in answers)
        if names:
            lts.append(f"use Rattle.{crate}.proofs.{path}.Invariants.{{{', '.join(sorted(names))}}}")
        write(folder, "Answers.antt", "" if invariants else top, keep + lts, f"use Rattle.{crate}.proofs.{path}.Goals as goal", body)
    os.remove(os.path.join(folder, "Proof.antt"))
    for h in f.hands:
        print(f"hand: {folder}: {h}")


def declared(body):
    """The names that a helper brings."""
    m = re.match(r"(?:(?:pub|abbrev|unfoldable)\s+)*(?:record|data)\s+([^\s:({]+)", body) or re.match(r"(?:(?:pub|abbrev|unfoldable)\s+)*(" + NAME + r")\s*:", body)
    return [m.group(1)] if m else []


def published(body):
    lines = body.split("\n")
    out = []
    for i, l in enumerate(lines):
        if i == 0 and not re.match(r"(?:\w+ )*pub ", l):
            l = re.sub(r"^(abbrev |unfoldable )?", lambda m: (m.group(1) or "") + "pub ", l, count=1)
        elif lines[0].lstrip("pub ").startswith("record") and re.match(r"  [a-z]\S* : ", l):
            l = "  pub " + l.strip()
        out.append(l)
    return "\n".join(out)


def names_in(use):
    return re.search(r"\{(.*)\}", use, re.S)


def write(folder, name, top, uses, goal, body):
    lines = []
    for u in uses:
        m = re.match(r"use (\S+)\.\{(.*)\}$", u, re.S)
        if m:
            kept = []
            for w in re.split(r",\s*", m.group(2).strip().rstrip(",")):
                short = w.split(" as ")[-1].strip()
                if short in ("refl", "sym") or used(short, body):
                    if used(short, body):
                        kept.append(w)
            if kept:
                lines.append(f"use {m.group(1)}.{{{', '.join(kept)}}}")
        else:
            short = u.split(" as ")[-1].strip()
            if " as " in u and short + "." in body:
                lines.append(u)
    text = (top + "\n" if top else "") + "\n".join(lines + [goal]) + "\n\n" + body.strip() + "\n"
    open(os.path.join(folder, name), "w", encoding="utf-8").write(text)


def used(word, body):
    if "◌" in word:
        return all(p in body for p in word.split("◌") if p)
    return re.search(r"(?<![\w'-])" + re.escape(word) + r"(?![\w'-])", body) is not None


def main():
    crate, only = sys.argv[1], sys.argv[2:]
    CONTRACTS.update(contracts())
    names = generated(crate)
    for p in sorted(glob.glob(f"crates/{crate}/proofs/**/Proof.antt", recursive=True)):
        folder = os.path.dirname(p)
        path = os.path.relpath(folder, f"crates/{crate}/proofs").replace("/", ".")
        if only and path not in only:
            continue
        entry = names.get(f"Rattle-{crate}-proofs.{path}.Lts")
        if entry is None and any(k.startswith(f"Rattle-{crate}-proofs.{path}.Lts-") for k in names):
            turn_cycle(crate, folder, names)
            continue
        if entry is None:
            print(f"hand: {folder}: no entry")
            continue
        turn(crate, folder, entry)


if __name__ == "__main__":
    main()
