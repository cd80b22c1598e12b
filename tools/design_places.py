#!/usr/bin/env python3
"""Counts the places that the points of docs/DESIGN-PASS.md are about, in crates/*/src.

    tools/design_places.py            a line for each point
    tools/design_places.py --list     and each place
    tools/design_places.py --list 3   those of one point

A place is found by its text; what is found and stays has its reason beside it or in the page."""
import collections
import pathlib
import re
import sys

ROOT = pathlib.Path(__file__).resolve().parent.parent
FILES = sorted(ROOT.glob("crates/*/src/**/*.rt"))
TEXT = {f: f.read_text() for f in FILES}


def where(file, at):
    return f"{file.relative_to(ROOT)}:{TEXT[file].count(chr(10), 0, at) + 1}"


def found(pattern, flags=re.M):
    for file in FILES:
        for match in re.finditer(pattern, TEXT[file], flags):
            yield file, match


def blocks(word):
    """Each item `word NAME { .. }`: file, where it begins, its name and its body."""
    for file, match in found(rf"^(?:pub )?{word} (\w+)(?:<[^>]*>)? \{{\n(.*?)^\}}"  , re.M | re.S):
        yield file, match.start(), match.group(1), re.sub(r"//.*", "", match.group(2))


def functions():
    """Each function: file, where it begins, name, parameters, result, clauses and body."""
    for file in FILES:
        text = TEXT[file]
        for match in re.finditer(r"^( *)(?:pub )?(?:extern \"C\" )?fn (\w+)(?:<[^(]*>)?\(", text, re.M):
            depth, at = 1, match.end()
            while depth:
                depth += {"(": 1, ")": -1}.get(text[at], 0)
                at += 1
            parameters = text[match.end():at - 1]
            end = text.find(f"\n{match.group(1)}}}", at)
            rest = text[at:end if end > 0 else len(text)]
            opening = re.search(r"^ *\{$|\{$", rest, re.M)
            head = rest[:opening.start()] if opening else rest
            body = rest[opening.start():] if opening else ""
            result = re.match(r"\s*->\s*([^\n{]+)", head)
            yield file, match.start(), match.group(2), parameters, (result.group(1).strip() if result else ""), head, body


def variants(body):
    depth, part, parts = 0, "", []
    for c in body:
        depth += {"(": 1, "{": 1, "<": 1, ")": -1, "}": -1, ">": -1}.get(c, 0)
        if c == "," and depth == 0:
            parts.append(part)
            part = ""
        else:
            part += c
    return [re.sub(r"#\[.*?\]", "", p).strip() for p in parts + [part] if p.strip()]


FAILS = {"Refused", "Declined", "Unread", "Bad", "Nothing", "Stop", "Broken", "Unnamed", "Over", "Unknown", "Factory", "Stray"}


def point_1():
    for file, at, name, body in blocks("enum"):
        parts = variants(body)
        names = [re.match(r"\w+", p).group() for p in parts]
        bare = [p for p in parts if re.fullmatch(r"\w+", p)]
        if (len(parts) == 2 and len(bare) == 1) or FAILS & set(names):
            yield file, at, f"enum {name} ({', '.join(names)})"
    for file, at, name, body in blocks("struct"):
        kinds = re.findall(r": ([^,\n]+)", body)
        if "bool" in kinds and any(k != "bool" for k in kinds):
            yield file, at, f"a flag beside a value: struct {name}"
    for file, at, name, parameters, result, head, body in functions():
        if result == "u8" and re.search(r"refusal|clear|CLEAR|number", head + body + name):
            yield file, at, f"a number for a refusal: fn {name}"
    for file, match in found(r"^(?:pub )?const (\w+): \w+ = .*;"):
        name = match.group(1)
        if re.search(r"^(CLEAR|OUTSIDE|NO_\w+|NEVER|UNFIT)$", name):
            yield file, match.start(), f"a number for none: {name}"
    for file, match in found(r"^ *//[^\n]*(?:\b0 (?:where|for|stands|past)\b|; (?:or |else )?0,? (?:where|after)\b|\bor 0, after\b|; else 0\b)[^\n]*"):
        yield file, match.start(), "0 for none: " + match.group().strip()


def shape(body):
    """A body with other names, numbers and types."""
    body = re.sub(r"//.*", "", body)
    return re.sub(r"\b(?!if\b|while\b|return\b|let\b|mut\b|else\b|match\b|loop\b|for\b|in\b|true\b|false\b)\w+\b", "_", re.sub(r"\s+", " ", body))


def point_2():
    groups = collections.defaultdict(list)
    for file, at, name, parameters, result, head, body in functions():
        if file.match("*/burgee_c/src/*") or body.count("\n") < 3:
            continue
        groups[shape(body)].append((file, at, name))
    for group in groups.values():
        if len(group) > 1:
            yield group[0][0], group[0][1], "functions of one shape: " + ", ".join(f"{f.relative_to(ROOT / 'crates').parts[0]}::{n}" for f, _, n in group)
    shapes = collections.defaultdict(list)
    for file, at, name, body in blocks("struct"):
        shapes[re.sub(r"\s+", " ", re.sub(r"\bpub\b|\w+:", "", body)).strip() + "|" + ",".join(sorted(re.findall(r"(\w+):", body)))].append((file, at, name))
    for group in shapes.values():
        if len(group) > 1:
            yield group[0][0], group[0][1], "structs of one shape: " + ", ".join(f"{f.relative_to(ROOT / 'crates').parts[0]}::{n}" for f, _, n in group)
    for file, at, name, parameters, result, head, body in functions():
        flags = re.findall(r"\b(cover|whole|packing|pack|log|bare|is_tree|is_text|by_group|name): bool", parameters)
        if flags:
            yield file, at, f"twins by a flag: fn {name} ({', '.join(flags)})"


def point_3():
    for file in FILES:
        lines = TEXT[file].split("\n")
        at = 0
        for i, line in enumerate(lines):
            head = re.match(r"( *)(?:while\b|loop \{)", line)
            if head:
                indent = head.group(1)
                end = next((j for j in range(i + 1, len(lines)) if lines[j] == indent + "}"), len(lines))
                text = "\n".join(lines[i:end])
                stepped = set(re.findall(r"\b(\w+) [+-]= 1;", text)) | set(re.findall(r"\b(\w+) = \1 [+-] 1;", text))
                condition = "\n".join(lines[i:next((j + 1 for j in range(i, end) if lines[j].rstrip().endswith("{")), i + 1)])
                if stepped & set(re.findall(r"\w+", condition)) or re.search(r"\bleft = (?:k|i|left - 1);", text) or (stepped and "[" in text):
                    yield file, at, f"{line.strip()} (counts {', '.join(sorted(stepped)) or 'left'})"
            at += len(line) + 1


BY_HAND = """
    is_same is_before is_alike smaller shorter larger higher unlike between copy repeat keep wide small to_bytes
    of_bytes word word_at byte_of byte_at write_hex hex_digit hex_value is_digit is_white has_byte first find
    add_byte mode kind named with_met was_met after at_rest with_candidate record_of empty unite starts_with
    ends_with has_star_first has_star_last is_byte is_dots checked of_policy
"""
HAND = r"^ *(?:pub )?fn (" + "|".join(BY_HAND.split()) + r")\b"


def point_4():
    for file, match in found(HAND):
        yield file, match.start(), "by hand: fn " + match.group(1)
    for file, match in found(r"^ +(\w+): \1,$"):
        yield file, match.start(), f"field {match.group(1)} given by its own name"


def names_of(parameters):
    return re.findall(r"(\w+): ", re.sub(r"\s+", " ", parameters))


def point_5():
    facts = collections.defaultdict(list)
    groups = collections.defaultdict(list)
    for file, at, name, parameters, result, head, body in functions():
        for clause in re.findall(r"requires(?: \w+)? \{(.*?)\}\n", head + "\n", re.S):
            for fact in re.split(r"×", clause):
                fact = re.sub(r"\s+", " ", fact).strip(" ()")
                fact = re.sub(r"\b(\w+)\.(?:now|old)\b", r"\1", fact)
                if len(fact) > 3:
                    facts[fact].append((file, at, name))
        named = names_of(parameters)
        for n in range(3, 8):
            for i in range(len(named) - n + 1):
                groups[tuple(named[i:i + n])].append((file, at, name))
    for fact, places in sorted(facts.items()):
        if len(places) > 2:
            yield places[0][0], places[0][1], f"a fact in {len(places)} contracts: {fact}"
    kept = {}
    for group, places in groups.items():
        if len(places) > 2:
            kept[group] = places
    for group, places in sorted(kept.items()):
        bigger = any(set(group) < set(other) and len(kept[other]) >= len(places) for other in kept)
        if not bigger:
            yield places[0][0], places[0][1], f"parameters of {len(places)} functions: {', '.join(group)}"


def point_6():
    for file, at, name, parameters, result, head, body in functions():
        flat = re.sub(r"\s+", " ", parameters)
        if re.search(r"out: &mut \[u8\], (?:at|to): usize", flat) and result in ("usize", "Stored", "Option<Stored>"):
            yield file, at, f"a buffer and its length: fn {name}"
        elif re.search(r"&(?:mut )?\[\w+(?:; [^\]]+)?\], (?:n|m|count|used): usize", flat):
            yield file, at, f"an array and its count: fn {name}"
    for file, match in found(r"^ +let mut (\w+) = \[0u?\w*; [^\]]*\];\n +let (\w+) = (?:cli_console::)?input::word\("):
        yield file, match.start(), f"a word in a buffer, and its length: {match.group(1)}, {match.group(2)}"


def point_7():
    for file, at, name, parameters, result, head, body in functions():
        flags = re.findall(r"\b(cover|whole|packing|pack|log|is_tree|is_text): bool", parameters)
        if flags and re.search(rf"if !?(?:{'|'.join(flags)})\b", body):
            yield file, at, f"a flag says which step runs: fn {name} ({', '.join(flags)})"
    for file, at, name, parameters, result, head, body in functions():
        if len(re.findall(r"if (?:c|kind|form|letter|word) == ", body)) > 3:
            yield file, at, f"a code says which step runs: fn {name}"


def main():
    wanted = [int(a) for a in sys.argv[1:] if a.isdigit()]
    listed = "--list" in sys.argv
    for n, point in enumerate((point_1, point_2, point_3, point_4, point_5, point_6, point_7), 1):
        if wanted and n not in wanted:
            continue
        places = list(point())
        print(f"point {n}: {len(places)} places")
        if listed:
            for file, at, text in places:
                print(f"    {where(file, at)}: {text}")


main()
