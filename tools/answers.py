"""Proof files as text: answers, the places that they cite, and the one form in which both are written.

Of the older kit, as tools/prove.py, which uses it: today's proof files are Invariants.antt and Answers.antt, and cite facts by name.

A proof file is blocks with a blank line between them. An answer is a block `NAME : ..Need-X ..`, perhaps `unfolding ..`, then `NAME c = BODY`
(or `c κs`, `t c`). Its body cites facts of the places on the way to the need: `c` is the nearest place, `c .before` the one before it, and so
on back to the start. A place has one thing, a field named after what happened there: `.loop`, `.if1`, `.string-end2`.

In memory a body cites `@THING`, which is that field of its place (`@start` is the start itself), and the depth of each thing stands beside.
On paper `at-THING` is the place, named from the nearer place before it, and a fact is read as `at-THING .THING .ensures`:

    part-end c = let at-string-end = c .before .before .before in let at-start = at-string-end .before .before .before in
        string-ends _ (at-start .pre .0) _ (at-string-end .string-end .ensures) _ (c .before .a .given .1)

The nearest place is `c`. A place at most NEAR steps from the place named before it is written where it is cited, if that is shorter.
The last block hands the answers to `spec` in the order of the needs; a need with no answer of its own stands there as `(λ c. search needs)`.
"""
import re

from uses import without_unused

WIDTH = 120                                          # lines are filled up to here,
LONGEST = 160                                        # and broken where they are longer than this
WIDEST = 300                                         # no line of a proof is longer than this
NEAR = 2
START, START_FIELDS = "start", {"κs", "args", "good", "fits", "pre"}
START_CALL = "start-call"                            # the thing of a call of a function named start
SEARCH, SEARCHES = "search needs", "use borrow.Author.Needs.{needs}"
NO_LAW = {"omega", "arith", "search", "needs", "sym", "refl", "tt", "∙", "_", "c"}      # what a body is made of that only cites facts

NAME = r"[\w·′'-]+"
WAY = rf"(c|at-{NAME})((?:\s+\.before)*)(?:\s+\.({NAME}))?"
LET = re.compile(rf"let at-({NAME}) = {WAY}\s+in(?=\s)\s*")
CITED = re.compile(rf"(?<![\w·′'.@-]){WAY}(?![\w·′'-])")
THING = re.compile(rf"@({NAME})")
HEAD = re.compile(r"^(\S+) ((?:t )?c(?: κs)?) =", re.M)
NEED = re.compile(r"(\S+)\.Need-(\S+)")
SHARED = re.compile(rf"({NAME})( t)? (?:c|\(c(?: \.before)+\))( κs)?")
SPEC = re.compile(r"(pub \S+-spec :[^\n]*\n\S+ =)(?=\s)(.*)", re.S)


def label(thing):
    """What a thing is called here: its name, unless that is the start's."""
    return START_CALL if thing == START else thing


def blocks_of(text):
    return text.rstrip("\n").split("\n\n")


class Answer:
    """A block that answers a need: its head up to `=`, its body with `@THING`s, and the depth at which the text found each thing."""

    def __init__(self, block):
        head = HEAD.search(block)
        self.name, self.binds, self.head = head.group(1), head.group(2), block[:head.end()]
        self.lts, self.need = NEED.search(self.head).groups()
        self.depths, self.unclear = {}, set()
        self.body = self._read(block[head.end():].strip())

    @staticmethod
    def is_one(block):
        head = HEAD.search(block)
        return bool(head and NEED.search(block[:head.end()]))

    def _read(self, text):
        """The body with every place that it cites written @THING, whichever form it had."""
        named = {"c": (0, None, None)}                           # name: its depth, the thing that it is (None: the place), its thing's name

        def take(m):
            name, base, steps, thing = m.groups()
            if base not in named or named[base][1] or thing in START_FIELDS:
                return m.group(0)
            named["at-" + name] = (named[base][0] + steps.count(".before"), label(thing), name)
            return ""

        def cite(m):
            base, steps, field = m.groups()
            if base not in named:
                return m.group(0)
            depth, thing, name = named[base]
            depth += steps.count(".before")
            rest = f" .{field}" if field else ""
            if thing:
                return self._found(thing, depth) + rest
            if field in START_FIELDS or field is None and name == START:
                return self._found(START, depth) + rest
            return self._found(label(field), depth) if field else m.group(0)

        return CITED.sub(cite, LET.sub(take, text)).strip()

    def _found(self, thing, depth):
        if self.depths.setdefault(thing, depth) != depth:
            self.unclear.add(thing)
        return "@" + thing

    def is_empty(self):
        """Whether it says nothing: a search, and no comment."""
        return self.body == SEARCH and "unfolding" not in self.head and "--" not in self.head

    def names_no_law(self):
        """Whether it only cites facts on the way, so that a search may find it."""
        words = re.sub(rf"@{NAME}|\.{NAME}|\b\d+|[(),]", " ", self.body).split()
        return self.body != SEARCH and not re.search("unfolding|--", self.head) and set(words) <= NO_LAW

    def write(self, depths=None):
        """The block, its places relative to each other; `depths` of the goals, else those of the text."""
        depths = depths or self.depths
        cited, lets, ways, base, base_depth = THING.findall(self.body), [], {}, "c", 0
        for thing in sorted(set(cited), key=lambda t: depths[t]):
            steps, name = depths[thing] - base_depth, f"at-{thing}"
            way = base + " .before" * steps
            let = f"let {name} = {way} in"
            if steps > NEAR or cited.count(thing) * (len(way) - len(name)) > len(let):
                lets.append(let)
                way = base = name
                base_depth = depths[thing]
            ways[thing] = way if thing == START else f"{way} .{START if thing == START_CALL else thing}"
        return layout(self.head, lets, THING.sub(lambda m: ways[m.group(1)], self.body))

    def share(self, earlier, steps):
        """The block, answered by an earlier answer at a place so many steps back."""
        way = f"(c{' .before' * steps})" if steps else "c"
        return f"{self.head} {earlier} {re.sub('(?<![^ ])c(?![^ ])', way, self.binds)}"


def searched(binds):
    """How a need that a search answers stands in the list of `spec`."""
    return f"(λ {binds.removeprefix('t ')}. {SEARCH})"


def tidy(text):
    """A proof file's text in the form above, without the lines of source that an offered file names; and the answers that only `expand` can read."""
    blocks, inlined, left = blocks_of(re.sub(r"^-- src/.*\n", "", text, flags=re.M)), {}, []
    for k, block in enumerate(blocks):
        if not Answer.is_one(block):
            continue
        answer = Answer(block)
        if answer.unclear or not set(THING.findall(answer.body)) <= set(answer.depths):
            left.append(answer.name)
        elif answer.is_empty() and mentions(blocks, answer.name) == 2:
            inlined[answer.name] = searched(answer.binds)
            blocks[k] = ""
        else:
            blocks[k] = answer.write()
    blocks = [write_spec(b, lambda words: [put_in(w, inlined) for w in words]) for b in blocks if b]
    return without_unused(narrow("\n\n".join(blocks) + "\n"))[0], left


def narrow(text, most=LONGEST):
    """The text with its lines broken that are longer than that."""
    return "\n".join(part for line in text.split("\n") for part in (broken(line) if len(line) > most else [line]))


def mentions(blocks, name):
    """How many blocks name it: its own and the last, where nothing else cites it."""
    word = re.compile(rf"(?<![\w·′'.-]){re.escape(name)}(?![\w·′'-])")
    return sum(bool(word.search(b)) for b in blocks)


def expand(text, goals):
    """A proof file's text with the places and the list of `spec` as the goals have them, and what a person has to mend."""
    blocks, wrong = blocks_of(text), []
    read = {k: Answer(b) for k, b in enumerate(blocks) if Answer.is_one(b)}
    named = {a.name: a for a in read.values()}
    for k, answer in read.items():
        try:
            blocks[k] = placed(answer, named, goals)
        except LookupError as e:
            wrong.append(f"{answer.name}: {e.args[0]}")
    if "" in goals and not wrong:
        by = {a.need: a.name for a in read.values()}
        needs = [by.get(n) or searched("c κs" if re.search(r"-requires(-\d+)?$", n) else "c") for n in goals[""].needs]
        blocks = [write_spec(b, lambda words: with_needs(words, needs)) for b in blocks]
    return "\n\n".join(blocks) + "\n", wrong


def placed(answer, named, goals):
    """The block of an answer, its places as the goals have them; `named` are the file's answers by name."""
    places = goals.get(member_of(answer, goals))
    if places is None or answer.need not in places.needs:
        raise LookupError(f"there is no need {answer.need} now")
    shared = SHARED.fullmatch(answer.body)
    if shared and shared.group(1) in named:
        steps = places.steps(answer.need, named[shared.group(1)].need)
        if steps is None:
            raise LookupError(f"{shared.group(1)} is not on the way now")
        return answer.share(shared.group(1), steps)
    depths = places.depths(answer.need)
    missing = [t for t in THING.findall(answer.body) if t not in depths]
    if missing:
        raise LookupError(f"not on the way: {' '.join(missing)} (there are: {' '.join(depths)})")
    return answer.write(depths)


def member_of(answer, goals):
    """The function of a cycle whose need it answers; "" where the function is alone."""
    return next((m for m in goals if len(goals) == 1 or answer.lts == m.replace("_", "-") + "-lts"), None)


def repeats(text, goals):
    """[(later, earlier, steps)]: the answers that say again what an earlier one says at the same place, or at one on the way."""
    found, seen = [], {}
    for block in filter(Answer.is_one, blocks_of(text)):
        answer = Answer(block)
        member = member_of(answer, goals)
        one_line = answer.head.count("\n") == block.count("\n")
        if one_line or member is None or answer.need not in goals[member].needs or "--" in answer.head:
            continue
        key = (member, answer.binds, tuple(re.findall(r"^unfolding .*", answer.head, re.M)), " ".join(answer.body.split()))
        for earlier in seen.setdefault(key, []):
            steps = goals[member].steps(answer.need, earlier.need)
            if steps is not None and all(answer.depths[t] == earlier.depths[t] + steps for t in answer.depths):
                found.append((answer, earlier, steps))
                break
        else:
            seen[key].append(answer)
    return found


def with_shared(text, shared):
    """The text with those answers (of `repeats`) answered by their earlier ones."""
    by = {later.name: (earlier.name, steps) for later, earlier, steps in shared}
    blocks = blocks_of(text)
    for k, block in enumerate(blocks):
        if Answer.is_one(block):
            answer = Answer(block)
            if answer.name in by:
                blocks[k] = answer.share(*by[answer.name])
    return "\n\n".join(blocks) + "\n"


def without_law(text):
    """[(answer,)]: the answers that name no law and that no other answer cites."""
    blocks = blocks_of(text)
    return [(a,) for a in map(Answer, filter(Answer.is_one, blocks)) if a.names_no_law() and mentions(blocks, a.name) == 2]


def with_searched(text, spared):
    """The text with those answers (of `without_law`) left to the search."""
    names = {answer.name for answer, in spared}
    blocks = [f"{Answer(b).head} {SEARCH}" if Answer.is_one(b) and Answer(b).name in names else b for b in blocks_of(text)]
    if names and SEARCHES not in text:
        blocks[0] = re.sub("^use ", f"{SEARCHES}\nuse ", blocks[0], count=1, flags=re.M)
    return "\n\n".join(blocks) + "\n"


def write_spec(block, change):
    """The block that hands the answers to `spec`, its words changed and its lines filled; any other block as it is."""
    parts = SPEC.fullmatch(block)
    if not parts or "spec" not in parts.group(2):
        return block
    return layout(parts.group(1), change(spec_words(parts.group(2))), "")


def spec_words(text):
    """The words of a call of `spec`, what stands in brackets of its own as one word."""
    words, depth = [], 0
    for word in text.split():
        if depth:
            words[-1] += " " + word
        else:
            words.append(word)
        depth = 0 if word.endswith("spec") else max(0, depth + sum((c in "({") - (c in ")}") for c in word))
    return words


def put_in(word, inlined):
    """The word, or what is inlined where it is a name `NAME` or `(NAME t)` of that; brackets around it stay."""
    m = re.fullmatch(r"(\(?)([^\s()]+)( t\))?(\)*)", word)
    if not m or m.group(2) not in inlined or bool(m.group(1)) != bool(m.group(3)):
        return word
    return inlined[m.group(2)] + m.group(4)


def with_needs(words, needs):
    """The words of `tie.close (tie.spec ..)`: the invariants and measures, then the needs in their order."""
    if words[:2] != ["tie.close", "(tie.spec"] or not needs:
        return words
    at = 2
    while at < len(words) and re.match(r"(Inv|μ)-", words[at]):
        at += 1
    return words[:at] + needs[:-1] + [needs[-1] + ")"]


def layout(head, words, body):
    """HEAD WORDS BODY on lines filled from the head on. A body of several lines keeps its lines."""
    first, *rest = body.split("\n")
    joined = not rest or first == "("
    lines = fill([*words, *([first] if joined and first else [])], head)
    return "\n".join([*lines, *([] if joined else ["    " + first]), *filter(str.strip, rest)])


def fill(words, line):
    """The words on lines of at most WIDTH columns, behind a line that stands."""
    lines = [line]
    for word in words:
        if len(lines[-1].split("\n")[-1]) + 1 + len(word) <= WIDTH:
            lines[-1] += " " + word
        else:
            lines.append("    " + word)
    return lines


def broken(line):
    """The line, or the lines that it is broken into where it is longer than LONGEST: behind `=`, at a comma, between arguments, outside in."""
    lines, indent = [line], re.match(r" *", line).group(0) + "    "
    if line.startswith("use "):
        return split_use(line)
    if "--" in line or '"' in line:
        return lines
    while len(lines[-1].removesuffix(" (")) > LONGEST:
        rest = lines.pop()
        defined = not lines and re.match(r"\s{0,3}\S[^=]* =(?= )", rest)
        at = defined.end() if defined and defined.end() <= LONGEST else best_break(rest, len(indent))
        if at is None:
            return lines + [rest]
        lines += [rest[:at], indent + rest[at + 1:]]
    return lines


def split_use(line):
    """A `use` line, or several of the same module where it is wider than a proof's line may be."""
    if len(line) <= WIDEST:
        return [line]
    module, names = re.match(r"(use [^\s{]+\.\{)(.*)\}", line).groups()
    lines = [module]
    for name in names.split(", "):
        if len(lines[-1]) + len(name) > LONGEST:
            lines.append(module)
        lines[-1] += (", " if lines[-1] != module else "") + name
    return [other + "}" for other in lines]


def best_break(line, indent):
    """The last of the outermost spaces where a line may be broken; in a bracket commas come before other spaces."""
    depth, best, at = 0, None, None
    for k, char in enumerate(line[:WIDTH + 1]):
        depth += (char in "({") - (char in ")}")
        if char != " " or k <= indent + 8 or line[k + 1] in ".=∙":
            continue
        comma = line[k - 1] in ",;" or line[:k].endswith(" in")
        if comma or k >= WIDTH // 2:
            level = 2 * depth + (not comma)
            if best is None or level <= best:
                best, at = level, k
    return at
