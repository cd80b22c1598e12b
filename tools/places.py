"""What `rt goals` writes of a function: its needs in order, and the places on the way to each. Of the older kit, as tools/prove.py, which uses it."""
import glob
import os
import re
import subprocess
import sys

RT = os.environ.get("RT", "rt")
RECORD = re.compile(r"^ *pub record (\S+?)(·own)? : Type 0 where\n((?: +pub [^\n]*\n(?: {12,}[^\n]*\n)*)+)", re.M)
NEED = re.compile(r"^ *Need-(\S+) =\s*(?:\([^c][^\n]*\) →\s+)*\(c : (\S+?)\) →", re.M)


class Places:
    """The places of one function, from the text of its Lts."""

    def __init__(self, text):
        self.place, self.own = {}, {}
        for name, own, body in RECORD.findall(text):
            fields = re.findall(r"^ *pub (\S+) : (\S+)", body, re.M)
            if own:
                self.own[name] = (fields, re.sub(r"\s+", " ", body))
            else:
                self.place[name] = fields
        self.needs = dict(NEED.findall(text))

    def chain(self, need):
        """[(thing, place)], nearest first; the last is `start`. A call of a function named start is `start-call`."""
        out, at = [], self.needs[need]
        while at in self.place and self.place[at][0][0] == "before":
            thing = self.place[at][1][0]
            out.append(("start-call" if thing == "start" else thing, at))
            at = self.place[at][0][1]
        return out + [("start", at)]

    def depths(self, need):
        """How many steps back each thing lies; the nearest counts where a name comes twice."""
        out = {}
        for depth, (thing, _) in enumerate(self.chain(need)):
            out.setdefault(thing, depth)
        return out

    def steps(self, need, earlier):
        """How many steps before a need's place that of an earlier need lies; None where it is not on the way."""
        way = [place for _, place in self.chain(need)]
        place = self.needs.get(earlier)
        return way.index(place) if place in way else None

    def fields(self, place):
        return [name for name, _ in self.own.get(place, ([], ""))[0]]


def make_goals(crate):
    """What is to be proved of a crate, written anew under target/goals/."""
    run = subprocess.run([RT, "goals", crate], capture_output=True, text=True)
    if run.returncode not in (0, 1):
        sys.exit("\n".join((run.stdout + run.stderr).splitlines()[-5:]))


def read_goals(crate, function):
    """{member: Places} of a function; one alone has the one member "", a cycle of calls has one for each of its functions."""
    files = sorted(glob.glob(f"target/goals/{crate}/*proofs/proofs/{glob.escape(function)}/Lts*.antt"))
    return {os.path.basename(f)[3:-5].lstrip("-"): Places(open(f, encoding="utf-8").read()) for f in files}


def goals(crate, function):
    make_goals(crate)
    return read_goals(crate, function) or sys.exit(f"{crate} has no goals of {function}")
