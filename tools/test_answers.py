#!/usr/bin/env python3
"""Tests of answers.py: every form of a place is read, one is written. `python3 tools/test_answers.py`"""
import unittest

import answers
from places import Places

LTS = """
    pub record Start : Type 0 where
      pub args : Args
      pub pre : Pre

    pub record After-find : Type 0 where
      pub before : Start
      pub find : After-find·own before

    pub record At-loop : Type 0 where
      pub before : After-find
      pub loop : At-loop·own before

    pub record After-put : Type 0 where
      pub before : At-loop
      pub put : After-put·own before

    pub record If1 : Type 0 where
      pub before : After-put
      pub if1 : If1·own before

    Need-find-requires = (c : Start) → Asks
    Need-add = (c : If1) → Asks
    Need-returns = (c : If1) → Asks
"""
GOALS = {"": Places(LTS)}
BODY = "lemma (%s .pre .0) (%s .ensures) (%s .inv) (%s .result) (%s .taken)"
HEAD = "returns : tie.Need-returns Inv-loop μ-loop\nunfolding f\nreturns c ="
OLD = f"""{HEAD}
    let at-if1 = c .if1 in
    let at-put = c .before .put in
    let at-loop = c .before .before .loop in
    let at-find = c .before .before .before .find in
    let at-start = c .before .before .before .before in
    {BODY % ("at-start", "at-find", "at-loop", "at-put", "at-if1")}"""
PLAIN = HEAD + " " + BODY % ("c .before .before .before .before", "c .before .before .before .find", "c .before .before .loop",
                             "c .before .put", "c .if1")
SHORT = HEAD + " " + BODY % ("@start", "@find", "@loop", "@put", "@if1")
FORM = f"""{HEAD} let at-find = c .before .before .before in
    {BODY % ("at-find .before", "at-find .find", "c .before .before .loop", "c .before .put", "c .if1")}"""
FILE = """use borrow.Author.Needs.{needs}
use some.Where.{lemma, unused}

%s

find-requires : tie.Need-find-requires Inv-loop μ-loop
find-requires c κs = search needs

add : tie.Need-add Inv-loop μ-loop
add c = search needs

pub find-spec : {M : Type 1} → statement M
find-spec =
    tie.close
    (tie.spec
    Inv-loop
    μ-loop
    find-requires
    add
    returns)
"""
TIDY = """use borrow.Author.Needs.{needs}
use some.Where.{lemma}

%s

pub find-spec : {M : Type 1} → statement M
find-spec = tie.close (tie.spec Inv-loop μ-loop (λ c κs. search needs) (λ c. search needs) returns)
""" % FORM


class Reads(unittest.TestCase):
    def test_every_form_is_written_as_one(self):
        for block in (OLD, PLAIN, FORM):
            self.assertEqual(answers.Answer(block).write(), FORM)
            self.assertEqual(answers.expand(block, GOALS), (FORM + "\n", []))
        self.assertEqual(answers.expand(SHORT, GOALS), (FORM + "\n", []))

    def test_expand_repairs_places_that_moved(self):
        moved = FORM.replace("c .before .put", "c .before .before .before .put").replace("at-find .before .pre", "at-find .pre")
        self.assertEqual(answers.expand(moved, GOALS), (FORM + "\n", []))

    def test_expand_names_what_is_gone(self):
        _, wrong = answers.expand(SHORT.replace("@put", "@gone"), GOALS)
        self.assertEqual(wrong, ["returns: not on the way: gone (there are: if1 put loop find start)"])

    def test_answers_without_law_are_left_to_the_search(self):
        facts, law = (FILE % SHORT).replace("add c = search needs", "add c = %s") % "omega (arith, @put .ensures .0)", FILE % SHORT
        self.assertEqual([a.name for a, in answers.without_law(facts)], ["add"])
        self.assertEqual(answers.without_law(law), [])
        for text in (facts, facts.replace("use borrow.Author.Needs.{needs}\n", "")):
            self.assertEqual(answers.with_searched(text, answers.without_law(text)), law)


class Tidies(unittest.TestCase):
    def test_a_file(self):
        self.assertEqual(answers.tidy(FILE % OLD), (TIDY, []))

    def test_modules_that_nothing_mentions(self):
        self.assertEqual(answers.tidy("use some.Where.Reads as reads\n" + FILE % OLD), (TIDY, []))

    def test_twice_is_once(self):
        self.assertEqual(answers.tidy(TIDY), (TIDY, []))

    def test_what_needs_the_goals_is_left(self):
        self.assertEqual(answers.tidy(FILE % SHORT)[1], ["returns"])

    def test_expand_gives_a_new_need_a_search(self):
        without = TIDY.replace("(λ c. search needs) ", "")
        self.assertEqual(answers.expand(without, GOALS), (TIDY, []))

    def test_long_lines_are_broken_outside_in(self):
        line = "    " + "lemma (" + ", ".join(["f (g x y)"] * 20) + ") z"
        parts = answers.broken(line)
        self.assertTrue(len(parts) == 2 and all(len(p) <= answers.LONGEST for p in parts) and parts[0].endswith(","))
        self.assertEqual(" ".join(p.strip() for p in parts), line.strip())


if __name__ == "__main__":
    unittest.main()
