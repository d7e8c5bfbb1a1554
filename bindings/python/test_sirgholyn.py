"""Tests of sirgholyn.py: `python3 -B test_sirgholyn.py`, where the library is built. SIRGHOLYN_LIB and
SIRGHOLYN_COMMAND may name another library and another command."""

import ast
import contextlib
import ctypes
import doctest
import io
import itertools
import os
import pickle
import re
import signal
import subprocess
import sys
import tempfile
import threading
import traceback
import unittest
from concurrent.futures import ThreadPoolExecutor
from pathlib import Path
from unittest import mock

import sirgholyn
from sirgholyn import Choice, Refused, SolverFailed, Undecided
from sirgholyn import carry_forward, plan, read_back, reencode, sizes, solve, walk_back

HERE = Path(__file__).resolve().parent
ROOT = HERE.parent.parent

# the sessions of the specification
A = b"p cnf 0 0"
B = b"p cnf 0 1\n0\n"
C = b"p cnf 1 2\n1 0\n-1 0\n"
D = b"p cnf 2 2\n1 2 0\n-1 -2 0\n"
E = b"p cnf 3 2\n1 2 0\n-1 3 0\n"
F = b"p cnf 6 7\n1 2 3 4 5 0\n-1 -2 0\n-1 6 0\n-2 6 0\n-3 6 0\n-4 -6 0\n-5 -6 0\n"
G = b"p cnf 10 8\n8 -7 0\n9 -8 0\n10 -9 0\n-7 6 0\n7 -8 6 0\n8 -9 6 0\n9 -10 -6 0\n10 -6 0\n"
# two pairs of the choice in two copies each
COPIES = b"p cnf 5 9\n1 2 3 4 5 0\n-1 -2 0\n-1 -3 0\n-2 -1 0\n-3 -1 0\n-4 0\n-4 0\n-5 0\n-5 0\n"
# F with literals repeated, and with clauses that hold a literal and its negation
JOINED_F = b"p cnf 6 9\n1 2 1 3 4 5 5 0\n-1 1 0\n-1 -2 -1 0\n-1 6 0\n-2 6 0\n-3 6 0\n-4 -6 0\n2 6 -2 2 0\n-5 -6 -6 0\n"
# three clauses that are resolved into one choice
CHAIN = b"p cnf 8 3\n1 2 3 0\n-3 4 5 0\n-5 6 7 8 0\n"
H_ANSWER = b"s SATISFIABLE\nv 1 2 3 4 5 -6 -7 -8 -9 10 0\n"
H_LINE = b"v -1 -2 -3 4 -5 -6 0\n"
H_PLAN = b"s SATISFIABLE\n" + H_LINE
FORWARD = b"v -1 -2 -3 4 -5 -6 -7 -8 -9 10 0\n"

ALL_FALSE = b"s SATISFIABLE\nv 0\n"

# the calls that carry an assignment over a log
CARRYING = (walk_back, carry_forward)

# the sizes of a reencoding's texts and table
ROOMS = ("log_room", "formula_room", "table_room")

# each form, with and without alignment
WAYS = [dict(form=form, align=align) for form in ("counter", "order") for align in (False, True)]


def cnf(variables, clauses):
    lines = [" ".join(map(str, [*clause, 0])) for clause in clauses]
    return "\n".join([f"p cnf {variables} {len(clauses)}", *lines, ""]).encode()


def linked(*links):
    """Two choices of five, and links between their literals."""
    negated = [[-literal] for literal in range(1, 11) for _ in range(2)]
    return cnf(10, [[1, 2, 3, 4, 5], [6, 7, 8, 9, 10], *links, *negated])


def clash_chain(clashes):
    """A formula whose clashes give a log that is far longer than itself."""
    own = clashes + 1
    clauses = []
    for link in range(1, own + 1):
        clause = [clashes + 2 * link - 1, clashes + 2 * link]
        clause += [-(link - 1)] if link > 1 else []
        clause += [link] if link <= clashes else []
        clauses.append(clause)
    for literal in range(clashes + 1, clashes + 2 * own + 1):
        clauses += [[-literal], [-literal]]
    return cnf(clashes + 2 * own, clauses)


def counted(new):
    """What `sizes` says of a reencoding."""
    return (new.choices, new.highest, new.clauses, new.lines, len(new.log), len(new.formula))


def rooms(counts):
    """The buffers that are just large enough for a reencoding with these counts."""
    return dict(log_room=counts.log_bytes, formula_room=counts.formula_bytes, table_room=counts.choices)


class Case(unittest.TestCase):
    def assert_refused(self, number, call, *args, **named):
        with self.assertRaises(Refused) as caught:
            call(*args, **named)
        self.assertEqual(caught.exception.number, number)
        return caught.exception


class Sessions(Case):
    def expect(self, text, log, formula):
        for way in WAYS:
            new = reencode(text, **way)
            self.assertEqual((new.log, new.formula), (log, formula))
            self.assertEqual(new.lines, log.count(b"\n"))
            header = f"p cnf {new.highest} {new.clauses}\n".encode()
            self.assertTrue(formula.startswith(header))
            self.assertEqual((new.choices, new.table), (0, []))
            back = read_back(new.formula)
            self.assertEqual((back.variables, len(back.clauses)), (new.highest, new.clauses))
            self.assertEqual(sizes(text, **way), counted(new))

    def test_a(self):
        self.expect(A, b"", b"p cnf 0 0\n")
        for carry in CARRYING:
            self.assertEqual(carry(A, b"", ALL_FALSE), b"v 0\n")
        self.assertEqual(read_back(A), ([], 0, 0))

    def test_b(self):
        self.expect(B, b"", B)
        self.assert_refused(44, walk_back, B, b"", ALL_FALSE)
        self.assert_refused(45, carry_forward, B, b"", ALL_FALSE)
        self.assertEqual(read_back(B), ([[]], 0, 0))

    def test_c(self):
        self.expect(C, b"0\nd 1 0\nd -1 0\n", b"p cnf 1 1\n0\n")
        self.assertEqual(read_back(C), ([[1], [-1]], 1, 2))

    def test_d(self):
        log = b"d 1 2 0\nd -1 -2 0\n"
        self.expect(D, log, b"p cnf 2 0\n")
        self.assertEqual(plan(walk_back(D, log, ALL_FALSE)), [1, -2])
        self.assertEqual(plan(carry_forward(D, log, b"s SATISFIABLE\nv 2 0\n")), [-1, 2])

    def test_e(self):
        log = b"2 3 0\nd 1 2 0\nd -1 3 0\nd 2 3 0\n"
        self.expect(E, log, b"p cnf 3 0\n")
        self.assertEqual(walk_back(E, log, b"s SATISFIABLE\nv -1 -2 -3 0\n"), b"v -1 2 -3 0\n")

    def test_f(self):
        new = reencode(F)
        self.assertEqual(new[2:], (1, 10, 21, 18, [(7, 5, 1)]))
        self.assertEqual(len(read_back(new.formula).clauses), 21)
        self.assertEqual(sizes(F), (1, 10, 21, 18, len(new.log), len(new.formula)))

    def test_g_and_h(self):
        new = reencode(F, form="order")
        self.assertEqual(new[1:], (G, 1, 10, 8, 41, [(7, 5, 1)]))
        self.assertEqual(sizes(F, form="order"), (1, 10, 8, 41, len(new.log), len(G)))
        self.assertEqual(read_back(G).clauses[4], [7, -8, 6])
        self.assertEqual(read_back(G)[1:], (10, 19))
        self.assertEqual(walk_back(F, new.log, H_ANSWER), H_LINE)
        self.assertEqual(walk_back(F, new.log, H_ANSWER, kept=41), H_LINE)
        self.assertEqual(walk_back(F, new.log, b"s SATISFIABLE\nv 4 0\n", kept=0), H_LINE)
        self.assertEqual(plan(H_LINE), [-1, -2, -3, 4, -5, -6])

    def test_carried_forward(self):
        for text in (F, JOINED_F):
            for form in ("counter", "order"):
                log = reencode(text, form=form).log
                self.assertEqual(carry_forward(text, log, H_PLAN), FORWARD)
                self.assertEqual(carry_forward(text, log, H_PLAN, kept=0), H_LINE)
                self.assertEqual(plan(carry_forward(text, log, H_PLAN, kept=4)), [-1, -2, -3, 4, -5, -6, -7, -8])
                self.assertEqual(walk_back(text, log, b"s SATISFIABLE\n" + FORWARD), H_LINE)
                # of two true literals the first in the choice stays
                several = carry_forward(text, log, b"s SATISFIABLE\nv 1 3 6 0\n")
                self.assertEqual(plan(several), [1, -2, -3, -4, -5, 6, 7, 8, 9, 10])

    def test_carried_forward_satisfies_the_new_formula(self):
        text = (ROOT / "examples" / "valley.cnf").read_bytes()
        literals = " ".join(map(str, solve(text)))
        for form in ("counter", "order"):
            for step in (1, 10):
                new = reencode(text, form=form, align=True, step=step)
                line = carry_forward(text, new.log, f"s SATISFIABLE\nv {literals} 0\n")
                self.assertEqual(len(plan(line)), new.highest)
                self.assertTrue(sirgholyn._satisfies(new.formula, plan(line)))

    def test_copies_of_pairs(self):
        new = reencode(COPIES)
        self.assertEqual((new.lines, len(new.log)), (21, 175))
        stage_3 = b"\n-2 -6 0\n-3 -7 0\n-4 -8 0\n-5 -9 0\n9 5 0\n"
        stage_4 = b"d 1 2 3 4 5 0\nd -1 -2 0\nd -1 -2 0\nd -1 -3 0\nd -1 -3 0\n"
        self.assertTrue(new.log.endswith(stage_3 + stage_4))
        self.assertEqual(walk_back(COPIES, new.log, b"s SATISFIABLE\nv 3 8 9 0\n"), b"v -1 -2 3 -4 -5 0\n")

    def test_three_clauses_in_a_choice(self):
        clashes = b"1 2 4 5 0\nd 3 1 2 0\nd -3 4 5 0\n1 2 4 6 7 8 0\nd 5 1 2 4 0\nd -5 6 7 8 0\n"
        for form in ("counter", "order"):
            for step, first in ((1, 9), (2, 9), (3, 10), (10, 11), (100, 101)):
                new = reencode(CHAIN, form=form, step=step)
                self.assertTrue(new.log.startswith(clashes + b"-%d 1 0\n" % first))
                self.assertEqual(new.table, [Choice(first=first, length=6, clauses=3)])
                self.assertEqual(new.highest, first + 4)
                back = read_back(new.formula)
                new_variables = set(range(first, first + 5))
                named = {abs(literal) for clause in back.clauses for literal in clause}
                self.assertEqual({variable for variable in named if variable > 8}, new_variables)

    def test_tables(self):
        text = cnf(75, [list(range(1, 6)), list(range(6, 70)), list(range(70, 76))])
        self.assertEqual(reencode(text).table, [(76, 5, 1), (80, 64, 1), (143, 6, 1)])
        self.assertEqual(reencode(text, step=10).table, [(81, 5, 1), (91, 64, 1), (161, 6, 1)])
        self.assertEqual(len(reencode(cnf(8000, [range(v, v + 5) for v in range(1, 8000, 5)])).table), 1600)

    def test_alignment(self):
        text = linked([-1, -8], [-2, -6])
        for form in ("counter", "order"):
            self.assertIn(b"\nd 6 7 8 9 10 0\n", reencode(text, form=form).log)
            self.assertIn(b"\nd 8 6 7 9 10 0\n", reencode(text, form=form, align=True).log)

    def test_one_clause(self):
        """A repeated literal is kept once, and a clause that holds a literal and its negation is left out."""
        bodies = {b"1 1 0": (b"d 1 0\n", [[1]]), b"1 -1 0": (b"", []), b"1 -1 1 0": (b"", [])}
        for body, (log, kept) in bodies.items():
            text = b"p cnf 1 1\n" + body + b"\n"
            self.expect(text, log, b"p cnf 1 0\n")
            self.assertEqual(read_back(text), (kept, 1, len(kept)))
            self.assertEqual(plan(walk_back(text, log, ALL_FALSE)), [1] if kept else [-1])

    def test_joined(self):
        for form in ("counter", "order"):
            new = reencode(F, form=form)
            self.assertEqual(reencode(JOINED_F, form=form), new)
            self.assertEqual(read_back(JOINED_F), read_back(F))
        self.assertEqual(walk_back(JOINED_F, new.log, H_ANSWER), H_LINE)

    def test_results_are_plain(self):
        self.assertEqual([type(part) for part in sizes(F)], 6 * [int])
        new = reencode(F)
        self.assertEqual([type(part) for part in new], [bytes, bytes, int, int, int, int, list])
        self.assertEqual([type(part) for part in new.table[0]], [int, int, int])
        for carry in CARRYING:
            self.assertIs(type(carry(A, b"", ALL_FALSE)), bytes)


class Beforehand(Case):
    """The sizes of a reencoding before it is run."""

    def test_sizes_are_those_of_the_run(self):
        valley = (ROOT / "examples" / "valley.cnf").read_bytes()
        for text in (F, JOINED_F, COPIES, CHAIN, clash_chain(60), valley):
            for way, step in itertools.product(WAYS, (1, 7, 100)):
                self.assertEqual(sizes(text, **way, step=step), counted(reencode(text, **way, step=step)))

    def test_every_setting_counts(self):
        text = linked([-1, -8], [-2, -10])
        told = [sizes(text, **way, step=step) for way in WAYS for step in (1, 7, 100)]
        self.assertEqual(told, [counted(reencode(text, **way, step=step)) for way in WAYS for step in (1, 7, 100)])
        self.assertEqual(len(set(told)), 12)

    def test_exact_rooms(self):
        two = cnf(11, [range(1, 6), range(6, 12)])
        for text, way in itertools.product((F, COPIES, CHAIN, two), WAYS):
            new = reencode(text, **way, step=7)
            exact = rooms(sizes(text, **way, step=7))
            self.assertEqual(reencode(text, **way, step=7, **exact), new)
            for number, name in ((12, "log_room"), (13, "formula_room"), (17, "table_room")):
                for room in (exact[name] - 1, 0):
                    short = dict(exact, **{name: room})
                    self.assert_refused(number, reencode, text, **way, step=7, **short)

    def test_nothing_to_write(self):
        self.assertEqual(sizes(A), (0, 0, 0, 0, 0, len(b"p cnf 0 0\n")))
        self.assertEqual(reencode(A, **rooms(sizes(A))), reencode(A))

    def test_work(self):
        """By the literals that are kept, and the header's clauses and variables."""
        for text, clauses in ((F, 7), (JOINED_F, 9)):
            work = 40 * 17 + 4 * clauses + 12 * 6 + 8_192
            for call, way in itertools.product((sizes, reencode), WAYS):
                self.assertEqual(call(text, **way, work=work), call(text, **way))
                self.assert_refused(11, call, text, **way, work=work - 1)
                self.assert_refused(11, call, text, **way, work=0)

    def test_many_choices(self):
        many = cnf(8000, [range(v, v + 5) for v in range(1, 8000, 5)])
        self.assertEqual(sizes(many, step=38)[:2], (1600, 68_784))
        for call in (sizes, reencode):
            self.assert_refused(16, call, many, step=39)
            self.assert_refused(11, call, many, step=39, work=0)


class Refusals(Case):
    def test_formula(self):
        bodies = {4: b"2 0", 3: b"-0", 7: b"1", 8: b"1 0 1 0"}
        texts = {number: b"p cnf 1 1\n" + body + b"\n" for number, body in bodies.items()}
        texts[1] = b"p  cnf 1 1\n1 0\n"
        texts[2] = b"p cnf 8001 0\n"
        texts[9] = cnf(2000, [list(range(1, 2001))] * 30 + [[1]])
        for number, text in texts.items():
            for call in (sizes, reencode):
                self.assert_refused(number, call, text)
                # which comes before the workspace, and the step before it
                self.assert_refused(number, call, text, work=0)
                self.assert_refused(15, call, text, work=0, step=0)
            for carry in CARRYING:
                self.assert_refused(number, carry, text, b"", ALL_FALSE)
            if number not in (2, 9):
                self.assert_refused(number, read_back, text)
        self.assert_refused(2, read_back, b"p cnf 70001 0\n")
        self.assert_refused(9, read_back, cnf(2000, [list(range(1, 2001))] * 500 + [[1]]))

    def test_caller(self):
        new = reencode(F, form="order")
        numbers = len(new.log.replace(b"d ", b"").split())
        for carry, given, line in ((walk_back, H_ANSWER, H_LINE), (carry_forward, H_PLAN, FORWARD)):
            exact = dict(work=4 * (24 + numbers) + 4 * 10 + 64, room=len(line))
            self.assertEqual(carry(F, new.log, given, **exact), line)
            for number, name in ((11, "work"), (14, "room")):
                short = dict(exact, **{name: exact[name] - 1})
                self.assert_refused(number, carry, F, new.log, given, **short)

        work = 40 * 19 + 4 * 8 + 12 * 10 + 8_192
        self.assertEqual(read_back(G, work=work), read_back(G))
        self.assert_refused(11, read_back, G, work=work - 1)

    def test_order_of_the_rooms(self):
        """Of the buffers that are short the first is told, whichever of the others are set."""
        new = reencode(F)
        exact = dict(
            work=40 * 17 + 4 * 7 + 12 * 6 + 8_192, table_room=1, log_room=len(new.log), formula_room=len(new.formula)
        )
        for less in itertools.product((None, 0, 1), repeat=4):
            given = {name: exact[name] - by for name, by in zip(exact, less) if by is not None}
            short = [number for number, by in zip((11, 17, 12, 13), less) if by == 1]
            if short:
                self.assert_refused(short[0], reencode, F, **given)
            else:
                self.assertEqual(reencode(F, **given), new)

    def test_step(self):
        for step in (0, 101, 2**32, 2**32 + 1, 10**30):
            for call in (sizes, reencode):
                self.assert_refused(15, call, F, step=step)
                self.assert_refused(15, call, b"", step=step)
        many = cnf(8000, [range(v, v + 5) for v in range(1, 8000, 5)])
        self.assertEqual(reencode(many, step=38).highest, 68_784)
        self.assert_refused(16, reencode, many, step=39, table_room=0)
        self.assert_refused(17, reencode, many, step=38, table_room=1599, log_room=0)

    def test_log(self):
        for carry in CARRYING:
            for log in (b"1  0\n", b"1 0", b"1 1 0\n", b"1 -1 0\n", b"70001 0\n", b"x"):
                self.assert_refused(31, carry, A, log, ALL_FALSE)
            self.assert_refused(32, carry, A, b"d 1 0\n", ALL_FALSE)
            self.assert_refused(34, carry, A, b"1 0\n", ALL_FALSE, kept=2)
            for many in (2**63, 2**64, 2**64 + 1, 10**30):
                self.assert_refused(34, carry, A, b"1 0\n", ALL_FALSE, kept=many)
        self.assert_refused(33, walk_back, b"p cnf 2 2\n1 0\n-1 2 0\n", b"d 1 0\nd -1 2 0\n", ALL_FALSE)
        self.assert_refused(46, carry_forward, F, b"-4 0\n", H_PLAN)
        self.assert_refused(32, carry_forward, E, reencode(F).log, b"s SATISFIABLE\nv 2 0\n")

    def test_answer_and_plan(self):
        for carry in CARRYING:
            for given in (b"", b"s UNSATISFIABLE\n", b"s SATISFIABLE\nv 1 \n", b"v 0\n"):
                self.assert_refused(41, carry, E, b"", given)
            self.assert_refused(42, carry, E, b"", b"s SATISFIABLE\nv 4 0\n")
            self.assert_refused(43, carry, E, b"", b"s SATISFIABLE\nv 1 -1 0\n")
        self.assert_refused(44, walk_back, E, b"", ALL_FALSE)
        self.assert_refused(45, carry_forward, E, b"", ALL_FALSE)
        # a variable of the log, which only an answer may name
        self.assertEqual(walk_back(E, b"4 0\n", b"s SATISFIABLE\nv 2 4 0\n"), b"v -1 2 -3 0\n")
        self.assert_refused(42, carry_forward, E, b"4 0\n", b"s SATISFIABLE\nv 2 4 0\n")

    def test_what_a_refusal_tells(self):
        refused = self.assert_refused(4, reencode, b"p cnf 1 1\n2 0\n")
        self.assertIsInstance(refused, ValueError)
        self.assertEqual(refused.meaning, "a literal's variable is above V")
        self.assertEqual(refused.mender, "the formula's writer")
        words = "refused 4: a literal's variable is above V; the formula's writer can mend it"
        self.assertEqual(str(refused), words)
        again = pickle.loads(pickle.dumps(refused))
        self.assertEqual((type(again), again.number, str(again)), (Refused, 4, words))

    def test_damaged_texts(self):
        numbers = set()
        for place in range(len(JOINED_F)):
            for put in (b"", JOINED_F[place : place + 1] * 2, b"0", b"9", b"-", b" ", b"\n", b"\x00", b"\xff"):
                text = JOINED_F[:place] + put + JOINED_F[place + 1 :]
                try:
                    new = reencode(text, form="order")
                    self.assertTrue(new.formula.startswith(b"p cnf "))
                    self.assertEqual(sizes(text, form="order"), counted(new))
                except Refused as refused:
                    numbers.add(refused.number)
                    self.assert_refused(refused.number, sizes, text, form="order")
        self.assertEqual(numbers, {1, 3, 4, 7, 8})

    def test_damaged_logs_and_answers(self):
        new = reencode(F, form="order")
        numbers = set()
        for place in range(0, len(new.log), 3):
            for log in (new.log[:place], new.log[:place] + b"7" + new.log[place:]):
                try:
                    self.assertTrue(sirgholyn._satisfies(F, plan(walk_back(F, log, H_ANSWER))))
                except Refused as refused:
                    numbers.add(refused.number)
        self.assertLessEqual({31, 32, 44}, numbers)
        for place in range(len(H_ANSWER)):
            for answer in (H_ANSWER[:place], H_ANSWER[:place] + b"1" + H_ANSWER[place:]):
                try:
                    self.assertTrue(sirgholyn._satisfies(F, plan(walk_back(F, new.log, answer))))
                except Refused as refused:
                    numbers.add(refused.number)
        self.assertLessEqual({41, 42, 43}, numbers)

    def test_damaged_plans(self):
        new = reencode(F, form="order")
        numbers = set()
        for place in range(len(H_PLAN)):
            before, after = H_PLAN[:place], H_PLAN[place:]
            for given in (before, before + b"1 " + after, before + after[1:]):
                try:
                    line = carry_forward(F, new.log, given)
                    self.assertTrue(sirgholyn._satisfies(new.formula, plan(line)))
                    numbers.add(0)
                except Refused as refused:
                    numbers.add(refused.number)
        self.assertEqual(numbers, {0, 41, 42, 43, 45})


class Arguments(Case):
    def test_str_is_its_utf8(self):
        for call in (sizes, reencode):
            self.assertEqual(call(F.decode()), call(F))
        for carry in CARRYING:
            self.assertEqual(carry(A.decode(), "", ALL_FALSE.decode()), b"v 0\n")
        self.assertEqual(read_back(G.decode()), read_back(G))
        self.assertEqual(plan(H_LINE.decode()), plan(H_LINE))
        self.assertEqual(reencode("c Füchse im Tal\np cnf 0 0").formula, b"p cnf 0 0\n")

    def test_not_ascii(self):
        self.assert_refused(3, reencode, "p cnf 1 1\n¹ 0\n")
        self.assert_refused(3, reencode, "p cnf 1 1\n１ 0\n")
        self.assert_refused(1, reencode, "p cnf １ 0\n")
        self.assert_refused(1, reencode, b"\xef\xbb\xbf" + A)
        for carry in CARRYING:
            self.assert_refused(41, carry, A, b"", "s SATISFIABLE\nv\u00a00\n")
        with self.assertRaises(ValueError):
            reencode("p cnf 0 0\ud800")

    def test_nul_bytes_are_bytes(self):
        self.assertEqual(reencode(b"c \0 c\n" + A).formula, b"p cnf 0 0\n")
        self.assert_refused(3, reencode, b"p cnf 1 1\n\0 1 0\n")

    def test_wrong_types(self):
        for text in (None, 1, bytearray(F), memoryview(F), [F], F.split()):
            for call in (sizes, reencode, read_back, plan, solve):
                self.assertRaises(TypeError, call, text)
            for carry in CARRYING:
                for given in ((text, b"", ALL_FALSE), (A, text, ALL_FALSE), (A, b"", text)):
                    self.assertRaises(TypeError, carry, *given)
        for size in ("1", 1.5, b"1", [1]):
            for call in (sizes, reencode):
                self.assertRaises(TypeError, call, A, work=size)
            for call in (sizes, reencode, solve):
                self.assertRaises(TypeError, call, A, step=size)
            for room in ROOMS:
                self.assertRaises(TypeError, reencode, b"", **{room: size})
            for carry in CARRYING:
                self.assertRaises(TypeError, carry, A, b"", ALL_FALSE, kept=size)
        for call in (sizes, reencode):
            self.assertRaises(TypeError, call, A, "order")
        self.assertRaises(TypeError, solve, A, timeout="1")
        self.assertRaises(TypeError, solve, A, proof=1)

    def test_wrong_values(self):
        for form in ("Order", "", None, 1):
            for call in (sizes, reencode, solve):
                self.assertRaises(ValueError, call, A, form=form)
        for call in (sizes, reencode):
            self.assertRaises(ValueError, call, A, work=-1)
            self.assertRaises(ValueError, call, A, step=-1)
        for room in ROOMS:
            # told before the text is looked at, which would be refused
            with self.assertRaisesRegex(ValueError, "wanted a count"):
                reencode(b"", **{room: -1})
        for carry in CARRYING:
            self.assertRaises(ValueError, carry, A, b"", ALL_FALSE, kept=-1)
        for line in (b"", b"v", b"v 1", b"1 0", b"v x 0"):
            self.assertRaises(ValueError, plan, line)


class Buffers(Case):
    def lent(self, call, *args, **named):
        """The elements of each buffer that a function makes, and how many; how often it calls the library."""
        watched = {name: mock.DEFAULT for name in ("_zeros", "_on_large_stack")}
        whole = {name: getattr(sirgholyn, name) for name in watched}
        with mock.patch.multiple(sirgholyn, **watched) as mocks:
            for name, watching in mocks.items():
                watching.side_effect = whole[name]
            call(*args, **named)
        return [made.args for made in mocks["_zeros"].call_args_list], mocks["_on_large_stack"].call_count

    def test_long_log(self):
        text = clash_chain(400)
        new = reencode(text)
        self.assertGreater(len(new.log), 100 * len(text) // 2)
        self.assert_refused(12, reencode, text, log_room=len(new.log) - 1)
        self.assertEqual(reencode(text, log_room=len(new.log)), new)
        self.assert_refused(44, walk_back, text, new.log, ALL_FALSE)

    def test_each_buffer_is_made_once(self):
        counts = sizes(F, form="order")
        work, tally = (ctypes.c_int32, 10_000), (ctypes.c_uint64, 6)
        texts = [(ctypes.c_uint8, counts.log_bytes), (ctypes.c_uint8, counts.formula_bytes)]
        made = [work, tally, *texts, (sirgholyn._Choice, 1), tally]
        self.assertEqual(self.lent(reencode, F, form="order", work=10_000), (made, 2))
        made[2:5] = [(ctypes.c_uint8, 5_000), (ctypes.c_uint8, 500), (sirgholyn._Choice, 50)]
        set_rooms = dict(log_room=5_000, formula_room=500, table_room=50)
        self.assertEqual(self.lent(reencode, F, form="order", work=10_000, **set_rooms), (made, 2))
        self.assertEqual(self.lent(sizes, F, work=10_000), ([work, tally], 1))
        self.assertEqual(self.lent(read_back, G, work=10_000), ([work, (ctypes.c_uint64, 3)], 1))
        log = reencode(F, form="order").log
        for carry, given in ((walk_back, H_ANSWER), (carry_forward, H_PLAN)):
            made = [work, (ctypes.c_uint8, 500), (ctypes.c_uint64, 1)]
            self.assertEqual(self.lent(carry, F, log, given, work=10_000, room=500), (made, 1))

    def test_longest_workspaces(self):
        """As many literals, clauses and variables as a formula has at most."""
        most = cnf(8_000, 10 * [range(v, v + 3) for v in range(1, 6_001, 3)])
        self.assertEqual(sizes(most)[:4], (0, 8_000, 20_000, 0))
        self.assert_refused(11, sizes, most, work=40 * 60_000 + 4 * 20_000 + 12 * 8_000 + 8_191)
        most = cnf(70_000, 100_000 * [[1, 2, 3, 4], [5, 6, 7, 8], [9, 10]])
        self.assertEqual(read_back(most)[1:], (70_000, 1_000_000))

    def test_words_of_a_workspace(self):
        """They are counted whatever stands between them; here only they say how much is enough."""
        words = [b"%d" % number for number in (*range(1, 8_001), 0)] * 7
        for separator in (b" ", b"\t", b"\r", b"\n"):
            text = b"p cnf 8000 7\n" + separator.join(words)
            self.assertEqual(sizes(text).clauses, 7)
            self.assertEqual(read_back(text).literals, 56_000)
            for carry in CARRYING:
                line = carry(text, 7_000 * b"-70000 0\n", b"s SATISFIABLE\nv 1 0\n")
                self.assertTrue(line.startswith(b"v 1 -2 "))

    def test_longest_line(self):
        line = carry_forward(A, b"-70000 0\n", ALL_FALSE)
        # not shown where they differ, which would take very long
        self.assertTrue(plan(line) == list(range(-1, -70_001, -1)))

    def test_no_memory(self):
        for size in (2**60, 2**62, 2**64, 10**30):
            for call in (sizes, reencode):
                self.assertRaises(MemoryError, call, A, work=size)
            for room in ROOMS:
                self.assertRaises(MemoryError, reencode, A, **{room: size})
            for carry in CARRYING:
                self.assertRaises(MemoryError, carry, A, b"", ALL_FALSE, room=size)
            self.assertRaises(MemoryError, read_back, A, work=size)


class Threads(Case):
    def test_four_at_once(self):
        expected = [reencode(F, **way) for way in WAYS]

        def work(own):
            for _ in range(50):
                self.assertEqual(reencode(F, **WAYS[own]), expected[own])
                self.assert_refused(4, reencode, b"p cnf 1 1\n2 0\n")
            return own

        with ThreadPoolExecutor(4) as pool:
            self.assertEqual(list(pool.map(work, range(4))), [0, 1, 2, 3])

    def test_forked_while_another_thread_calls(self):
        with sirgholyn._stack_size_lock:
            child = os.fork()
            if child == 0:
                # a lock that is never given back would hang here
                signal.alarm(20)
                os._exit(0 if reencode(F).choices == 1 else 1)
        self.assertEqual(os.waitpid(child, 0)[1], 0)

    def test_from_a_small_stack(self):
        """These calls take more stack than this thread has; the size for other threads stays as it is."""
        lines = []
        log = reencode(F, form="order").log

        def carry():
            lines.append(sizes(F).lines)
            lines.append(walk_back(F, log, H_ANSWER))
            lines.append(carry_forward(F, log, H_PLAN))

        before = threading.stack_size(256 << 10)
        try:
            thread = threading.Thread(target=carry)
            thread.start()
            thread.join()
            self.assertEqual(threading.stack_size(), 256 << 10)
        finally:
            threading.stack_size(before)
        self.assertEqual(lines, [18, H_LINE, FORWARD])

    def test_a_call_that_raises(self):
        def call():
            raise KeyError("x")

        self.assertRaises(KeyError, sirgholyn._on_large_stack, call)


class Library(Case):
    def test_declarations_are_those_of_the_header(self):
        """Each parameter of the header's functions beside the ctypes that stand for it."""
        known = {
            "const uint8_t *": ctypes.c_char_p,
            "uint8_t *": ctypes.POINTER(ctypes.c_uint8),
            "int32_t *": ctypes.POINTER(ctypes.c_int32),
            "uint64_t *": ctypes.POINTER(ctypes.c_uint64),
            "struct sirgholyn_choice *": ctypes.POINTER(sirgholyn._Choice),
            "size_t ": ctypes.c_size_t,
            "uint32_t ": ctypes.c_uint32,
        }
        header = (ROOT / "host" / "include" / "sirgholyn.h").read_text()
        declared = {
            name: [known[re.sub(r"\w+$", "", parameter.strip())] for parameter in parameters.split(",")]
            for name, parameters in re.findall(r"^uint32_t (sirgholyn_\w+)\(([^)]*)\);", header, re.MULTILINE)
        }
        self.assertEqual(len(declared), 5)
        self.assertEqual(declared, sirgholyn._DECLARED)
        body = re.search(r"struct sirgholyn_choice \{([^}]*)\}", header).group(1)
        fields = [(name, ctypes.c_uint32) for name in re.findall(r"^    uint32_t (\w+);", body, re.MULTILINE)]
        self.assertEqual(fields, sirgholyn._Choice._fields_)
        self.assertEqual([name for name, _ in fields], list(Choice._fields))
        self.assertEqual(ctypes.sizeof(sirgholyn._Choice), 12)

    def test_missing(self):
        with tempfile.TemporaryDirectory() as folder:
            environment = dict(os.environ, SIRGHOLYN_LIB=folder)
            words = [sys.executable, "-B", "-c", "import sirgholyn; sirgholyn.reencode(b'p cnf 0 0')"]
            ran = subprocess.run(words, cwd=HERE, env=environment, stderr=subprocess.PIPE)
        self.assertEqual(ran.returncode, 1)
        last = ran.stderr.decode().splitlines()[-1]
        self.assertTrue(last.startswith(f"FileNotFoundError: there is no {folder}/libsirgholyn.so: "), last)
        self.assertIn("`host/shared-library`", last)


class Solve(Case):
    def setUp(self):
        folder = tempfile.TemporaryDirectory()
        self.addCleanup(folder.cleanup)
        self.folder = Path(folder.name)

    def script(self, body):
        """A program that is a shell script."""
        path = self.folder / "program"
        path.write_text(f"#!/bin/sh\n{body}\n")
        path.chmod(0o755)
        return str(path)

    def under(self, body):
        """Has `solve` run a shell script in the place of the command."""
        return mock.patch.dict(os.environ, SIRGHOLYN_COMMAND=self.script(body))

    def assert_plan(self, text, literals):
        formula = read_back(text)
        self.assertEqual(sorted(map(abs, literals)), list(range(1, formula.variables + 1)))
        for clause in formula.clauses:
            self.assertTrue(set(clause) & set(literals), clause)

    def test_plan(self):
        text = (ROOT / "examples" / "valley.cnf").read_bytes()
        self.assert_plan(text, solve(text))
        self.assert_plan(text, solve(text.decode(), form="counter"))
        self.assertEqual(solve(A), [])
        self.assert_plan(E, solve(E))
        self.assert_plan(F, solve(JOINED_F))

    def test_plan_without_alignment(self):
        text = (ROOT / "examples" / "valley.cnf").read_bytes()
        for form in ("counter", "order"):
            self.assert_plan(text, solve(text, form=form, align=False))

    def test_step(self):
        text = (ROOT / "examples" / "valley.cnf").read_bytes()
        for form in ("counter", "order"):
            self.assert_plan(text, solve(text, form=form, step=100))
        self.assert_refused(15, solve, text, step=0)
        self.assert_refused(15, solve, text, step=2**64)

    def test_no_plan(self):
        text = (ROOT / "examples" / "no_plan.cnf").read_bytes()
        self.assertIsNone(solve(text))
        self.assertIsNone(solve(B))
        self.assertIsNone(solve(b"p cnf 1 4\n1 1 0\n1 -1 0\n-1 -1 -1 0\n-1 1 0\n"))
        for proof in (self.folder / "no_plan.drat", str(self.folder / "-")):
            self.assertIsNone(solve(text, proof=proof))
            lines = Path(proof).read_bytes().split(b"\n")
            self.assertTrue(all(line.endswith(b"0") for line in lines[:-1]) and lines[-1] == b"")
            log = reencode(text, form="order", align=True).log
            self.assertTrue(Path(proof).read_bytes().startswith(log))
        self.assertEqual(sorted(os.listdir(self.folder)), ["-", "no_plan.drat"])

    def test_no_plan_without_check(self):
        text = (ROOT / "examples" / "no_plan.cnf").read_bytes()
        self.assertIsNone(solve(text, check=False))
        liar = self.script("echo s UNSATISFIABLE; exit 20")
        self.assertIsNone(solve(E, solver=liar, check=False))

    def test_a_liar_is_not_believed(self):
        liar = self.script("echo s UNSATISFIABLE; exit 20")
        self.assertRaises(SolverFailed, solve, E, solver=liar)

    def test_timeout(self):
        slow = self.script("sleep 60")
        self.assertRaises(Undecided, solve, E, solver=slow, timeout=0.1)

    def test_a_solver_that_gives_up(self):
        self.assertRaises(Undecided, solve, E, solver=self.script("echo s UNKNOWN"))

    def test_another_solver(self):
        answer = H_ANSWER.decode().replace("\n", "\\n")
        self.assertEqual(solve(F, solver=self.script(f"printf '{answer}'; exit 10")), plan(H_LINE))

    def test_solver_that_fails(self):
        for body, said in (("exit 3", "status 3"), ("kill -9 $$", "signal 9"), ("exit 20", "20")):
            with self.assertRaisesRegex(SolverFailed, said):
                solve(E, solver=self.script(body))
        with self.assertRaisesRegex(SolverFailed, "there is no solver"):
            solve(E, solver=str(self.folder / "none"))
        self.assert_refused(43, solve, E, solver=self.script(r"printf 's SATISFIABLE\nv 1 1 0\n'"))
        wrong = self.script(r"printf 's SATISFIABLE\nv 8 -10 0\n'")
        self.assert_refused(44, solve, F, solver=wrong)

    def test_refused_formula(self):
        for text, number in ((b"", 1), (b"p cnf 1 1\n2 0\n", 4), (b"p cnf 1 1\n1", 7)):
            refused = self.assert_refused(number, solve, text)
            self.assertIn(f"refused {number}: {refused.meaning}", str(refused))
            self.assertNotIn("sirgholyn: ", str(refused))

    def test_words_of_the_command(self):
        words = self.folder / "words"
        with self.under(f"cat >'{words}.in'; for w; do echo \"$w\"; done >'{words}'; echo s UNSATISFIABLE; exit 20"):
            self.assertIsNone(solve(E))
            self.assertEqual(words.read_text().split("\n"), ["solve", "-", "--form", "order", "--align", "--step", "1", "--proof", "/dev/null", ""])
            self.assertEqual(Path(f"{words}.in").read_bytes(), E)
            solve(E, form="counter", align=False, step=7, solver="a b", proof="x", check=False, timeout=1.5)
            expected = ["solve", "-", "--form", "counter", "--no-align", "--step", "7", "--solver=a b"]
            expected += ["--proof", os.path.abspath("x"), "--no-check", "--timeout", "2", ""]
            self.assertEqual(words.read_text().split("\n"), expected)

    def test_statuses_of_the_command(self):
        statuses = {64: RuntimeError, 69: SolverFailed, 70: RuntimeError, 71: MemoryError, 75: Undecided}
        for status, kind in statuses.items():
            with self.under(f"echo 'sirgholyn: so it is' >&2; exit {status}"):
                with self.assertRaises(kind) as caught:
                    solve(E)
            self.assertIs(type(caught.exception), kind)
            self.assertEqual(str(caught.exception), "so it is")
        # a number without its words, what is said without the number, and a number that is not listed
        mixed = ["exit 4", "echo refused 4 >&2; exit 7", "echo refused 5 >&2; exit 5"]
        for body in (*mixed, "exit 10", "exit 20", "exit 0", "kill -9 $$"):
            with self.under(body), self.assertRaises(RuntimeError) as caught:
                solve(E)
            self.assertIs(type(caught.exception), RuntimeError)
        with mock.patch.dict(os.environ, SIRGHOLYN_COMMAND=str(self.folder / "none")):
            self.assertRaises(FileNotFoundError, solve, E)

    def test_interrupted(self):
        """The command is asked to end, and has ended when `solve` raises."""

        class Stop(Exception):
            pass

        def stop(_, frame):
            inside = {above.f_code.co_name for above, _ in traceback.walk_stack(frame)}
            if ready.exists() and "communicate" in inside:
                signal.setitimer(signal.ITIMER_REAL, 0)
                raise Stop

        ready, ended = self.folder / "ready", self.folder / "ended"
        before = signal.signal(signal.SIGALRM, stop)
        self.addCleanup(signal.signal, signal.SIGALRM, before)
        with self.under(f"trap 'kill $!; echo >{ended}; exit 1' TERM; sleep 60 & echo >{ready}; wait"):
            signal.setitimer(signal.ITIMER_REAL, 0.1, 0.1)
            self.assertRaises(Stop, solve, E)
        self.assertTrue(ended.exists())

    def test_a_plan_is_tested_again(self):
        self.assertTrue(sirgholyn._satisfies(b"c p\np cnf 2 1\r\n1\t2 0", [-1, 2]))
        for line in ("v -1 -2 -3 0", "v 1 2 0", "v 1 2 3 4 0", "v 1 2 3 3 0", "v 0", ""):
            with self.under(f"echo s SATISFIABLE; echo {line}; exit 10"):
                with self.assertRaisesRegex(RuntimeError, "no plan for the formula"):
                    solve(E)


class Texts(Case):
    def test_doctest(self):
        failed, tried = doctest.testmod(sirgholyn)
        self.assertEqual(failed, 0)
        self.assertGreater(tried, 8)

    def test_every_function_has_an_example(self):
        for name in ("carry_forward", "plan", "read_back", "reencode", "sizes", "solve", "walk_back"):
            self.assertIn(">>> ", getattr(sirgholyn, name).__doc__)

    def test_readme(self):
        """The README's script is run; its traps hold one lure each, those in range different ones."""
        script = re.search(r"```python\n(.*?)```", (HERE / "README.md").read_text(), re.DOTALL).group(1)
        names = {"__name__": "__main__"}
        printed = io.StringIO()
        with tempfile.TemporaryDirectory() as folder, contextlib.redirect_stdout(printed):
            before = os.getcwd()
            os.chdir(folder)
            try:
                exec(script, names)
                self.assertEqual(os.listdir(folder), [])
            finally:
                os.chdir(before)
        held = dict(line.split(" ") for line in printed.getvalue().splitlines())
        self.assertEqual(list(held), names["traps"])
        self.assertLessEqual(set(held.values()), set(names["lures"]))
        for one, other in names["in_range"]:
            self.assertNotEqual(held[one], held[other])

    def test_syntax_of_python_3_8(self):
        for name in ("sirgholyn.py", "test_sirgholyn.py"):
            ast.parse((HERE / name).read_text(), feature_version=(3, 8))


if __name__ == "__main__":
    unittest.main()
