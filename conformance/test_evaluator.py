"""Tests of the evaluator: expressions whose values are known, what it refuses, and that a wrong run is seen.

    python3 conformance/test_evaluator.py

Exit status: 0 if each test passes, else 1."""
import ast
import copy
import glob
import json
import os
import sys
import tempfile
import unittest
from typing import Any

import check_definitions
from antt import ROOT, Project
from check_definitions import NAMES, RUNS, Names, check, recorded
from values import NONE, CannotEvaluate, Con, Value, deeply, some

HERE = os.path.dirname(os.path.abspath(__file__))
MODULE = '''
use Rattle.std.specs.Prelude.{ℕ, zero, suc, List, Option, Some, None, true, false, map, ◌+◌, ◌++◌, ◌==◌, []}

infixr 45 ◌<>◌

data Colour : Type
  red : Colour
  mixed : (n : ℕ) → Colour → Colour

double : ℕ → ℕ
double n = n + n

factorial : ℕ → ℕ
factorial zero = 1
factorial (suc n) = (suc n) * factorial n

depth : Colour → ℕ
depth red = 0
depth (mixed _ c) = 1 + depth c

◌<>◌ : List ℕ → List ℕ → List ℕ
a <> b = b ++ a

swapped : (ℕ × ℕ) → (ℕ × ℕ)
swapped (x, y) = (y, x)

last_of : List ℕ → Option ℕ
last_of [] = None
last_of (x ∷ []) = Some x
last_of (x ∷ y ∷ rest) = last_of (y ∷ rest)

module _ (base : ℕ) where
  above : ℕ → ℕ
  above n = base + n
'''
# an expression, and its value
VALUES: tuple[tuple[str, Value], ...] = (
    ('double 21', 42),
    ('factorial 5', 120),
    ('3 - 5', 0),
    ('7 / 0', 0),
    ('2 + 3 * 4', 14),
    ('if 2 == 2 then 1 else 0', 1),
    ('let x = 4 in x * x', 16),
    ('(λ x y. x + y) 1 2', 3),
    ('map double (1 ∷ 2 ∷ [])', [2, 4]),
    ('(1 ∷ []) <> (2 ∷ []) <> (3 ∷ [])', [3, 2, 1]),
    ('depth (mixed 1 (mixed 2 red))', 2),
    ('mixed 3 red', Con('mixed', 3, Con('red'))),
    ('swapped (1, 2)', (2, 1)),
    ('(swapped (1, 2)).0', 2),
    ('last_of []', NONE),
    ('last_of (4 ∷ 5 ∷ [])', some(5)),
    ('above 10 5', 15),
    ('record { a = 1; b = 2 }.b', 2),
    ('(record (record { a = 1; b = 2 }) { a = 5 }).a', 5),
)
# what can't be evaluated
REFUSED = ('absent 1', 'double red', 'double (1 ∷ [])', 'if 1 then 2 else 3', 'record { a = 1 }.b', 'double 1 2', 'List', '(1')
# definitions of this project, and their values by the RFCs
OWN: tuple[tuple[str, str, Value], ...] = (
    ('Rattle.nr_xdr.specs.Item', 'pad_len 4', 0),
    ('Rattle.nr_xdr.specs.Item', 'pad_len 5', 3),
    ('Rattle.nr_wire.specs.Segment', 'fpdu_size 5', 12),
    ('Rattle.nr_wire.specs.Segment', 'fpdu_size 65535', 65544),
)


def evaluate(project: Project, module: str, text: str) -> Value:
    return deeply(lambda: project.expression(project.load(module), text))


class Expressions(unittest.TestCase):
    def setUp(self) -> None:
        self.folder = tempfile.TemporaryDirectory()
        specs = os.path.join(self.folder.name, 'crates', 'colours', 'specs')
        os.makedirs(specs)
        with open(os.path.join(specs, 'Colours.antt'), 'w', encoding='utf-8') as h:
            h.write(MODULE)
        self.project = Project(self.folder.name)

    def tearDown(self) -> None:
        self.folder.cleanup()

    def test_values(self) -> None:
        for text, value in VALUES:
            with self.subTest(text):
                self.assertEqual(evaluate(self.project, 'Rattle.colours.specs.Colours', text), value)

    def test_refused(self) -> None:
        for text in REFUSED:
            with self.subTest(text), self.assertRaises(CannotEvaluate):
                evaluate(self.project, 'Rattle.colours.specs.Colours', text)

    def test_no_module(self) -> None:
        with self.assertRaises(CannotEvaluate):
            self.project.load('Rattle.colours.specs.Shapes')

    def test_own_definitions(self) -> None:
        project = Project(ROOT)
        for module, text, value in OWN:
            with self.subTest(text):
                self.assertEqual(evaluate(project, module, text), value)


def problem_of(run: dict[str, Any]) -> str | None:
    """The first difference of a run."""
    return check(run)[1]


class Runs(unittest.TestCase):
    """That a run which is changed in one thing differs, and how it is reported."""

    def setUp(self) -> None:
        with open(NAMES, encoding='utf-8') as h:
            check_definitions.prepare(ROOT, json.load(h), 'both')
        self.run_of = next(r for r in recorded(RUNS) if r['name'] == 'write_chunk_of_five_bytes')

    def changed(self) -> dict[str, Any]:
        return copy.deepcopy(self.run_of)

    def mark(self, run: dict[str, Any], kind: str) -> dict[str, Any]:
        marks: list[dict[str, Any]] = run['marks']
        return next(m for m in reversed(marks) if m['mark'] == kind)

    def test_as_recorded(self) -> None:
        self.assertIsNone(problem_of(self.changed()))

    def assert_differs(self, run: dict[str, Any], words: str) -> None:
        problem = problem_of(run)
        self.assertIsNotNone(problem)
        self.assertIn(words, problem or '')

    def test_a_byte_written(self) -> None:
        run = self.changed()
        m = self.mark(run, 'Wrote')
        m['bytes'] = '%02x' % (int(m['bytes'][:2], 16) ^ 1) + m['bytes'][2:]
        self.assert_differs(run, 'bytes written so far')

    def test_a_byte_less_written(self) -> None:
        run = self.changed()
        m = self.mark(run, 'Wrote')
        m['bytes'] = m['bytes'][:-2]
        self.assert_differs(run, 'bytes left by a Wrote of everything')

    def test_an_outcome(self) -> None:
        run = self.changed()
        self.mark(run, 'Done')['outcome'] = {'kind': 'Chunk'}
        self.assert_differs(run, 'outcome')

    def test_a_payload(self) -> None:
        run = self.changed()
        m = self.mark(run, 'Execute')
        m['payload'] = m['payload'][:-2] + 'ff'
        self.assert_differs(run, "next call's payload")

    def test_an_end(self) -> None:
        run = self.changed()
        for link in run['ends']:
            run['ends'][link]['client'] = {'kind': 'Terminated', 'reason': 1}
        self.assert_differs(run, 'why the client ended')


class Text(unittest.TestCase):
    def test_each_function_has_types(self) -> None:
        for path in sorted(glob.glob(os.path.join(HERE, '*.py'))):
            with open(path, encoding='utf-8') as h:
                tree = ast.parse(h.read())
            for node in ast.walk(tree):
                if isinstance(node, ast.FunctionDef):
                    args = node.args.posonlyargs + node.args.args + node.args.kwonlyargs
                    missing = [a.arg for a in args if a.annotation is None and a.arg != 'self']
                    with self.subTest(os.path.basename(path), function=node.name):
                        self.assertTrue(node.returns is not None and not missing, 'no types: %s' % missing)

    def test_names(self) -> None:
        with open(NAMES, encoding='utf-8') as h:
            deeply(Names, ROOT, json.load(h))


if __name__ == '__main__':
    sys.exit(0 if unittest.main(exit=False).result.wasSuccessful() else 1)
