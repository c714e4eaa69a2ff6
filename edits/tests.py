"""Tests how goals and reports are read: `python3 edits/tests.py`."""
import unittest

from functions import functions_of
from goals import is_meant, is_step
from report import ANSWERS, GOAL, REFUSED, STEPS, UNJUDGED, WRONG, Part, Report


class Goals(unittest.TestCase):
    def meant(self, line, goal, function="f", lone=""):
        return is_meant(line, function, goal, lone)

    def test_clauses(self):
        self.assertTrue(self.meant("took", "returns-in-Ok-clause-took"))
        self.assertTrue(self.meant("err", "returns-then-second-ge40-clause-err"))
        self.assertFalse(self.meant("took", "returns-in-Ok-clause-moves"))
        self.assertTrue(self.meant("ensures", "returns-in_default-3"))
        self.assertFalse(self.meant("ensures", "returns-clause-took"))

    def test_only_clause(self):
        self.assertTrue(self.meant("took", "returns-in-Ok", lone="took"))
        self.assertFalse(self.meant("took", "returns-in-Ok"))

    def test_conditions(self):
        self.assertTrue(self.meant("requires of op", "op-requires"))
        self.assertTrue(self.meant("fits of go_into", "go_into-requires-in-Ok-Some-clause-fits"))
        self.assertTrue(self.meant("requires of go_into", "go_into-requires-in-Ok-Some-clause-fits"))
        self.assertFalse(self.meant("few of go_into", "go_into-requires-in-Ok-Some-clause-fits"))
        self.assertTrue(self.meant("sized of write_parts", "write_parts-outcome-requires-clause-sized"))

    def test_functions(self):
        self.assertTrue(self.meant("step: passed", "returns-in-Err-clause-passed", function="step"))
        self.assertFalse(self.meant("step: passed", "returns-in-Err-clause-passed", function="walk"))

    def test_names_of_the_checker(self):
        self.assertTrue(self.meant("loop-opened-preserved", "loop-opened-preserved"))
        self.assertFalse(self.meant("loop-opened-preserved", "loop-opened-init"))

    def test_steps(self):
        for it in ("overflow_add-x", "slice_bounds-p-end", "loop-preserved", "loop-opened-smaller-in_default-2", "decreases-loop"):
            self.assertTrue(is_step(it), it)
        for it in ("returns", "returns-clause-preserved", "op-requires", "invariant_of-self"):
            self.assertFalse(is_step(it), it)


class AnEdit:
    def __init__(self, goal="", name="half"):
        self.goal, self.turns = goal, [("src/lib.rt", name)]


class ACrate:
    """One whose functions each have one part, with or without files."""

    def __init__(self, files):
        self.files = files

    def parts(self, _path, name, states):
        symbol = f"toy::{name}"
        return [Part(symbol, name, "", False, [f"proofs/{name}"])] if symbol in states else []

    def has_files(self, _part):
        return self.files


END = "logic=not-proved"
OPEN = """note: src/lib.rt:7:1: it is not proved that what the function ensures holds when it returns (`returns-clause-ok`); `search` gave up
fn toy::half: no proof: expected answers in ./proofs/half/Answers.antt; `search` did not prove `overflow_add-result`, `returns-clause-ok`
fn toy::two: proved"""
UNFIT = """./proofs/half/Answers.antt:5:25: error: `returns-clause-ok`: as printed, the two types differ
note: src/lib.rt:8:1: it is not proved that what the function ensures holds when it returns (`returns-clause-err`); `search` gave up
fn toy::half: not proved"""
GONE = """./proofs/half/Answers.antt:4:27: error: `returns-clause-ok`: `goal.returns-clause-ok`: module `Goals` has no `returns-clause-ok` that can be named
note: src/lib.rt:33:5: it is not proved that the invariant of the loop holds (`loop-x-preserved`); `search` gave up
fn toy::half: not proved"""
GONE_BELOW = """./proofs/half/Answers.antt:4:27: error: `returns-clause-ok`: record `toy.proofs.half.Lts.After-two`
  has no field `three`
./proofs/half/Answers.antt:9:5: error: 1 declaration that depends on `returns-clause-ok`, which was not admitted, was not checked: more
fn toy::half: no proof: expected answers in ./proofs/half/Answers.antt; `search` did not prove `returns-clause-err`"""
UNFIT_ABOVE = """./proofs/half/Answers.antt:5:25: error: `returns-clause-ok`: computed as far as they go, the two types are `A`
./proofs/half/Answers.antt:9:5: error: 1 declaration that depends on `returns-clause-ok`, which was rejected, was not checked: returns-clause-err
fn toy::half: not proved"""
PROVED = "fn toy::half: proved"
UNNAMED = """./proofs/half/Answers.antt:6:15: error: `returns`: `goal.returns`: module `Rattle.toy.proofs.half.Goals` has no `returns` that can be named from here
note: src/lib.rt:7:1: it is not proved that what the function ensures holds when it returns (`returns-then-x-eq7`)
fn toy::half: not proved"""
ABOVE = "fn toy::half: depends on `toy::two`, which is not proved"


class Verdicts(unittest.TestCase):
    def fared(self, text, goal="", files=True):
        return Report(f"{text}\n{END}").verdict(ACrate(files), AnEdit(goal))[0]

    def test_without_files(self):
        self.assertEqual(self.fared(OPEN, files=False), REFUSED)
        self.assertEqual(self.fared(OPEN.replace("returns-clause-ok", "overflow_sub-x"), files=False), STEPS)
        self.assertEqual(self.fared(OPEN, "err", files=False), WRONG)

    def test_goals(self):
        self.assertEqual(self.fared(OPEN), GOAL)
        self.assertEqual(self.fared(OPEN, "ok"), REFUSED)
        self.assertEqual(self.fared(OPEN, "err"), WRONG)
        self.assertEqual(self.fared(OPEN, "overflow_add-result"), REFUSED)
        self.assertEqual(self.fared(UNFIT, "ok"), REFUSED)
        self.assertEqual(self.fared(UNFIT, "err"), REFUSED)
        self.assertEqual(self.fared(UNFIT_ABOVE, "ok"), REFUSED)
        self.assertEqual(self.fared(UNFIT_ABOVE, "err"), WRONG)

    def test_what_is_gone_says_nothing(self):
        self.assertEqual(self.fared(GONE), ANSWERS)
        self.assertEqual(self.fared(GONE, "ok"), ANSWERS)
        self.assertEqual(self.fared(GONE_BELOW, "err"), ANSWERS)
        self.assertEqual(self.fared(UNNAMED, "ensures"), ANSWERS)

    def test_no_failure_of_its_own(self):
        self.assertEqual(self.fared(PROVED, "ok"), WRONG)
        self.assertEqual(self.fared(ABOVE, "ok"), UNJUDGED)
        self.assertEqual(self.fared("fn toy::two: proved", "ok"), UNJUDGED)

    def test_ends(self):
        self.assertTrue(Report(f"{OPEN}\n{END}").is_whole)
        self.assertTrue(Report(f"{OPEN}\nonly=2 proved=1").is_whole)
        self.assertFalse(Report("checked toy::half, 1 of 2").is_whole)


class Functions(unittest.TestCase):
    def test_clauses(self):
        text = "fn f(x: u8) -> u8 requires few { x < 3 } ensures same { result ≡ x } ensures { result < 3 } { x }"
        self.assertEqual(functions_of(text)["f"][0].clauses, ["same", ""])

    def test_impls(self):
        text = "trait B { fn f(); } impl<E: A> B for E { fn f() {} } impl<E: A> B for &E { fn f() {} }"
        self.assertEqual([*functions_of(text)], ["B::f", "AnyB::f", "RefB::f"])

    def test_numbers_in_impls(self):
        text = "impl D<Implicit<Context<0>, u32>> for N { fn f() {} }"
        self.assertEqual([*functions_of(text)], ["NDImplicitContext0U32::f"])


unittest.main()
