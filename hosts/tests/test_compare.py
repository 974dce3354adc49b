"""How the comparison with the model ends, with many cases and with few."""

from __future__ import annotations

import io
import unittest
from collections import Counter
from contextlib import redirect_stdout
from random import Random
from typing import Tuple
from unittest import mock

import compare
import generate


class Coverage(unittest.TestCase):
    """Every answer has to come up often enough, where there are cases enough for that."""

    def compared(self, cases: int, drawn: int) -> Tuple[int, str]:
        """How the comparison ends that is asked for so many cases, and draws fewer."""

        def some(harness: compare.Harness, _: int) -> None:
            harness.cases(range(drawn))

        words = ["compare.py", "--self", "--seed", "7", "--cases", str(cases)]
        said = io.StringIO()
        with mock.patch.object(compare, "compare_all", some), redirect_stdout(said):
            with mock.patch("sys.argv", words):
                return compare.main(), said.getvalue()

    def test_few_cases(self) -> None:
        code, said = self.compared(30, 30)
        self.assertEqual(code, 0, said)
        self.assertIn("seldom, in so few cases:", said)

    def test_many_cases_that_leave_answers_out(self) -> None:
        code, said = self.compared(compare.CASES, 30)
        self.assertEqual(code, 1, said)
        self.assertIn("too seldom:", said)

    def test_each_family_brings_up_its_answers(self) -> None:
        wanted = [(new, name) for new, names in compare.WANTED.items() for name in names]
        enough = Counter({(new, "check", name): compare.LEAST_HITS for new, name in wanted})
        harness = compare.Harness(compare.Library({}), 7, False)
        harness.counts = enough
        self.assertEqual(harness.seldom(), [])
        for new, name in wanted:
            harness.counts = enough - Counter({(new, "check", name): 1})
            few = f"{name}:{compare.LEAST_HITS - 1} on {compare.FAMILIES[new]}"
            self.assertEqual(harness.seldom(), [few])

    def test_a_third_of_the_cases_is_of_9_to_11(self) -> None:
        drawn = [generate.draw_case(Random(f"share {number}")) for number in range(1_500)]
        new = [case for case in drawn if case.new]
        self.assertGreater(len(new), 500)
        self.assertLess(len(new), 750)
        self.assertEqual({case.call for case in new}, set(compare.PROTOTYPES))


if __name__ == "__main__":
    unittest.main()
