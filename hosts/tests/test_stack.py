"""A call of the C interface takes no more of the stack than is promised."""

from __future__ import annotations

import re
import signal
import subprocess
import sys
import unittest
from typing import Dict

from support_host import HERE, MODEL, environment
from support_stack import HAS_CONTEXTS

ROOT = HERE.parent.parent
PAGES = (
    "hosts/include/taffrail.h",
    "hosts/python/README.md",
    "docs/ARCHITECTURE.md",
    "docs/DECISIONS.md",
)
PROMISED = 112 * 1_024
ROOMY = 1_024 * 1_024


def run_on(size: int, *calls: str) -> "subprocess.CompletedProcess[str]":
    """Every call, or these, on a stack of so many bytes."""
    return subprocess.run(
        [sys.executable, str(HERE / "support_stack.py"), str(size), *calls],
        capture_output=True,
        env=environment(),
        text=True,
        timeout=120,
        check=False,
    )


def taken_in(said: str) -> Dict[str, int]:
    """The calls that came back, with the bytes that they took."""
    return {name: int(taken) for name, taken in re.findall(r"^(.*): (\d+)$", said, re.MULTILINE)}


@unittest.skipIf(MODEL, "the model is no library")
@unittest.skipUnless(HAS_CONTEXTS, "this C library has no makecontext")
class Calls(unittest.TestCase):
    taken: Dict[str, int] = {}

    @classmethod
    def setUpClass(cls) -> None:
        ended = run_on(ROOMY)
        assert ended.returncode == 0, ended.stdout + ended.stderr
        cls.taken = taken_in(ended.stdout)

    def test_what_each_takes(self) -> None:
        self.assertEqual(len(self.taken), 24)
        over = [call for call, taken in self.taken.items() if taken > PROMISED]
        self.assertEqual(over, [], f"bytes of stack: {self.taken}")

    def test_on_a_stack_of_what_is_promised(self) -> None:
        ended = run_on(PROMISED)
        self.assertEqual(ended.returncode, 0, f"it came to: {ended.stdout}{ended.stderr}")
        self.assertEqual(taken_in(ended.stdout), self.taken)

    def test_on_a_stack_that_is_a_little_smaller(self) -> None:
        """There a call is ended: so the bytes that are counted are those that it needs."""
        for call in [call for call in self.taken if call.endswith("largest map")]:
            with self.subTest(call=call):
                ended = run_on((self.taken[call] - 1) // 16 * 16, call)
                self.assertEqual(ended.returncode, -signal.SIGSEGV, ended.stdout + ended.stderr)


class Pages(unittest.TestCase):
    """What is promised to callers is what is tested here."""

    def test_each_promises_the_same(self) -> None:
        for page in PAGES:
            with self.subTest(page=page):
                words = re.sub(r"[\s*]+", " ", (ROOT / page).read_text())
                told = re.findall(r"at most (\d+) KiB of stack", words)
                self.assertEqual([1_024 * int(number) for number in told], [PROMISED])


if __name__ == "__main__":
    unittest.main()
