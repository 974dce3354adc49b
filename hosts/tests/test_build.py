"""hosts/build and the gate where the toolchain is missing or another one, or the machine is not for it, and while
it proves; the gate where a wrong program is bad; hosts/test with a number of cases that is none.

A small script stands in for rt; nothing is proved or built here.
"""

from __future__ import annotations

import os
import shutil
import subprocess
import tempfile
import unittest
from pathlib import Path
from typing import Dict

ROOT = Path(__file__).resolve().parent.parent.parent
KIT = (ROOT / ".ci" / "kit").read_text().strip()
TOOLS = "bash cat cp dirname grep head mkdir mktemp readlink rm sed tail tee uname".split()
SCRIPTS = ("hosts/build", "hosts/test", ".ci/run")


class Toolchain(unittest.TestCase):
    def setUp(self) -> None:
        self.folder = Path(tempfile.mkdtemp(prefix="taffrail-test-")).resolve()
        self.addCleanup(shutil.rmtree, self.folder, ignore_errors=True)
        self.tools = self.folder / "tools"
        self.tools.mkdir()
        for name in TOOLS:
            found = shutil.which(name)
            assert found is not None, name
            (self.tools / name).symlink_to(found)

    def environment(self) -> Dict[str, str]:
        """Nothing but these tools is on the path."""
        return {"PATH": str(self.tools), "TMPDIR": str(self.folder)}

    def put_rt(self, version: str, otherwise: str) -> None:
        """An rt that has this version, and does something otherwise."""
        path = self.tools / "rt"
        path.write_text(
            f"#!/usr/bin/env bash\nif [[ $1 == version ]]; then echo '{version}'; exit; fi\n"
            f"{otherwise}\n"
        )
        path.chmod(0o755)
        if not (self.tools / "env").exists():
            (self.tools / "env").symlink_to("/usr/bin/env")

    def one_line_of(self, script: str, *words: str) -> str:
        """What the script says before it ends with 2."""
        ended = subprocess.run(
            [shutil.which("bash") or "bash", ROOT / script, *words],
            env=self.environment(),
            capture_output=True,
            text=True,
            timeout=60,
            check=False,
        )
        self.assertEqual((ended.returncode, ended.stdout), (2, ""), ended.stderr)
        self.assertEqual(ended.stderr.count("\n"), 1, ended.stderr)
        return ended.stderr

    def assert_told(self, script: str, *words: str) -> None:
        said = self.one_line_of(script)
        for word in (f"{script}: ", KIT, ".ci/kit", *words):
            self.assertIn(word, said)

    def test_no_toolchain(self) -> None:
        for script in SCRIPTS:
            with self.subTest(script=script):
                self.assert_told(script, "there is no rt on the path", "install the kit")

    def test_another_toolchain(self) -> None:
        self.put_rt("rattle-kit-0 logic 0", "exit 1")
        for script in SCRIPTS:
            with self.subTest(script=script):
                self.assert_told(script, "this is 'rattle-kit-0 logic 0'", "install that kit")

    def test_another_processor(self) -> None:
        self.put_rt(KIT, "exit 1")
        uname = self.tools / "uname"
        uname.unlink()
        uname.write_text("#!/usr/bin/env bash\necho aarch64\n")
        uname.chmod(0o755)
        for script in SCRIPTS:
            with self.subTest(script=script):
                self.assert_told(script, "x86-64 alone", "this machine is aarch64")

    def test_wrong_programs_that_are_bad(self) -> None:
        """The gate fails, though rt does not, and its last line is not that of a pass."""
        for told in ("3 refused, 1 of them only by a limit, 2 bad; done", "0 refused, 10 bad; done"):
            with self.subTest(told=told):
                said = f"rt: ok; handles allowed: none; must-fail edits: {told} in this run"
                self.put_rt(KIT, f"echo '{said}'; echo '5 passed, 0 failed'")
                ended = subprocess.run(
                    [shutil.which("bash") or "bash", ROOT / ".ci" / "run"],
                    env=self.environment(),
                    capture_output=True,
                    text=True,
                    timeout=60,
                    check=False,
                )
                self.assertEqual(ended.returncode, 1, ended.stdout + ended.stderr)
                self.assertIn(said, ended.stdout)
                self.assertIn("BAD EDIT", ended.stdout.splitlines()[-1])

    def test_a_number_of_cases_that_is_none(self) -> None:
        """It is told before anything is built."""
        for words in (["many"], ["-5"], ["1.5"], ["5", "6"]):
            with self.subTest(words=words):
                said = self.one_line_of("hosts/test", *words)
                self.assertTrue(said.startswith("usage: hosts/test [CASES]"), said)

    def test_progress(self) -> None:
        """A crate that is proved is told before the next one is done."""
        waits = self.folder / "go on"
        os.mkfifo(waits)
        self.put_rt(
            KIT,
            f"echo 'fn a: proved'; echo 'rt: numbers proved'\nread -r -t 20 _ <>'{waits}'\n"
            "echo 'rt: bits is kept: an earlier run'; echo 'rt: records NOT PROVED' >&2; exit 1",
        )
        child = subprocess.Popen(
            [shutil.which("bash") or "bash", ROOT / "hosts" / "build"],
            env=self.environment(),
            stderr=subprocess.PIPE,
            text=True,
        )
        self.addCleanup(child.kill)
        assert child.stderr is not None
        self.assertIn("proving the library", child.stderr.readline())
        self.assertEqual(child.stderr.readline(), "hosts/build: numbers proved\n")
        waits.write_text("now\n")
        rest = child.stderr.read()
        child.stderr.close()
        self.assertEqual(child.wait(60), 1)
        self.assertIn("hosts/build: bits was proved before\n", rest)
        self.assertIn("rt: records NOT PROVED\n", rest)
        self.assertIn("hosts/build: failed: rt ", rest)


if __name__ == "__main__":
    unittest.main()
