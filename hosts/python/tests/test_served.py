"""The process that a simulated sign is: its steps, its time limit and its end. A small program stands in for `signctl`."""
from __future__ import annotations

import inspect
import re
import subprocess
import sys
import tempfile
import threading
import unittest
from pathlib import Path
from unittest import mock

from latsefur import LatsefurError, NoAnswer, ProgramNotFound, Shown, SignStopped, SimulatedSign, UnexpectedReply

from tests.places import TOP

# It has one row of two pixels, writes what it is asked beside itself, and is late by the seconds that a line `late SECONDS` names.
PROGRAM = """#!{python}
import os, signal, sys, time
seen = open(sys.argv[0] + ".seen", "a")
for line in iter(sys.stdin.readline, ""):
    words = line.split()
    seen.write(line)
    seen.flush()
    if words[:1] == ["late"]:
        time.sleep(float(words[1]))
    if words[:1] == ["killed"]:
        os.kill(os.getpid(), signal.SIGKILL)
    if words[:1] == ["ended"]:
        sys.exit("no more")
    if words[:1] in (["priority"], ["beacon"]):
        time.sleep(0.002)
    replies = {{"colours": "page 0 phase 7\\n01", "frame": "page 0 phase 7\\n.#", "next": "next 20", "late": "late"}}
    print("ok" if not words or words[0][0] == "#" else replies.get(words[0], "done"), flush=True)
"""


class Served(unittest.TestCase):
    def setUp(self) -> None:
        folder = tempfile.TemporaryDirectory()
        self.addCleanup(folder.cleanup)
        self.program = Path(folder.name, "signctl")
        self.program.write_text(PROGRAM.format(python=sys.executable))
        self.program.chmod(0o755)

    def seen(self) -> list[str]:
        """The lines that the program was asked."""
        return Path(f"{self.program}.seen").read_text().split("\n")

    def test_it_stays_in_step(self) -> None:
        with SimulatedSign(None, self.program) as sign:
            self.assertEqual((sign.width, sign.height), (2, 1))
            for line in ("frame 1", "colours"):
                with self.assertRaises(ValueError) as raised:
                    sign.ask(line)
                self.assertIn("`frame` and `colours`", str(raised.exception))
                self.assertEqual([sign.ask(asked) for asked in ("next", "", "# a comment", "clear")], ["next 20", "ok", "ok", "done"])
            self.assertEqual((sign.frame().shown, sign.next_change()), (Shown(0, 7), 20))

    def test_the_next_change_has_a_limit_if_one_is_named(self) -> None:
        with SimulatedSign(None, self.program) as sign:
            self.assertEqual([sign.next_change(most) for most in (0, 19, 20, 21)], [0, 19, 20, 20])
            for most in (-1, 2**32):
                self.assertRaises(ValueError, sign.next_change, most)
            with mock.patch.object(sign, "ask", return_value="next never"):
                self.assertEqual((sign.next_change(), sign.next_change(7)), (None, 7))

    def test_a_text_that_no_table_takes_is_sent_as_a_line_that_is_read(self) -> None:
        with SimulatedSign(None, self.program) as sign:
            sign.store(65535, "A" * 10_000, owner="A" * 10_000)
        asked = dict(line.rsplit(" ", 1) for line in self.seen() if line.startswith(("multix", "owner")))
        self.assertEqual({line: len(octets) for line, octets in asked.items()}, {"multix 3 65535": 2 * 4097, "owner 3 65535": 2 * 128})
        self.assertLessEqual(max(map(len, self.seen())), 8300)

    def test_a_line_that_would_be_cut_is_refused(self) -> None:
        with SimulatedSign(None, self.program) as sign:
            for line in ("next\nnext", "next\r", b"\n", "\r"):
                self.assertRaises(ValueError, sign.ask, line)
            self.assertEqual(sign.ask("next"), "next 20")

    def test_a_late_answer_is_an_error_and_is_passed_over(self) -> None:
        with SimulatedSign(None, self.program, timeout=2) as sign:
            sign._served._seconds = 0.2
            for line in ("late 0.6", "# late"):
                self.assertRaises(NoAnswer, sign.ask, line)
            sign._served._seconds = 10
            self.assertEqual([sign.ask(line) for line in ("next", "", "clear")], ["next 20", "ok", "done"])
        self.assertTrue(issubclass(NoAnswer, TimeoutError))

    def test_a_call_that_is_broken_off_leaves_it_in_step(self) -> None:
        with SimulatedSign(None, self.program) as sign:
            for line in ("colours", "next", "", "# a comment"):
                for broken_off in (0, 1):
                    replies = [*["read"] * broken_off, KeyboardInterrupt]
                    with mock.patch.object(sign._served, "_line", side_effect=replies):
                        self.assertRaises(KeyboardInterrupt, sign.ask, line)
                    self.assertEqual((sign.frame().shown, sign.ask("next")), (Shown(0, 7), "next 20"))

    def test_a_long_line_is_sent_whole(self) -> None:
        with SimulatedSign(None, self.program) as sign:
            self.assertEqual((sign.ask("a" * 300_000), sign.ask("next")), ("done", "next 20"))

    def test_a_program_that_knows_no_colours_is_told(self) -> None:
        self.program.write_text("#!/bin/sh\nwhile read -r line; do echo ${line:+bad line} ${line:-ok}; done\n")
        with self.assertRaises(UnexpectedReply) as raised:
            SimulatedSign(None, self.program)
        self.assertEqual((raised.exception.asked, raised.exception.reply), ("colours", None))

    def test_a_time_limit_is_ten_seconds_or_none_or_as_long_as_one_likes(self) -> None:
        self.assertEqual(inspect.signature(SimulatedSign).parameters["timeout"].default, 10)
        for seconds in (None, float("inf"), 1e9, 10**9):
            with SimulatedSign(None, self.program, timeout=seconds) as sign:
                self.assertEqual(sign.ask("late 0.1"), "late")

    def test_a_program_that_is_no_sign_is_given_up(self) -> None:
        self.program.write_text("#!/bin/sh\nexec sleep 60\n")
        self.assertRaises(NoAnswer, SimulatedSign, None, self.program, timeout=0.2)

    def test_an_end_is_told_as_it_was(self) -> None:
        for line, wanted in (("killed", "was killed by signal 9"), ("ended", "has ended with status 1: no more")):
            with SimulatedSign(None, self.program) as sign:
                for asked in (line, "next"):
                    with self.assertRaises(SignStopped) as raised:
                        sign.ask(asked)
                    self.assertEqual(str(raised.exception), f"signctl serve {wanted}")
        with self.assertRaises(SignStopped) as raised:
            sign.ask("next")
        self.assertEqual(str(raised.exception), "signctl serve was closed")

    def test_a_missing_program_is_named_with_its_variable(self) -> None:
        for program in (self.program.parent / "none", self.program.parent):
            with self.assertRaises(ProgramNotFound) as raised:
                SimulatedSign(None, program)
            self.assertIn(str(program), str(raised.exception))
            self.assertIn("LATSEFUR_SIGNCTL", str(raised.exception))
        with mock.patch.dict("os.environ", {"LATSEFUR_SIGNCTL": "/nowhere/signctl"}):
            self.assertRaises(FileNotFoundError, SimulatedSign)
            self.assertRaises(LatsefurError, SimulatedSign)

    def test_a_message_is_stored_in_one_step(self) -> None:
        with SimulatedSign(None, self.program) as sign:
            threads = [threading.Thread(target=lambda at=at: [sign.store(at, "A") for _ in range(10)]) for at in (1, 2, 3)]  # type: ignore
            for thread in threads:
                thread.start()
            for thread in threads:
                thread.join()
        numbers = [words[2] for words in map(str.split, self.seen()) if len(words) > 2]
        self.assertEqual(len(numbers), 180)
        self.assertTrue(all(len(set(numbers[at:at + 6])) == 1 for at in range(0, 180, 6)))


class Recipes(unittest.TestCase):
    """The ways to a served sign of hosts/README.md, with one that ends after its first reply."""

    def ended(self, command: str) -> None:
        """Runs a command of the page."""
        with tempfile.TemporaryDirectory() as folder:
            program = Path(folder, "signctl")
            program.write_text("#!/bin/sh\nread line\necho the first reply\n")
            program.chmod(0o755)
            words = ["sh", "-c", command.replace("bin/signctl", str(program))]
            for _ in range(5):
                ran = subprocess.run(words, cwd=TOP, capture_output=True, text=True, timeout=20)
                self.assertLessEqual(ran.stdout.count("the first reply"), 1)
                self.assertLessEqual(ran.stdout.count("\n"), 1)
                self.assertIn("the sign has ended", ran.stderr)
                self.assertNotIn("Exception ignored", ran.stderr)
                self.assertNotEqual(ran.returncode, 0)

    def test_each_tells_that_the_sign_has_ended(self) -> None:
        commands = re.findall(r"^    \$ (.*bin/signctl.*)$", (TOP / "hosts/README.md").read_text(), re.MULTILINE)
        self.assertEqual([command.split()[0] for command in commands], ["bash", "python3"])
        for command in commands:
            with self.subTest(command.split()[0]):
                self.ended(command)


if __name__ == "__main__":
    unittest.main()
