"""Fills in the answers of the conformance cases from an engine, and compares answers.

    python3 answers.py fill --engine second < inputs.jsonl > cases.jsonl
    python3 answers.py fill --engine program --program ./signctl < inputs.jsonl > others.jsonl
    python3 answers.py fill --engine library < inputs.jsonl > others.jsonl
    python3 answers.py compare cases.jsonl others.jsonl

The engine `second` is the second reading of the specification.  The engine `program` asks a
program with the command line of `signctl`; it can't be asked for a page's times, nor for a
string with a line feed or with a carriage return at its end.  The engine `library` asks the
Python package `latsefur`, which can't be asked for a page's times.
"""

from __future__ import annotations

import argparse
import json
import re
import subprocess
import sys
from importlib import import_module
from itertools import groupby
from pathlib import Path
from typing import Any, Callable, Iterable, Iterator, Protocol, Sequence

from second_control import BadLine, Controller, script_line
from second_multi import Picture, Text
from second_reading import make_controller

FOLDER = Path(__file__).parent / "signs"
Case = dict[str, Any]
Answers = dict[str, Case]
COLOURS = "abcdefghij"

# A program is asked for the pictures of this many strings at once.
AT_ONCE = 64


def octets_of(case: Case) -> bytes:
    text = case.get("text")
    return bytes.fromhex(case["hex"]) if text is None else str(text).encode("latin-1")


def run_lengths(pixels: Iterable[int]) -> str:
    """Runs of one colour from the upper left pixel, row by row: a count above 1, and a to j."""
    runs = ((COLOURS[colour], len(list(run))) for colour, run in groupby(pixels))
    return "".join(f"{count if count > 1 else ''}{letter}" for letter, count in runs)


def runs_of(picture: Picture) -> str:
    return run_lengths(colour for row in picture for colour in row)


class Engine(Protocol):
    """Answers all the cases of one sign, by their names."""

    def answers(self, sign: bytes, cases: Sequence[Case]) -> Answers:
        ...


# ---------------------------------------------------------------- the second reading


class SecondReading:
    def answers(self, sign: bytes, cases: Sequence[Case]) -> Answers:
        ask = {"string": self.string, "script": self.script}
        controller = make_controller(sign)
        return {case["id"]: ask[case["kind"]](controller, sign, case) for case in cases}

    def string(self, controller: Controller, sign: bytes, case: Case) -> Case:
        text = Text(controller.sign, controller.sign.defaults, octets_of(case))
        found = text.verdict()
        if not found.accepted:
            return {"error": [found.error, found.position]}
        frames = [self.frame(text, clock) for clock in case.get("clocks", [])]
        times = [list(time) for time in text.times()]
        return {"pages": found.pages, "times": times, "frames": frames}

    def frame(self, text: Text, clock: int) -> Case:
        shown, picture = text.picture_at(clock)
        if shown is None:
            return {"clock": clock, "off": runs_of(picture)}
        return {"clock": clock, "page": shown[0], "phase": shown[1], "pixels": runs_of(picture)}

    def script(self, controller: Controller, sign: bytes, case: Case) -> Case:
        fresh = make_controller(sign)
        replies: list[str] = []
        for number, line in enumerate(case["lines"], 1):
            try:
                reply = script_line(fresh, line.encode("latin-1"))
            except BadLine:
                return {"replies": replies, "bad_line": number}
            replies.append(b"\n".join(reply).decode())
        return {"replies": replies}


# ---------------------------------------------------------------- a program


class Program:
    """A program with the command line of `signctl`."""

    def __init__(self, words: Sequence[str]) -> None:
        self.words = list(words)

    def run(self, mode: Sequence[str], octets: bytes) -> tuple[list[str], str]:
        done = subprocess.run([*self.words, *mode], input=octets, capture_output=True)
        return done.stdout.decode("latin-1").splitlines(), done.stderr.decode("latin-1")

    def answers(self, sign: bytes, cases: Sequence[Case]) -> Answers:
        strings = [c for c in cases if c["kind"] == "string" and self.can_be_asked(c)]
        scripts = [c for c in cases if c["kind"] == "script"]
        return self.strings(sign, strings) | {c["id"]: self.script(sign, c) for c in scripts}

    def can_be_asked(self, case: Case) -> bool:
        octets = octets_of(case)
        return b"\n" not in octets and not octets.endswith(b"\r")

    def input(self, sign: bytes, lines: Iterable[bytes]) -> bytes:
        return sign + b"\n%%\n" + b"".join(line + b"\n" for line in lines)

    def strings(self, sign: bytes, cases: Sequence[Case]) -> Answers:
        lines, fault = self.run(["check"], self.input(sign, map(octets_of, cases)))
        assert len(lines) == len(cases) and fault == "", fault
        answers: Answers = {}
        for case, line in zip(cases, lines):
            words = line.split(" ")
            if words[0] == "ok":
                answers[case["id"]] = {"pages": int(words[1]), "frames": []}
            else:
                answers[case["id"]] = {"error": [int(words[1]), int(words[2])]}
        accepted = [case for case in cases if "pages" in answers[case["id"]]]
        for clock in sorted({clock for case in accepted for clock in case.get("clocks", [])}):
            at = [case for case in accepted if clock in case.get("clocks", [])]
            for begin in range(0, len(at), AT_ONCE):
                some = at[begin : begin + AT_ONCE]
                for case, frame in zip(some, self.frames(sign, some, clock)):
                    answers[case["id"]]["frames"].append(frame)
        return answers

    def frames(self, sign: bytes, cases: Sequence[Case], clock: int) -> Iterator[Case]:
        """One frame of each case: the planes of all ten colours put together."""
        octets = self.input(sign, map(octets_of, cases))
        planes = [
            self.run(["show", "--colour", str(colour), "--clock", str(clock)], octets)[0]
            for colour in range(10)
        ]
        rows = len(planes[0]) // len(cases)
        for k in range(len(cases)):
            parts = [plane[k * rows : (k + 1) * rows] for plane in planes]
            heads = {part[0] for part in parts}
            assert len(heads) == 1, heads
            yield frame_of(heads.pop(), clock, ["".join(part[1:]) for part in parts])

    def script(self, sign: bytes, case: Case) -> Case:
        lines = [line.encode("latin-1") for line in case["lines"]]
        found, fault = self.run(["run"], self.input(sign, lines))
        bad = re.fullmatch(r"signctl: line ([0-9]+): bad line\n", fault)
        assert bad or fault == "", fault
        answer: Case = {}
        if bad:
            answer["bad_line"] = int(bad.group(1)) - self.input(sign, []).count(b"\n")
            lines = lines[: answer["bad_line"] - 1]
        rows = make_controller(sign).sign.height
        replies: list[str] = []
        at = 0
        for line in lines:
            passed_over = line == b"" or line.startswith(b"#")
            count = 0 if passed_over else 1 + (rows if line.startswith(b"frame ") else 0)
            replies.append("\n".join(found[at : at + count]))
            at += count
        assert at == len(found), case["id"]
        return {"replies": replies} | answer


def frame_of(head: str, clock: int, planes: Sequence[str]) -> Case:
    """A frame from its head and from the planes of the ten colours, each as one text."""
    columns = list(zip(*planes))
    assert all(column.count("#") == 1 for column in columns)
    runs = run_lengths(column.index("#") for column in columns)
    if head == "off":
        return {"clock": clock, "off": runs}
    _, page, _, phase = head.split(" ")
    return {"clock": clock, "page": int(page), "phase": int(phase), "pixels": runs}


# ---------------------------------------------------------------- the Python package


class Library:
    """The Python package `latsefur`, as it is installed or as it stands in the repository."""

    def __init__(self) -> None:
        sys.path.append(str(Path(__file__).resolve().parent.parent / "hosts" / "python"))
        self.package = import_module("latsefur")

    def answers(self, sign: bytes, cases: Sequence[Case]) -> Answers:
        ask = {"string": self.string, "script": self.script}
        known = self.package.Sign(sign)
        return {case["id"]: ask[case["kind"]](known, case) for case in cases}

    def string(self, sign: Any, case: Case) -> Case:
        octets = octets_of(case)
        verdict = sign.check(octets)
        if not verdict:
            return {"error": [int(verdict.error), verdict.at]}
        frames = [self.frame(sign, octets, clock) for clock in case.get("clocks", [])]
        return {"pages": verdict.pages, "frames": frames}

    def frame(self, sign: Any, octets: bytes, clock: int) -> Case:
        shown, pixels = sign.shown(octets, clock), run_lengths(bytes(sign.colours(octets, clock)))
        if shown is None:
            return {"clock": clock, "off": pixels}
        return {"clock": clock, "page": shown.page, "phase": shown.phase, "pixels": pixels}

    def script(self, sign: Any, case: Case) -> Case:
        script = self.package.script
        replies: list[str] = []
        with self.package.Controller(sign) as controller:
            for number, line in enumerate(case["lines"], 1):
                try:
                    reply = "" if script.passed_over(line) else str(script.answer(controller, line))
                except script.BadLine:
                    return {"replies": replies, "bad_line": number}
                replies.append(reply)
        return {"replies": replies}


# ---------------------------------------------------------------- filling in and comparing

ANSWERED = ("error", "pages", "times", "frames", "replies", "bad_line")


def sign_of(case: Case) -> str:
    return str(case["sign"])


def fill(engine: Engine, lines: Iterable[str]) -> Iterator[Case]:
    """The cases with the engine's answers; those that it can't be asked are left out."""
    cases: list[Case] = [json.loads(line) for line in lines]
    for name, of_sign in groupby(cases, key=sign_of):
        group = list(of_sign)
        answers = engine.answers((FOLDER / f"{name}.toml").read_bytes(), group)
        for case in group:
            if case["id"] in answers:
                yield case | answers[case["id"]]


def differences(first: Case, second: Case) -> list[str]:
    """The answers that differ; times are compared where both engines tell them."""
    keys = [key for key in ANSWERED if key in first or key in second]
    if "times" not in first or "times" not in second:
        keys = [key for key in keys if key != "times"]
    return [key for key in keys if first.get(key) != second.get(key)]


def compare(first: Sequence[Case], second: Sequence[Case]) -> int:
    """Prints each case that differs; the number of them."""
    others = {case["id"]: case for case in second}
    differing = compared = 0
    for case in first:
        other = others.get(case["id"])
        if other is None:
            continue
        compared += 1
        for key in differences(case, other):
            differing += 1
            print(f"{case['id']}: {key}: {case.get(key)} against {other.get(key)}")
    print(f"{compared} compared, {differing} differences, {len(first) - compared} not compared")
    return differing


def read_cases(path: str) -> list[Case]:
    with open(path, encoding="ascii") as lines:
        return [json.loads(line) for line in lines]


def main(words: Sequence[str]) -> int:
    parser = argparse.ArgumentParser(description="Answers of the conformance cases.")
    forms = parser.add_subparsers(dest="form", required=True)
    filling = forms.add_parser("fill")
    filling.add_argument("--engine", choices=["second", "program", "library"], default="second")
    filling.add_argument("--program", nargs="+", default=["signctl"])
    comparing = forms.add_parser("compare")
    comparing.add_argument("first")
    comparing.add_argument("second")
    given = parser.parse_args(words)
    if given.form == "compare":
        return 1 if compare(read_cases(given.first), read_cases(given.second)) else 0
    engines: dict[str, Callable[[], Engine]] = {
        "second": SecondReading,
        "program": lambda: Program(given.program),
        "library": Library,
    }
    for case in fill(engines[given.engine](), sys.stdin):
        print(json.dumps(case, separators=(",", ":")))
    return 0


if __name__ == "__main__":
    sys.exit(main(sys.argv[1:]))
