"""The table of examples and the scripts of signs/, by the package."""
from __future__ import annotations

import re
import unittest
from pathlib import Path
from typing import Any, Optional

from latsefur import Controller, Sign, script

from tests.places import SIGNS, examples_of, scripts, sign_with


def number_after(word: str, words: list[str], absent: int) -> int:
    return int(words[words.index(word) + 1]) if word in words else absent


class Examples(unittest.TestCase):
    def test_strings(self) -> None:
        for path in sorted(SIGNS.glob("*.toml")):
            examples = examples_of(path.with_suffix(".examples"))
            self.assertTrue(examples, path)
            signs = {change: Sign(sign_with(path, change).encode()) for change in {example.change for example in examples}}
            for example in examples:
                with self.subTest(example.place):
                    self.ask(signs[example.change], example)

    def ask(self, sign: Sign, example: Any) -> None:
        words, text, answer = example.words, example.string.encode(), example.answer
        if words[0] == "check":
            self.assertEqual([str(sign.check(text))], answer)
            self.assertEqual([str(verdict) for verdict in sign.check_all([text, b"", text])][::2], answer * 2)
            return
        clock, colour = number_after("--clock", words, 0), number_after("--colour", words, 1)
        shown = sign.shown(text, clock)
        self.assertEqual([str(shown or "off"), *sign.plane(text, colour, clock).rows()], answer)
        drawn = "".join("#" if pixel == colour else "." for pixel in bytes(sign.colours(text, clock)))
        self.assertEqual(drawn, "".join(answer[1:]))
        if shown:
            plane = sign.plane_of_page(text, shown.page, colour, shown.phase)
            self.assertEqual(plane.rows(), answer[1:])
            self.assertEqual(sign.colours_of_page(text, shown.page, shown.phase), sign.colours(text, clock))


class Scripts(unittest.TestCase):
    def test_scripts(self) -> None:
        count = 0
        for path in sorted(SIGNS.glob("*.scripts")):
            for name, change, lines in scripts(path):
                with self.subTest(name):
                    self.run_script(path.with_suffix(".toml"), change, lines)
                count += 1
        self.assertGreater(count, 0)

    def run_script(self, path: Path, change: Optional[str], lines: list[tuple[str, list[str]]]) -> None:
        wanted = [line for _, reply in lines for line in reply]
        got: list[str] = []
        with Controller(Sign(sign_with(path, change).encode())) as controller:
            try:
                for reply in script.run(controller, [line.encode() for line, _ in lines]):
                    got += str(reply).split("\n")
            except script.BadLine as fault:
                self.assertEqual(fault.number, len(lines))
                got.append("bad line")
        self.assertEqual(got, wanted)

    def test_days_of_documents(self) -> None:
        """The two days of docs/messages.md, each a script of signs/ with the replies that stand there."""
        page = (SIGNS.parent / "docs/messages.md").read_text()
        for name in ("incident", "travel-time"):
            block = re.search(rf"< signs/{name}\.script \| grep -v '(.*)'\n((?:    .*\n)+)", page)
            assert block, name
            with Controller.from_file(SIGNS / "portable.toml") as controller:
                lines = (SIGNS / f"{name}.script").read_bytes().splitlines()
                got = "".join(f"{reply}\n" for reply in script.run(controller, lines))
            # The page leaves out the rows of frames, among others.
            kept = [line for line in got.splitlines(keepends=True) if not re.match(block[1], line)]
            self.assertEqual(kept, [line[4:] for line in block[2].splitlines(keepends=True)])


if __name__ == "__main__":
    unittest.main()
