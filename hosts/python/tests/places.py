"""Where the repository and its signs lie, and what stands in the table of examples."""
from __future__ import annotations

import sys
import unittest
from pathlib import Path
from typing import Iterator, Optional

TOP = Path(__file__).resolve().parents[3]
SIGNS = TOP / "signs"

# The program, which is built anew if its sources have changed, and what marks the tests that need it.
PROGRAM = TOP / "bin" / "signctl"
needs_program = unittest.skipUnless((TOP / "crates/signctl/out/signctl").is_file(), "signctl isn't built; bin/signctl builds it")

sys.path.insert(0, str(TOP / "tests"))

from harness import examples_of, sign_with  # noqa: E402


def scripts(path: Path) -> Iterator[tuple[str, Optional[str], list[tuple[str, list[str]]]]]:
    """The scripts of a file: the name of each, the change of its sign, and its lines with the replies. Those of a script that it goes on
    from stand in front."""
    change: Optional[str] = None
    known: dict[str, list[tuple[str, list[str]]]] = {}
    name = ""
    for line in path.read_text().splitlines():
        words = line.split(" ")
        if line.startswith("script "):
            name = words[1]
            known[name] = list(known[words[3]]) if words[2:3] == ["after"] else []
        elif line.startswith("with "):
            change = line.removeprefix("with ")
        elif line.startswith("    ") and name:
            known[name][-1][1].append(line[4:])
        elif " =>" in line and name:
            asked, _, reply = line.rpartition(" =>")
            known[name].append(("" if asked == "(empty)" else asked, [reply[1:]] if reply[1:] else []))
        elif not line and name:
            yield name, change, known[name]
            name = ""
    if name:
        yield name, change, known[name]
