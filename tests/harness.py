"""What the scripts of tests/ share: the program, signs with their examples and scripts, the CRC.

Each script holds something to what is known, and ends with `fail` at the first thing that is
otherwise. signs/README.md says how examples and scripts of a sign are written.
"""
from __future__ import annotations

import os
import re
import shutil
import subprocess
import sys
from pathlib import Path
from typing import NamedTuple, NoReturn, Optional, Sequence, Union

TOP = Path(__file__).resolve().parent.parent
DATA = TOP / "tests/data"
# From the top of the repository, where `build` goes.
PROGRAM = "crates/signctl/out/signctl"
# The same program, as Rattle's own compiler builds it. `rt ci` leaves it beside LLVM's.
BY_RATTLE = f"{PROGRAM}.by-rattle"
MARK = b"%%\n"
# The most octets that an input may have.
MOST_OCTETS = 16_777_216

ROW = re.compile(
    r"(?P<options>(?:--(?:colour|clock) \d+ )*)(?:(?P<times>\d+) times )?(?P<string>.*)"
    r" => (?P<answer>ok \d+|error \d+ \d+|page \d+ phase \d+|off)"
)


def fail(*lines: object) -> NoReturn:
    """Ends the script that runs, and says why."""
    sys.exit(f"{Path(sys.argv[0]).name}: " + "\n".join(map(str, lines)))


def build() -> None:
    """Goes to the top of the repository, and builds the program if its sources have changed."""
    os.chdir(TOP)
    subprocess.run(["bin/signctl", "--help"], stdout=subprocess.DEVNULL, check=True)


def build_both() -> tuple[str, str]:
    """The same, for both compilers. It gives the two programs."""
    os.chdir(TOP)
    if "SIGNCTL_BUILT" not in os.environ:
        subprocess.run(
            ["rt", "run", "--backend", "rattle", "--", "--help"],
            cwd="crates/signctl",
            stdin=subprocess.DEVNULL,
            stdout=subprocess.DEVNULL,
            check=True,
        )
        shutil.copy(PROGRAM, BY_RATTLE)
    build()
    if not Path(BY_RATTLE).is_file():
        fail(f"{BY_RATTLE} isn't there: Rattle's own compiler didn't build the program")
    return PROGRAM, BY_RATTLE


class Ran(NamedTuple):
    """How a run ended: its exit status, what it wrote, and what it said on standard error."""

    status: int
    output: bytes
    said: str


def ran(
    words: Sequence[Union[str, Path]],
    octets: bytes = b"",
    program: Union[str, Sequence[str]] = PROGRAM,
) -> Ran:
    """Runs the program, or another one, with these words over these octets."""
    command = [program] if isinstance(program, str) else program
    done = subprocess.run([*command, *words], input=octets, capture_output=True, timeout=60)
    return Ran(done.returncode, done.stdout, done.stderr.decode())


def refusing_library(folder: Path) -> Path:
    """A library in place of malloc and realloc that refuses an allocation, built in this folder.

    It needs a C compiler: cc, or what CC names.
    """
    built = folder / "refuse.so"
    compiler = os.environ.get("CC", "cc")
    words = [compiler, "-O1", "-shared", "-fPIC", "-o", str(built), str(DATA / "refuse.c")]
    if subprocess.run(words).returncode != 0:
        fail("no library to refuse with")
    return built


def lines_of(strings: Sequence[bytes]) -> bytes:
    return b"".join(string + b"\n" for string in strings)


def crc_row(number: int) -> int:
    """What an octet makes of the CRC."""
    for _ in range(8):
        number = (number >> 1) ^ (0x8408 if number & 1 else 0)
    return number


CRC_ROWS = [crc_row(number) for number in range(256)]


def message_crc(text: bytes) -> int:
    """The CRC of a message with this text, without beacons and pixel service (ISO/IEC 3309)."""
    crc = 0xFFFF
    for octet in text + b"\0\0":
        crc = (crc >> 8) ^ CRC_ROWS[(crc ^ octet) & 255]
    return crc ^ 0xFFFF


def replaced(text: str, old: str, new: str) -> str:
    """A text with this piece, which stands in it once, in place of another."""
    if text.count(old) != 1:
        fail(f"{old!r} stands there {text.count(old)} times, and not once")
    return text.replace(old, new)


def sign_with(path: Path, change: Optional[str]) -> str:
    """The sign of a file, some of whose keys, or one piece of whose text, may be changed."""
    sign = path.read_text()
    if not change:
        return sign
    old, arrow, new = change.partition(" -> ")
    keys = change.split(" and ")
    pieces = [(f"^{re.escape(key.split(' = ')[0])} = .*$", key) for key in keys]
    for pattern, piece in [(re.escape(old), new)] if arrow else pieces:
        parts = re.split(pattern, sign, flags=re.MULTILINE)
        if len(parts) != 2:
            fail(f"{path}: `{change}` changes {len(parts) - 1} places")
        sign = piece.join(parts)
    return sign


class Example:
    """A string, how the program is asked for it, and the lines of its answer."""

    def __init__(self, place: str, change: Optional[str], row: re.Match[str]) -> None:
        self.place = f"{place}: {row[0]}"
        self.change = change
        self.framed = row["answer"].startswith(("page", "off"))
        self.words = ["show" if self.framed else "check", *row["options"].split()]
        self.string = string_of(row["string"], row["times"])
        self.answer = [row["answer"]]


def string_of(written: str, times: Optional[str]) -> str:
    """A string as a file of examples writes it."""
    return "" if written == "(empty)" else written * int(times or 1)


def examples_of(path: Path) -> list[Example]:
    """The examples of a file."""
    examples: list[Example] = []
    framed: list[Example] = []
    change, drawn = None, False
    for number, line in enumerate(path.read_text().splitlines(), 1):
        place = f"{path}:{number}"
        row = ROW.fullmatch(line)
        if row:
            examples.append(Example(place, change, row))
            if drawn:
                framed, drawn = [], False
            if examples[-1].framed:
                framed.append(examples[-1])
        elif re.fullmatch(r"    [.#]+", line) and framed:
            drawn = True
            for example in framed:
                example.answer.append(line[4:])
        elif line.startswith("with "):
            change = line.removeprefix("with ")
        elif line and not line.startswith("# "):
            fail(f"{place}: what is this line?")
    for example in examples:
        if example.framed and len(example.answer) == 1:
            fail(f"{example.place}: its frame has no rows")
    return examples


class Script:
    """A script: its lines with the lines of their replies, and the line at which it ends badly."""

    def __init__(self, place: str, change: Optional[str], before: Optional[Script]) -> None:
        self.place, self.change = place, change
        self.bad: Optional[int] = None
        self.lines: list[tuple[str, list[str]]] = list(before.lines) if before else []

    def add(self, place: str, line: str, reply: str) -> None:
        if self.bad:
            fail(f"{place}: the script has ended")
        if reply == "bad line":
            self.bad = len(self.lines) + 1
        self.lines.append((line, [] if reply in ("", "bad line") else [reply]))

    def asked(self) -> list[str]:
        return [line for line, _ in self.lines]

    def replies(self) -> str:
        return "".join(text + "\n" for _, reply in self.lines for text in reply)


def scripts_of(path: Path) -> dict[str, Script]:
    """The scripts of a file, by name."""
    scripts: dict[str, Script] = {}
    script, change = None, None
    for number, line in enumerate(path.read_text().splitlines(), 1):
        place = f"{path}:{number}"
        begin = re.fullmatch(r"script (\w+)(?: after (\w+))?", line)
        if begin:
            name, other = begin.groups()
            before = scripts.get(other)
            if name in scripts or other and (not before or before.change != change):
                fail(f"{place}: no such script before, or two of one name")
            script = scripts[name] = Script(f"{place}: {name}", change, before)
        elif line.startswith("with "):
            change, script = line.removeprefix("with "), None
        elif re.fullmatch(r"    [.#]+", line) and script and script.lines:
            script.lines[-1][1].append(line[4:])
        elif " =>" in line and script:
            asked, reply = line.rsplit(" =>", 1)
            script.add(place, "" if asked == "(empty)" else asked, reply.removeprefix(" "))
        elif line and not line.startswith("# "):
            fail(f"{place}: what is this line?")
    return scripts
