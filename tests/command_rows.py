"""Rows of runs of the program, and what several scripts have in them.

A row has the words after `signctl`, the input, the exit status, the output and what is said on
standard error. README.md and docs/formats.md say which these are.
"""
from __future__ import annotations

from harness import DATA, TOP, Ran, fail, ran

# The rows of each subject.
Rows = dict[str, list[tuple[str, bytes, int, bytes, str]]]

SAMPLE = (TOP / "signs/sample.toml").read_bytes()

# A sign file of nine lines, whose one font has no cells.
SMALL = (DATA / "least.toml").read_bytes()

DARK = b"............\n" * 7
LETTER = (
    b"............\n" * 2 + b".....#......\n....###.....\n....#.#.....\n" + b"............\n" * 2
)
PAGE = b"page 0 phase 0\n"
PAGE_OF_I = LETTER.replace(b"###", b".#.").replace(b"#.#", b".#.").replace(b"#", b"1")
EXPLAINED = (
    b"line 1: accepted: 1 page\nI\npage 1 of 1, shown all the time:\n"
    + PAGE_OF_I
    + b"pixels: 1 lit, . dark\n\n"
)

# A font of three rows with an `I`.
FONT = b"""\
STARTFONT 2.1
FONTBOUNDINGBOX 1 3 0 0
STARTCHAR I
ENCODING 73
DWIDTH 2 0
BBX 1 3 0 0
BITMAP
80
80
80
ENDCHAR
ENDFONT
"""

NOT_READ = "sign not read"

# Red, green and blue of what is between the dots, of a dark dot, and of one that is lit.
GROUND, UNLIT, BRIGHT = (12, 12, 12), (40, 40, 40), (255, 176, 0)


def counts(messages: int, refused: int = 0, warnings: int = 0) -> str:
    """What is said after messages were explained."""
    return f"messages: {messages}, refused: {refused}, warnings: {warnings}"


def points_of(rows: bytes) -> bytes:
    """A picture of rows of pixels with one point for each."""
    return b"P6\n12 7\n255\n" + b"".join(
        bytes(BRIGHT if pixel == ord("#") else UNLIT) for pixel in rows if pixel != ord("\n")
    )


def bad(line: int) -> str:
    return f"line {line}: bad line"


def too_long(line: int) -> str:
    return f"line {line}: too long"


def letters(count: int, line_end: bytes = b"\n") -> bytes:
    return b"A" * count + line_end


# Each mode over lines: its words with the sample sign, a line, and its answer.
MODES = [
    ("check", b"A\n", b"ok 1\n"),
    ("show", b"A\n", PAGE + LETTER),
    ("run", b"clear\n", b"done\n"),
]


def ended(words: str, octets: bytes) -> Ran:
    """The exit status, the output and what is said."""
    return ran(words.split(), octets)


def shortened(told: object) -> str:
    text = str(told)
    return text if len(text) < 200 else f"{text[:90]!r} .. {text[-90:]!r}, {len(text)} in all"


def check_rows(table: Rows) -> int:
    """Runs the program for each row. It gives how many rows there are."""
    for subject, rows in table.items():
        for words, octets, status, wrote, said in rows:
            got = ended(words, octets)
            if got != (status, wrote, f"signctl: {said}\n" if said else ""):
                fail(f"{subject}: {words} with {shortened(octets)}:", *map(shortened, got))
    return sum(len(rows) for rows in table.values())
