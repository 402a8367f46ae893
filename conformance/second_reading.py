"""A second reading of the sign's specification: the sign file and the three forms of the program.

`check`, `show` and `run` take the octets of an input and give the octets of the output with the
fault that ended it, if one did.  Strings are in `second_multi`, messages in `second_control`.
As a program: `python3 second_reading.py check|show|run [--sample] [--colour N] [--clock N]`.
"""

from __future__ import annotations

import argparse
import re
import sys
import tomllib
from dataclasses import dataclass, field, fields
from itertools import pairwise
from pathlib import Path
from typing import Any, Callable, Optional, Sequence

from second_control import (
    VALID,
    BadLine,
    Controller,
    Message,
    Reply,
    StoreLimits,
    refused_default,
    script_line,
)
from second_multi import Cell, Defaults, Font, Sign, Text, frame_text, judge


# ---------------------------------------------------------------- the sign file


class SignNotRead(Exception):
    """The sign file is no TOML, or a key is missing or of the wrong kind."""


class SignRefused(Exception):
    """The sign or its store is outside a limit; the first argument is the fault's number."""


BAD_SIZE, BAD_FONT, BAD_CELL, BAD_DEFAULT, BAD_LIMIT = range(1, 6)
Table = dict[str, Any]


def key_of(table: Table, key: str, default: Any) -> Any:
    if key not in table and default is None:
        raise SignNotRead
    return table.get(key, default)


def integer_key(table: Table, key: str, bits: int, default: Optional[int] = None) -> int:
    value = key_of(table, key, default)
    if type(value) is not int or not 0 <= value < 2**bits:
        raise SignNotRead
    return value


def flag_key(table: Table, key: str) -> bool:
    value = key_of(table, key, False)
    if type(value) is not bool:
        raise SignNotRead
    return value


def text_key(table: Table, key: str, default: Optional[str] = None) -> str:
    value = key_of(table, key, default)
    if type(value) is not str:
        raise SignNotRead
    return value


def choice_key(table: Table, key: str, choices: Sequence[str], default: Optional[str]) -> str:
    value = text_key(table, key, default)
    if value not in choices:
        raise SignNotRead
    return value


def tables_key(table: Table, key: str) -> list[Table]:
    value = key_of(table, key, [])
    if type(value) is not list or any(type(entry) is not dict for entry in value):
        raise SignNotRead
    return value


def read_cell(table: Table) -> Cell:
    bits = text_key(table, "bits")
    if re.fullmatch(r"(?:[0-9a-fA-F]{2})*", bits) is None:
        raise SignNotRead
    return Cell(
        integer_key(table, "number", 16), integer_key(table, "width", 8), bytes.fromhex(bits)
    )


def read_font(table: Table) -> Font:
    return Font(
        number=integer_key(table, "number", 8),
        version=integer_key(table, "version", 16, 0),
        height=integer_key(table, "height", 8),
        char_spacing=integer_key(table, "char_spacing", 8),
        line_spacing=integer_key(table, "line_spacing", 8),
        cells=tuple(read_cell(cell) for cell in tables_key(table, "cell")),
    )


def read_defaults(table: Table) -> Defaults:
    value = key_of(table, "defaults", None)
    if type(value) is not dict:
        raise SignNotRead
    return Defaults(*(integer_key(value, known.name, 8) for known in fields(Defaults)))


def read_permanent(table: Table) -> Message:
    return Message(
        status=VALID,
        multi=text_key(table, "multi").encode(),
        priority=integer_key(table, "priority", 8, 1),
        beacon=integer_key(table, "beacon", 8, 0),
        pixel=integer_key(table, "pixel", 8, 0),
    )


@dataclass(frozen=True)
class SignFile:
    sign: Sign
    limits: StoreLimits
    permanent: list[Message] = field(default_factory=list)


def read_sign_file(octets: bytes) -> SignFile:
    """The parts of a sign file, all keys judged by their kinds alone."""
    try:
        table = tomllib.loads(octets.decode())
    except (UnicodeDecodeError, tomllib.TOMLDecodeError) as error:
        raise SignNotRead from error
    scheme = choice_key(table, "scheme", ("monochrome", "classic"), None)
    fill = choice_key(table, "line_fill", ("none", "words"), "none")
    sign = Sign(
        width=integer_key(table, "width", 16),
        height=integer_key(table, "height", 16),
        classic=scheme == "classic",
        max_pages=integer_key(table, "max_pages", 8),
        beacons=flag_key(table, "beacons"),
        pixel_service=flag_key(table, "pixel_service"),
        words=fill == "words",
        defaults=read_defaults(table),
        fonts=tuple(read_font(font) for font in tables_key(table, "font")),
    )
    limits = StoreLimits(
        integer_key(table, "slots", 16),
        integer_key(table, "bytes", 32),
        integer_key(table, "max_string", 16),
    )
    permanent = [read_permanent(entry) for entry in tables_key(table, "permanent")]
    return SignFile(sign, limits, permanent)


def rising(numbers: Sequence[int]) -> bool:
    return all(a < b for a, b in pairwise(numbers))


def fonts_sound(fonts: Sequence[Font]) -> bool:
    numbers = [font.number for font in fonts]
    return (
        1 <= len(fonts) <= 16
        and rising(numbers)
        and all(1 <= font.number <= 255 and 1 <= font.height <= 64 for font in fonts)
    )


def cell_sound(cell: Cell, height: int) -> bool:
    pixels = height * cell.width
    if not (1 <= cell.number <= 65535 and 1 <= cell.width <= 64):
        return False
    if len(cell.bits) != (pixels + 7) // 8:
        return False
    return not any(cell.bit(index) for index in range(pixels, 8 * len(cell.bits)))


def cells_sound(font: Font) -> bool:
    numbers = [cell.number for cell in font.cells]
    if len(font.cells) > 255 or not rising(numbers):
        return False
    return all(cell_sound(cell, font.height) for cell in font.cells)


def sign_fault(sign: Sign) -> Optional[int]:
    """The first fault of a sign, in the fixed order over the whole sign."""
    if not (1 <= sign.width <= 1024 and 1 <= sign.height <= 128):
        return BAD_SIZE
    if not fonts_sound(sign.fonts):
        return BAD_FONT
    if not all(cells_sound(font) for font in sign.fonts):
        return BAD_CELL
    if refused_default(sign, sign.defaults) is not None:
        return BAD_DEFAULT
    return BAD_LIMIT if sign.max_pages == 0 else None


def permanent_sound(message: Message, max_string: int) -> bool:
    short = len(message.multi) <= max_string
    return short and message.priority >= 1 and message.beacon <= 1 and message.pixel <= 1


def store_sound(limits: StoreLimits, permanent: Sequence[Message]) -> bool:
    return (
        1 <= limits.slots <= 1000
        and limits.bytes <= 1_000_000
        and 1 <= limits.max_string <= 4096
        and len(permanent) <= 255
        and all(permanent_sound(message, limits.max_string) for message in permanent)
    )


def make_controller(octets: bytes) -> Controller:
    """The controller of a sign file; raises where the file or the sign is refused."""
    parts = read_sign_file(octets)
    fault = sign_fault(parts.sign)
    if fault is None and not store_sound(parts.limits, parts.permanent):
        fault = BAD_LIMIT
    if fault is not None:
        raise SignRefused(fault)
    return Controller(parts.sign, parts.limits, parts.permanent)


# ---------------------------------------------------------------- the program

MOST_INPUT = 16_777_216
MOST_LINE = 8_300
MOST_STRING = 4_096

# The sign that the program has built in.
SAMPLE_SIGN = Path(__file__).resolve().parent.parent / "signs" / "sample.toml"

Answer = Callable[[Controller, bytes], Reply]


@dataclass(frozen=True)
class Output:
    """What a run of the program writes, and the text of the fault that ends it, if one does."""

    octets: bytes
    fault: Optional[str] = None

    @property
    def status(self) -> int:
        return 0 if self.fault is None else 1


def check_line(controller: Controller, line: bytes) -> Reply:
    if len(line) > MOST_STRING:
        return [b"too long"]
    found = judge(controller.sign, line)
    if found.accepted:
        return [b"ok %d" % found.pages]
    return [b"error %d %d" % (found.error, found.position)]


def show_line(colour: int, clock: int) -> Answer:
    def answer(controller: Controller, line: bytes) -> Reply:
        if len(line) > MOST_STRING or not judge(controller.sign, line).accepted:
            return check_line(controller, line)
        text = Text(controller.sign, controller.sign.defaults, line)
        return frame_text(text, clock, colour)

    return answer


def fault_of_end(cut: bool, no_sign: bool, unfinished: bool, line: int) -> Optional[str]:
    """The fault of an input whose whole lines had none."""
    if cut:
        return "signctl: input too long"
    if no_sign:
        return "signctl: sign not read"
    return f"signctl: line {line}: bad line" if unfinished else None


def answer_input(answer: Answer, sample: bool, octets: bytes) -> Output:
    """The answers up to the first fault: to lines alone, or to the lines after a sign file."""
    controller = make_controller(SAMPLE_SIGN.read_bytes()) if sample else None
    *whole, rest = octets[:MOST_INPUT].split(b"\n")
    out: list[bytes] = []
    begin = 0
    for number, raw in enumerate(whole, 1):
        line = raw.removesuffix(b"\r")
        try:
            if len(line) > MOST_LINE:
                return Output(b"".join(out), f"signctl: line {number}: too long")
            if controller is not None:
                out += [reply + b"\n" for reply in answer(controller, line)]
            elif line == b"%%":
                controller = make_controller(octets[:begin])
        except BadLine:
            return Output(b"".join(out), f"signctl: line {number}: bad line")
        except SignNotRead:
            return Output(b"".join(out), "signctl: sign not read")
        except SignRefused as refused:
            return Output(b"".join(out), f"signctl: sign fault {refused.args[0]}")
        begin += len(raw) + 1
    cut = len(octets) > MOST_INPUT
    fault = fault_of_end(cut, controller is None, rest != b"", len(whole) + 1)
    return Output(b"".join(out), fault)


def check(octets: bytes, sample: bool = False) -> Output:
    """Each line is a string: its pages, its error or that it is too long."""
    return answer_input(check_line, sample, octets)


def show(octets: bytes, colour: int = 1, clock: int = 0, sample: bool = False) -> Output:
    """As `check`, but an accepted string is drawn at a clock, in a colour."""
    return answer_input(show_line(colour, clock), sample, octets)


def run(octets: bytes, sample: bool = False) -> Output:
    """Each line is a command of the script language."""
    return answer_input(script_line, sample, octets)


def main(words: Sequence[str]) -> int:
    """The program over the standard streams."""
    parser = argparse.ArgumentParser(description="The second reading as a program.")
    parser.add_argument("mode", choices=["check", "show", "run"])
    parser.add_argument("--sample", action="store_true")
    parser.add_argument("--colour", type=int, default=1)
    parser.add_argument("--clock", type=int, default=0)
    given = parser.parse_args(words)
    answers = {
        "check": check_line,
        "show": show_line(given.colour, given.clock),
        "run": script_line,
    }
    output = answer_input(answers[given.mode], given.sample, sys.stdin.buffer.read())
    sys.stdout.buffer.write(output.octets)
    if output.fault is not None:
        print(output.fault, file=sys.stderr)
    return output.status


if __name__ == "__main__":
    sys.exit(main(sys.argv[1:]))
