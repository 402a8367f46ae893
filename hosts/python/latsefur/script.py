"""The script language of `docs/formats.md`, over a controller.

    for reply in script.run(controller, ["request 3 1 6", "multi 3 1 ROAD", "report"]):
        print(reply)
"""
from __future__ import annotations

import re
from typing import Callable, Iterable, Iterator, Union

from .controller import Controller
from .errors import BadLength, CommandRefused, LatsefurError
from .replies import Defaults, Frame, Message, Reply, Report
from .values import Default, Text, octets_of, several

Answer = Union[Reply, Message, Report, Defaults, Frame]
Words = list[bytes]

FIELDS = {field.name.lower().encode(): field for field in Default}


class BadLine(LatsefurError, ValueError):
    """A line that is none of a script. `number` is its place, counted from 1."""

    def __init__(self, number: int = 0) -> None:
        super().__init__(f"line {number}: bad line")
        self.number = number

    def __reduce__(self) -> tuple[type[BadLine], tuple[int]]:
        return type(self), (self.number,)


def number(word: bytes, most: int) -> int:
    """A number in decimal, of at most ten digits."""
    if not re.fullmatch(rb"[0-9]{1,10}", word) or int(word) > most:
        raise BadLine
    return int(word)


def octets(words: Words) -> bytes:
    """Octets in hexadecimal."""
    digits = b" ".join(words)
    if not re.fullmatch(rb"(?:[0-9a-fA-F]{2})*", digits):
        raise BadLine
    return bytes.fromhex(digits.decode())


def message(words: Words) -> tuple[int, int]:
    return number(words[0], 255), number(words[1], 65535)


def field(word: bytes) -> Default:
    if word not in FIELDS:
        raise BadLine
    return FIELDS[word]


# Each command: how many words follow it at least and at most, and what is asked of the controller.
COMMANDS: dict[bytes, tuple[int, float, Callable[[Controller, Words], Answer]]] = {
    b"request": (3, 3, lambda held, words: held.request(*message(words), number(words[2], 255))),
    b"multi": (2, float("inf"), lambda held, words: held.set_multi(*message(words), b" ".join(words[2:]))),
    b"multix": (2, float("inf"), lambda held, words: held.set_multi(*message(words), octets(words[2:]))),
    b"owner": (2, float("inf"), lambda held, words: held.set_owner(*message(words), octets(words[2:]))),
    b"priority": (3, 3, lambda held, words: held.set_priority(*message(words), number(words[2], 255))),
    b"beacon": (3, 3, lambda held, words: held.set_beacon(*message(words), number(words[2], 255))),
    b"pixel": (3, 3, lambda held, words: held.set_pixel_service(*message(words), number(words[2], 255))),
    b"clear": (0, 0, lambda held, words: held.clear()),
    b"work": (0, 0, lambda held, words: held.work()),
    b"activate": (1, 1, lambda held, words: held.activate(octets(words))),
    b"end": (1, 1, lambda held, words: held.set_end(octets(words))),
    b"tick": (1, 1, lambda held, words: held.tick(number(words[0], 2**32 - 1))),
    b"default": (2, 2, lambda held, words: held.set_default(field(words[0]), number(words[1], 255))),
    b"frame": (1, 1, lambda held, words: held.frame(number(words[0], 255))),
    b"row": (2, 2, lambda held, words: held.message(*message(words))),
    b"report": (0, 0, lambda held, words: held.report()),
    b"defaults": (0, 0, lambda held, words: held.defaults()),
}


def answer(controller: Controller, line: Text) -> Answer:
    """The reply to a line, which isn't passed over. Raises `BadLine`."""
    name, *words = octets_of(line).split(b" ")
    least, most, ask = COMMANDS.get(name, (0, -1, None))
    if ask is None or not least <= len(words) <= most:
        raise BadLine
    try:
        return ask(controller, words)
    except BadLength as fault:
        raise BadLine from fault
    except CommandRefused as fault:
        if fault.reply is None:
            raise
        return fault.reply


def passed_over(line: Text) -> bool:
    """Whether a line gets no reply: an empty one, and one that begins with `#`."""
    return octets_of(line)[:1] in (b"", b"#")


def run(controller: Controller, lines: Iterable[Text]) -> Iterator[Answer]:
    """The replies to the lines of a script, as they are asked.

    Raises `BadLine`, with its number, at a line that is none of a script, and `TypeError` for a lone
    text, whose characters would be taken for lines.
    """
    for place, line in enumerate(several("lines", lines), 1):
        if not passed_over(line):
            try:
                reply = answer(controller, line)
            except BadLine as fault:
                raise BadLine(place) from fault
            yield reply
