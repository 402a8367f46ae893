"""The warnings that docs/writing.md has in its table, read a second time: all but those for which
pages are drawn, `W15` to `W19`, and `W14`, which is told only if it is asked for."""
from __future__ import annotations

import sys
from typing import Iterator

from harness import TOP

sys.path.insert(0, str(TOP / "conformance"))
from second_multi import Item, Sign, meaning, read_items  # noqa: E402
from second_reading import read_sign_file  # noqa: E402

# What is found by drawing pages.
DRAWN = {"W15", "W16", "W17", "W18", "W19"}
LEFT, RIGHT = 2, 4
Note = tuple[str, int]


def kind_of(item: Item) -> str:
    """What an item is: `letter`, `space` or the name of a tag."""
    if item.kind == "character":
        return "space" if item.values == (32,) else "letter"
    return "fl" if item.kind in ("on first", "off first") else item.kind


class Message:
    """A message that a sign takes."""

    def __init__(self, sign: Sign, octets: bytes) -> None:
        self.sign, self.size = sign, len(octets)
        spelled, _ = read_items(octets)
        self.items = [(it.at, meaning(it)) for it in spelled]
        ends = [it.at + len(it.spelling()) for it in spelled]
        self.breaks = [number for number, (_, it) in enumerate(self.items) if it.kind == "np"]
        self.begins = [0, *(ends[number] for number in self.breaks)]

    def times(self, item: Item) -> tuple[int, int]:
        """The on and off time of a `pt` or an `fl`."""
        usual = self.sign.defaults
        if item.kind == "pt":
            defaults = [usual.page_on, usual.page_off]
        else:
            defaults = [usual.flash_on, usual.flash_off]
        values = item.values[::-1] if item.kind == "off first" else item.values
        on, off = (default if it is None else it for it, default in zip(values, defaults))
        return on, off

    def pages(self) -> Iterator[tuple[int, int, int, int]]:
        """Where each page begins, how many letters it has, and its times."""
        usual = self.sign.defaults
        times = (usual.page_on, usual.page_off)
        edges = [0, *(number + 1 for number in self.breaks), len(self.items) + 1]
        for begin, first, last in zip(self.begins, edges, edges[1:]):
            page = [item for _, item in self.items[first : last - 1]]
            for item in page:
                times = self.times(item) if item.kind == "pt" else times
            yield (begin, sum(kind_of(item) == "letter" for item in page), *times)

    def notes_on_pages(self) -> Iterator[Note]:
        pages = list(self.pages())
        if len(pages) == 1 or not any(on + off for _, _, on, off in pages):
            return
        for begin, letters, on, _ in pages:
            if on < 5 or on // 10 < letters // 4:
                yield "W03", begin

    def notes_on_items(self) -> Iterator[Note]:
        count = len(self.begins)
        for at, item in self.items:
            on, off = self.times(item) if kind_of(item) in ("pt", "fl") else (0, 0)
            if item.kind == "pt" and count == 1 and off not in (0, self.sign.defaults.page_off):
                yield "W02", at
            if item.kind == "pt" and count > 1 and off > 20:
                yield "W04", at
            if kind_of(item) == "fl" and off == 0:
                yield "W10", at
            elif kind_of(item) == "fl" and on > 0 and on + off <= 4:
                yield ("W08" if on + off == 4 else "W09"), at
        colours = [at for at, it in self.items if it.kind == "cf" and it.values[0] not in (None, 0)]
        if colours and not self.sign.classic:
            yield "W07", colours[0]
        if count > 2:
            yield "W13", self.items[self.breaks[1]][0]

    def notes_on_flashes(self) -> Iterator[Note]:
        is_flashing, letters = False, []
        for at, item in self.items:
            kind = kind_of(item)
            if kind == "np" and is_flashing:
                yield "W11", at
            if kind == "letter":
                letters.append(is_flashing)
            if kind in ("fl", "/fl"):
                is_flashing = kind == "fl" and min(self.times(item)) > 0
        if letters and all(letters):
            yield "W12", 0

    def notes_on_lines(self) -> Iterator[Note]:
        just = self.sign.defaults.line
        line: list[tuple[int, bool]] = []
        for at, item in [*self.items, (0, Item(0, "nl"))]:
            kind = kind_of(item)
            if kind in ("letter", "space"):
                line.append((at, kind == "space"))
            elif kind == "jl":
                just = item.values[0] or self.sign.defaults.line
            elif kind in ("nl", "np", "tr"):
                yield from spaces_of(line, just)
                line = []

    def notes(self, most: int) -> set[Note]:
        """All of them, on a sign whose message table takes texts of so many octets."""
        long = {("W01", most)} if self.size > most else set()
        return long.union(
            self.notes_on_pages(),
            self.notes_on_items(),
            self.notes_on_flashes(),
            self.notes_on_lines(),
        )


def spaces_of(line: list[tuple[int, bool]], just: int) -> Iterator[Note]:
    """The warnings on spaces at the ends of a line."""
    if all(is_space for _, is_space in line):
        return
    if line[0][1] and just != RIGHT:
        yield "W06", line[0][0]
    tail = len(line)
    while line[tail - 1][1]:
        tail -= 1
    if tail < len(line) and just > LEFT:
        yield "W05", line[tail][0]


def sign_of(text: bytes) -> tuple[Sign, int]:
    """The sign of a sign file, and the most octets of a text that its message table takes."""
    read = read_sign_file(text)
    return read.sign, read.limits.max_string


def notes_of(sign: Sign, most: int, octets: bytes) -> set[Note]:
    """The warnings on a message, by their codes and places."""
    return Message(sign, octets).notes(most)
