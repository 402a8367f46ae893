"""Another reading of a font in BDF, in other steps than the program's.

`cells_of_font` gives the cells that `signctl font` must write. A pixel is a column, counted from
the origin, and a row, counted up from the base line. A cell is a window on these pixels.
"""
from __future__ import annotations

import re
from typing import NamedTuple, Optional, Sequence

# A column and a row.
Pixels = set[tuple[int, int]]
# Of each character its width and its lit pixels, as columns and rows from the top.
Cells = dict[int, tuple[int, Pixels]]
# The first and the last character of each range.
Ranges = Sequence[tuple[int, int]]
# The spacing, the height and the cells.
Table = tuple[int, int, Cells]


class Refused(Exception):
    """The font isn't taken."""


class Glyph(NamedTuple):
    """A character: its advance, its box and its lit pixels."""

    advance: int
    box: list[int]
    lit: Pixels


def numbers(block: str, word: str) -> Optional[list[int]]:
    found = re.search(rf"^{word} +(.*)$", block, re.M)
    return [int(it) for it in found.group(1).split()] if found else None


def known(block: str, word: str) -> list[int]:
    found = numbers(block, word)
    if found is None:
        raise ValueError(f"there is no {word}")
    return found


def lit_pixels(block: str) -> Pixels:
    width, rows, left, low = known(block, "BBX")
    bitmap = block.split("BITMAP")[1].split("\n")[1 : rows + 1]
    lit: Pixels = set()
    for place, digits in enumerate(bitmap):
        bits = bin(int("1" + digits.strip(), 16))[3:]
        row = low + rows - 1 - place
        lit |= {(left + column, row) for column in range(width) if bits[column] == "1"}
    return lit


class Font:
    """A font: its rows, counted from the base line, and its characters."""

    def __init__(self, text: str) -> None:
        head = text.split("STARTCHAR")[0]
        _, self.rows, _, self.low = known(head, "FONTBOUNDINGBOX")
        self.glyphs: list[tuple[int, Glyph]] = []
        for block in re.findall(r"^STARTCHAR.*?^ENDCHAR", text, re.M | re.S):
            number = known(block, "ENCODING")[0]
            if 1 <= number <= 65535:
                own = numbers(block.split("BITMAP")[0], "DWIDTH")
                advance = (own or known(head, "DWIDTH"))[0]
                glyph = Glyph(advance, known(block, "BBX"), lit_pixels(block))
                self.glyphs.append((number, glyph))

    def chosen(self, ranges: Ranges) -> dict[int, Glyph]:
        """The characters that are taken by their numbers."""
        found = [
            (number, glyph)
            for number, glyph in self.glyphs
            if any(first <= number <= last for first, last in ranges)
        ]
        if len(dict(found)) < len(found):
            raise Refused("one number twice")
        return dict(found)


def window(
    glyph: Glyph, spacing: int, low: int, high: int, outside: str
) -> Optional[tuple[int, int]]:
    """The columns of a cell, from one to before another, or None if the character is left out."""
    columns, _, left, _ = glyph.box
    begin, end = 0, glyph.advance - spacing

    def fits() -> bool:
        return 1 <= end - begin <= 64 and all(
            begin <= column < end and low <= row < high for column, row in glyph.lit
        )

    if fits():
        return begin, end
    if outside == "skip":
        return None
    if outside == "widen":
        begin, end = min(begin, left), max(end, left + columns)
        if fits():
            return begin, end
    if outside == "crop" and 1 <= end - begin <= 64:
        return begin, end
    raise Refused("outside")


def drawn(taken: dict[int, Glyph], spacing: int, low: int, high: int, outside: str) -> Cells:
    """The cells between two rows."""
    cells: Cells = {}
    for number, glyph in sorted(taken.items()):
        columns = window(glyph, spacing, low, high, outside)
        if columns:
            begin, end = columns
            lit = {
                (column - begin, high - 1 - row)
                for column, row in glyph.lit
                if begin <= column < end and low <= row < high
            }
            cells[number] = end - begin, lit
    return cells


def with_spacing(
    taken: dict[int, Glyph],
    spacing: int,
    low: int,
    high: int,
    outside: str,
    crop: bool,
    height: Optional[int],
) -> Table:
    if crop:
        cells = drawn(taken, spacing, low, high, outside).values()
        rows = {high - 1 - row for _, lit in cells for _, row in lit}
        low, high = (min(rows), max(rows) + 1) if rows else (low, low)
    if height is not None:
        more = height - (high - low)
        if more < 0:
            raise Refused("too high")
        high += more // 2
        low = high - height
    if not 1 <= high - low <= 64:
        raise Refused("height")
    cells_there = drawn(taken, spacing, low, high, outside)
    if not 1 <= len(cells_there) <= 255:
        raise Refused("count")
    return spacing, high - low, cells_there


def cells_of_font(
    font: Font,
    ranges: Ranges = ((1, 65535),),
    spacing: Optional[int] = None,
    outside: str = "refuse",
    crop: bool = False,
    height: Optional[int] = None,
) -> Table:
    """The spacing, the height, and of each character its width and its lit pixels."""
    if not 1 <= font.rows <= 255:
        raise Refused("box")
    taken, low, high = font.chosen(ranges), font.low, font.low + font.rows
    if spacing is not None:
        return with_spacing(taken, spacing, low, high, outside, crop, height)
    try:
        return with_spacing(taken, 1, low, high, "refuse", crop, height)
    except Refused:
        return with_spacing(taken, 0, low, high, outside, crop, height)


def cells_of_table(table: str) -> Table:
    """The spacing, the height and the cells of a `[[font]]` table, as its octets say."""

    def key(name: str) -> int:
        found = re.search(rf"^{name} = (\d+)", table, re.M)
        if not found:
            raise ValueError(f"there is no {name}")
        return int(found.group(1))

    height = key("height")
    cells: Cells = {}
    for number, columns, octets in re.findall(
        r'number = (\d+), width = (\d+), bits = "([0-9a-f]*)"', table
    ):
        width, bits = int(columns), bin(int("1" + octets, 16))[3:]
        if len(octets) != 2 * ((width * height + 7) // 8) or "1" in bits[width * height :]:
            raise ValueError(f"a cell of another size: {number}")
        lit = {(place % width, place // width) for place, bit in enumerate(bits) if bit == "1"}
        cells[int(number)] = width, lit
    if list(cells) != sorted(cells):
        raise ValueError("the cells stand in another order")
    return key("char_spacing"), height, cells
