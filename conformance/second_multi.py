"""A second reading of the sign's specification: what a MULTI string means on a sign.

It says again, in plain Python and from the specification alone, how a string is read into
items, which item offends first, and which page, with which pixels, a dynamic message sign of
NTCIP 1203 version 03 shows at a clock.  It is written as the definitions read: every prefix of
a string is judged afresh, with counts, sums and maxima over whole lists.  It is slow and is
meant to be: it serves to be compared with the program, case by case.
"""

from __future__ import annotations

import re
from dataclasses import dataclass
from itertools import pairwise
from typing import Iterator, Optional, Sequence

NO_ERROR = 2
UNSUPPORTED_TAG = 3
UNSUPPORTED_TAG_VALUE = 4
TEXT_TOO_BIG = 5
FONT_NOT_DEFINED = 6
CHARACTER_NOT_DEFINED = 7
TAG_CONFLICT = 11
TOO_MANY_PAGES = 12
FONT_VERSION_ID = 13

# Justifications of lines (jl) and of pages (jp).
LEFT, CENTRE, RIGHT, FULL = 2, 3, 4, 5
TOP, MIDDLE, BOTTOM = 2, 3, 4

SPACE = 32


# ---------------------------------------------------------------- the sign


@dataclass(frozen=True)
class Cell:
    """The picture of one character: rows from the top, each from the left."""

    number: int
    width: int
    bits: bytes

    def bit(self, index: int) -> bool:
        return self.bits[index // 8] >> (7 - index % 8) & 1 == 1

    def lit(self, height: int) -> list[tuple[int, int]]:
        """Column and row of every bit that is 1."""
        return [
            (column, row)
            for row in range(height)
            for column in range(self.width)
            if self.bit(row * self.width + column)
        ]


@dataclass(frozen=True)
class Font:
    number: int
    version: int
    height: int
    char_spacing: int
    line_spacing: int
    cells: tuple[Cell, ...]

    def cell(self, number: int) -> Optional[Cell]:
        return next((cell for cell in self.cells if cell.number == number), None)


@dataclass(frozen=True)
class Defaults:
    font: int
    line: int
    page: int
    page_on: int
    page_off: int
    flash_on: int
    flash_off: int
    fore: int
    back: int


@dataclass(frozen=True)
class Sign:
    width: int
    height: int
    classic: bool
    max_pages: int
    beacons: bool
    pixel_service: bool
    words: bool
    defaults: Defaults
    fonts: tuple[Font, ...]

    def font(self, number: int) -> Optional[Font]:
        return next((font for font in self.fonts if font.number == number), None)

    def shown(self, colour: int) -> int:
        """The colour that a pixel gets: a monochrome sign has only dark 0 and lit 1."""
        return colour if self.classic else min(colour, 1)


# ---------------------------------------------------------------- reading a string into items


@dataclass(frozen=True)
class Spelled:
    """One item as it is spelled: a character's number or a tag's body."""

    at: int
    character: Optional[int] = None
    body: bytes = b""

    def spelling(self) -> bytes:
        if self.character is None:
            return b"[" + self.body + b"]"
        octet = bytes([self.character])
        return octet * 2 if octet in b"[]" else octet


# A doubled bracket, an octet that is no bracket, or a tag: exactly the spellings of items.
SPELLING = re.compile(rb"(\[\[|\]\]|[^\[\]])|\[([^\[\]]+)\]", re.DOTALL)


def read_items(octets: bytes) -> tuple[list[Spelled], Optional[int]]:
    """The items from the left, and where a bracket stands that spells nothing, if one does."""
    items: list[Spelled] = []
    at = 0
    while at < len(octets):
        found = SPELLING.match(octets, at)
        if found is None:
            return items, at
        character, body = found.groups()
        if character is not None:
            items.append(Spelled(at, character=character[0]))
        else:
            items.append(Spelled(at, body=body))
        at = found.end()
    return items, None


# ---------------------------------------------------------------- the table of tags

NUMBER = r"([0-9]{1,5})"


@dataclass(frozen=True)
class Form:
    """A name, what may follow it, and for each number in it the lowest, the highest, the base."""

    name: bytes
    rest: str
    numbers: tuple[tuple[int, int, int], ...] = ()
    kind: str = ""


OCTET = (0, 255, 10)
UP_TO_99999 = (0, 99999, 10)

TAG_TABLE = [
    Form(b"np", r""),
    Form(b"nl", rf"{NUMBER}?", (OCTET,)),
    Form(b"jl", rf"{NUMBER}?", ((2, 5, 10),)),
    Form(b"jp", rf"{NUMBER}?", ((2, 4, 10),)),
    Form(b"fo", rf"(?:{NUMBER}(?:,([0-9a-f]{{1,4}}))?)?", ((1, 255, 10), (0, 0xFFFF, 16))),
    Form(b"sc", rf"{NUMBER}", (OCTET,)),
    Form(b"/sc", r""),
    Form(b"pt", rf"{NUMBER}?(?:o{NUMBER}?)?", (OCTET, OCTET)),
    Form(b"fl", rf"(?:t{NUMBER}?(?:o{NUMBER}?)?)?", (OCTET, OCTET), "on first"),
    Form(b"fl", rf"o{NUMBER}?(?:t{NUMBER}?)?", (OCTET, OCTET), "off first"),
    Form(b"/fl", r""),
    Form(b"cf", rf"{NUMBER}?", ((0, 9, 10),)),
    Form(b"pb", rf"{NUMBER}?", ((0, 9, 10),)),
    Form(b"tr", rf"{NUMBER},{NUMBER},{NUMBER},{NUMBER}", (UP_TO_99999,) * 4),
    Form(b"hc", r"([0-9a-f]{1,4})", ((1, 0xFFFF, 16),), "character"),
]

Values = tuple[Optional[int], ...]


@dataclass(frozen=True)
class Item:
    """What an item means: its kind (a character, a tag's name or a fault) and its numbers."""

    at: int
    kind: str
    values: Values = ()


def numbers_of(form: Form, rest: bytes) -> Optional[Values]:
    """The numbers of a rest that has the form with all of them in range, absent ones as None."""
    found = re.fullmatch(form.rest.encode(), rest, re.IGNORECASE)
    if found is None:
        return None
    values: list[Optional[int]] = []
    for digits, (low, high, base) in zip(found.groups(), form.numbers):
        value = None if digits is None else int(digits, base)
        if value is not None and not low <= value <= high:
            return None
        values.append(value)
    return tuple(values)


def meaning(spelled: Spelled) -> Item:
    """The item's meaning: a tag by the table, unknown name or bad value as faults."""
    if spelled.character is not None:
        return Item(spelled.at, "character", (spelled.character,))
    body = spelled.body
    named = [form for form in TAG_TABLE if body[: len(form.name)].lower() == form.name]
    if not named:
        return Item(spelled.at, "unsupported")
    for form in named:
        values = numbers_of(form, body[len(form.name) :])
        if values is not None:
            return Item(spelled.at, form.kind or form.name.decode(), values)
    return Item(spelled.at, "bad value")


# ---------------------------------------------------------------- placing items and their lines


@dataclass(frozen=True)
class Rectangle:
    left: int
    top: int
    width: int
    height: int


@dataclass(frozen=True)
class Flash:
    off_first: bool
    on: int
    off: int

    def lit(self, phase: int) -> bool:
        both = self.on + self.off
        if both == 0:
            return True
        if self.off_first:
            return phase % both >= self.off
        return phase % both < self.on


@dataclass(frozen=True)
class Placing:
    """A character (with its cell) or a new line (with its gap), and what is in force at it."""

    index: int
    is_character: bool
    number: Optional[int]
    cell: Optional[Cell]
    group: int
    justification: int
    font: Font
    spacing: Optional[int]
    rectangle: Rectangle

    @property
    def width(self) -> int:
        return self.cell.width if self.cell is not None else 0

    @property
    def is_space(self) -> bool:
        return self.is_character and self.number == SPACE


def half_up(a: int, b: int) -> int:
    """The average of two spacings, rounded up."""
    return (a + b + 1) // 2


def fit(a: int, b: int, c: int, length: int) -> bool:
    """Whether parts at the start, in the middle and at the end fit a length."""
    if a + b + c > length:
        return False
    start = (length - b) // 2
    return b == 0 or (a <= start and start + b <= length - c)


def gap_before(earlier: Placing, later: Placing) -> int:
    """Pixels between two successive characters of one segment."""
    if later.spacing is not None:
        return later.spacing
    return half_up(earlier.font.char_spacing, later.font.char_spacing)


def width_of(segment: Sequence[Placing]) -> int:
    gaps = sum(gap_before(a, b) for a, b in pairwise(segment))
    return sum(character.width for character in segment) + gaps


def segment_of(characters: Sequence[Placing], justification: int) -> list[Placing]:
    return [c for c in characters if c.justification == justification]


def line_fits(characters: Sequence[Placing], length: int) -> bool:
    left, centre, right, full = (
        width_of(segment_of(characters, j)) for j in (LEFT, CENTRE, RIGHT, FULL)
    )
    return full <= length and fit(left, centre, right, length)


@dataclass(frozen=True)
class Line:
    """A line's characters; whether a new line or filling ended it, and what an end brings."""

    characters: list[Placing]
    ended: bool = False
    gap: Optional[int] = None
    font_if_empty: Optional[Font] = None

    @property
    def counted(self) -> bool:
        return self.ended or bool(self.characters)

    @property
    def fonts(self) -> list[Font]:
        of_characters = [character.font for character in self.characters]
        return of_characters or [font for font in [self.font_if_empty] if font is not None]

    @property
    def height(self) -> int:
        return max(font.height for font in self.fonts)

    @property
    def spacing(self) -> int:
        return max(font.line_spacing for font in self.fonts)


def gap_after(line: Line, following: Line) -> int:
    """Pixels between two successive counted lines."""
    return line.gap if line.gap is not None else half_up(line.spacing, following.spacing)


def height_of(lines: Sequence[Line]) -> int:
    """The height of a group: its counted lines and the gaps between them."""
    counted = [line for line in lines if line.counted]
    gaps = sum(gap_after(a, b) for a, b in pairwise(counted))
    return sum(line.height for line in counted) + gaps


def longest_fitting(characters: Sequence[Placing], length: int) -> int:
    """How many characters the longest prefix has that fits one line."""
    return next(k for k in range(len(characters), -1, -1) if line_fits(characters[:k], length))


def filled(characters: Sequence[Placing], length: int) -> Optional[list[Line]]:
    """The lines that filling by words makes of the characters between two hard breaks.

    Nothing where a word alone is wider than the line.
    """
    most = longest_fitting(characters, length)
    if most == len(characters):
        return [Line(list(characters))]
    spaces = [k for k in range(most) if characters[k].is_space]
    if characters[most].is_space:
        dropped = most
    elif spaces:
        dropped = spaces[-1]
    else:
        return None
    rest = filled(characters[dropped + 1 :], length)
    if rest is None:
        return None
    font = characters[dropped].font
    return [Line(list(characters[:dropped]), ended=True, font_if_empty=font)] + rest


def split_at_new_lines(
    group: Sequence[Placing],
) -> Iterator[tuple[list[Placing], Optional[Placing]]]:
    """The characters between hard breaks, each with the new line that ends them, the last none."""
    run: list[Placing] = []
    for placing in group:
        if placing.is_character:
            run.append(placing)
        else:
            yield run, placing
            run = []
    yield run, None


def lines_of(group: Sequence[Placing], words: bool, length: int) -> Optional[list[Line]]:
    """The lines of a group from its top, or nothing where filling by words is not possible."""
    lines: list[Line] = []
    for characters, new_line in split_at_new_lines(group):
        run = filled(characters, length) if words else [Line(characters)]
        if run is None:
            return None
        if new_line is not None:
            last = run[-1].characters
            ended = Line(last, True, gap=new_line.number, font_if_empty=new_line.font)
            run = run[:-1] + [ended]
        lines += run
    return lines


# ---------------------------------------------------------------- a string on a sign


@dataclass(frozen=True)
class Verdict:
    """dmsMultiSyntaxError with its position; the number of pages where there is no error."""

    error: int
    position: int
    pages: int

    @property
    def accepted(self) -> bool:
        return self.error == NO_ERROR


Picture = list[list[int]]


class Text:
    """A string, on a sign, under defaults."""

    def __init__(self, sign: Sign, defaults: Defaults, octets: bytes) -> None:
        spelled, self.broken = read_items(octets)
        self.sign = sign
        self.defaults = defaults
        self.items = [meaning(item) for item in spelled]
        self._known: dict[int, Placing] = {}
        self._indices: dict[str, list[int]] = {}
        for index, item in enumerate(self.items):
            self._indices.setdefault(item.kind, []).append(index)

    # What is in force before an item: the last item before it that sets it, else the default.

    def last_before(self, index: int, *kinds: str) -> Optional[int]:
        before = [j for kind in kinds for j in self._indices.get(kind, []) if j < index]
        return max(before, default=None)

    def count_before(self, index: int, kind: str) -> int:
        return sum(1 for j in self._indices.get(kind, []) if j < index)

    def number_in_force(self, index: int, kind: str, default: int) -> int:
        setter = self.last_before(index, kind)
        value = None if setter is None else self.items[setter].values[0]
        return default if value is None else value

    def font_in_force(self, index: int) -> Font:
        font = self.sign.font(self.number_in_force(index, "fo", self.defaults.font))
        assert font is not None
        return font

    def spacing_in_force(self, index: int) -> Optional[int]:
        setter = self.last_before(index, "sc", "/sc")
        if setter is None or self.items[setter].kind == "/sc":
            return None
        return self.items[setter].values[0]

    def flash_in_force(self, index: int) -> Optional[Flash]:
        setter = self.last_before(index, "on first", "off first", "/fl")
        if setter is None or self.items[setter].kind == "/fl":
            return None
        first, second = self.items[setter].values
        off_first = self.items[setter].kind == "off first"
        on, off = (second, first) if off_first else (first, second)
        return Flash(
            off_first,
            self.defaults.flash_on if on is None else on,
            self.defaults.flash_off if off is None else off,
        )

    def times_in_force(self, index: int) -> tuple[int, int]:
        setter = self.last_before(index, "pt")
        on, off = (None, None) if setter is None else self.items[setter].values
        return (
            self.defaults.page_on if on is None else on,
            self.defaults.page_off if off is None else off,
        )

    def rectangle_in_force(self, index: int) -> Rectangle:
        setter = self.last_before(index, "tr", "np")
        if setter is None or self.items[setter].kind == "np":
            return Rectangle(0, 0, self.sign.width, self.sign.height)
        rectangle = self.rectangle(self.items[setter])
        assert rectangle is not None
        return rectangle

    def rectangle(self, item: Item) -> Optional[Rectangle]:
        """The rectangle of a text rectangle tag, or nothing where it is not inside the sign."""
        x, y, w, h = (value or 0 for value in item.values)
        width, height = self.sign.width, self.sign.height
        if not (1 <= x <= width and 1 <= y <= height):
            return None
        if x - 1 + w > width or y - 1 + h > height:
            return None
        return Rectangle(x - 1, y - 1, w or width - (x - 1), h or height - (y - 1))

    # Placing items and areas.

    def placing(self, index: int) -> Placing:
        """The character or new line with what is in force at it."""
        if index not in self._known:
            item = self.items[index]
            font = self.font_in_force(index)
            is_character = item.kind == "character"
            number = item.values[0]
            self._known[index] = Placing(
                index,
                is_character,
                number,
                font.cell(number) if is_character and number is not None else None,
                self.number_in_force(index, "jp", self.defaults.page),
                self.number_in_force(index, "jl", self.defaults.line),
                font,
                self.spacing_in_force(index),
                self.rectangle_in_force(index),
            )
        return self._known[index]

    def area_up_to(self, index: int) -> list[Placing]:
        """The placing items up to this one since the page's start or the last rectangle."""
        begin = self.last_before(index, "np", "tr")
        first = 0 if begin is None else begin + 1
        return [
            self.placing(j)
            for j in range(first, index + 1)
            if self.items[j].kind in ("character", "nl")
        ]

    def groups(self, area: Sequence[Placing]) -> Optional[dict[int, list[Line]]]:
        """The lines of each group of an area, or nothing where they cannot be filled."""
        groups: dict[int, list[Line]] = {}
        for group in (TOP, MIDDLE, BOTTOM):
            members = [placing for placing in area if placing.group == group]
            if not members:
                groups[group] = []
                continue
            lines = lines_of(members, self.sign.words, members[0].rectangle.width)
            if lines is None:
                return None
            groups[group] = lines
        return groups

    # The verdict.

    def goes_back(self, area: Sequence[Placing]) -> bool:
        """Whether the last placing item offends the order of groups or of segments."""
        last = area[-1]
        if any(earlier.group > last.group for earlier in area[:-1]):
            return True
        if not last.is_character:
            return False
        members = [placing for placing in area if placing.group == last.group]
        run = [run for run, _ in split_at_new_lines(members)][-1]
        full = {character.justification == FULL for character in run}
        return len(full) == 2 or any(c.justification > last.justification for c in run)

    def too_big(self, area: Sequence[Placing]) -> bool:
        """Whether a line or the whole area no longer fits, or words cannot be filled."""
        rectangle = area[-1].rectangle
        groups = self.groups(area)
        if groups is None:
            return True
        own_line = groups[area[-1].group][-1].characters
        if not line_fits(own_line, rectangle.width):
            return True
        top, middle, bottom = (height_of(groups[g]) for g in (TOP, MIDDLE, BOTTOM))
        return not fit(top, middle, bottom, rectangle.height)

    def offence(self, index: int) -> Optional[int]:
        """The error of an item after the items before it, if it offends."""
        item = self.items[index]
        if item.kind == "unsupported":
            return UNSUPPORTED_TAG
        if item.kind == "bad value":
            return UNSUPPORTED_TAG_VALUE
        if item.kind == "fo":
            return self.offence_of_font(item)
        if item.kind == "tr":
            return UNSUPPORTED_TAG_VALUE if self.rectangle(item) is None else None
        if item.kind == "np":
            pages = self.count_before(index, "np") + 2
            return TOO_MANY_PAGES if pages > self.sign.max_pages else None
        if item.kind in ("character", "nl"):
            return self.offence_of_placing(index)
        return None

    def offence_of_font(self, item: Item) -> Optional[int]:
        number, version = item.values
        if number is None:
            return None
        font = self.sign.font(number)
        if font is None:
            return FONT_NOT_DEFINED
        if version is not None and version != font.version:
            return FONT_VERSION_ID
        return None

    def offence_of_placing(self, index: int) -> Optional[int]:
        placing = self.placing(index)
        if placing.is_character and placing.cell is None:
            return CHARACTER_NOT_DEFINED
        area = self.area_up_to(index)
        if self.goes_back(area):
            return TAG_CONFLICT
        if self.too_big(area):
            return TEXT_TOO_BIG
        return None

    def verdict(self) -> Verdict:
        """Judges from the left; the first item that offends gives error and position."""
        for index, item in enumerate(self.items):
            error = self.offence(index)
            if error is not None:
                return Verdict(error, item.at, 0)
        if self.broken is not None:
            return Verdict(UNSUPPORTED_TAG, self.broken, 0)
        return Verdict(NO_ERROR, 0, self.pages())

    # Pages of an accepted string.

    def pages(self) -> int:
        return self.count_before(len(self.items), "np") + 1

    def page_items(self, page: int) -> range:
        """The indices of the items of a page, without the new page tags around it."""
        breaks = [-1] + self._indices.get("np", []) + [len(self.items)]
        return range(breaks[page] + 1, breaks[page + 1])

    def times(self) -> list[tuple[int, int]]:
        """For each page its time on and off in tenths, as in force at the page's end."""
        return [self.times_in_force(self.page_items(p).stop) for p in range(self.pages())]

    def areas(self, page: int) -> list[list[Placing]]:
        """The whole areas of a page."""
        items = self.page_items(page)
        ends = [j for j in items if self.items[j].kind == "tr"] + [items.stop]
        placing = [
            [k for k in range(items.start, end) if self.items[k].kind in ("character", "nl")]
            for end in ends
        ]
        last = [indices[-1] for indices in placing if indices]
        return [self.area_up_to(index) for index in dict.fromkeys(last)]

    def places(self, page: int) -> dict[int, tuple[int, int]]:
        """Column and row of the upper left pixel of each character, by its index."""
        places: dict[int, tuple[int, int]] = {}
        for area in self.areas(page):
            places.update(self.places_in_area(area))
        return places

    def places_in_area(self, area: Sequence[Placing]) -> dict[int, tuple[int, int]]:
        rectangle = area[0].rectangle
        groups = self.groups(area)
        assert groups is not None
        heights = {group: height_of(lines) for group, lines in groups.items()}
        starts = {
            TOP: 0,
            MIDDLE: (rectangle.height - heights[MIDDLE]) // 2,
            BOTTOM: rectangle.height - heights[BOTTOM],
        }
        places: dict[int, tuple[int, int]] = {}
        for group, lines in groups.items():
            counted = [line for line in lines if line.counted]
            for k, line in enumerate(counted):
                above = sum(earlier.height for earlier in counted[:k])
                gaps = sum(gap_after(a, b) for a, b in pairwise(counted[: k + 1]))
                bottom = rectangle.top + starts[group] + above + gaps + line.height
                for character, column in columns(line.characters, rectangle):
                    places[character.index] = (column, bottom - character.font.height)
        return places

    def picture(self, page: int, phase: int) -> Picture:
        """The colour of every pixel of a page, row by row: that of the last thing covering it."""
        items = self.page_items(page)
        places = self.places(page)
        pixels = self.covered(self.number_in_force(items.start, "pb", self.defaults.back))
        for index in items:
            item = self.items[index]
            if item.kind == "pb":
                pixels = self.covered(self.number_in_force(index + 1, "pb", self.defaults.back))
            elif index in places:
                self.put(pixels, index, places[index], phase)
        return pixels

    def covered(self, colour: int) -> Picture:
        return [[self.sign.shown(colour)] * self.sign.width for _ in range(self.sign.height)]

    def put(self, pixels: Picture, index: int, place: tuple[int, int], phase: int) -> None:
        flash = self.flash_in_force(index)
        if flash is not None and not flash.lit(phase):
            return
        fore = self.sign.shown(self.number_in_force(index, "cf", self.defaults.fore))
        placing = self.placing(index)
        assert placing.cell is not None
        for column, row in placing.cell.lit(placing.font.height):
            pixels[place[1] + row][place[0] + column] = fore

    def picture_at(self, clock: int) -> tuple[Optional[tuple[int, int]], Picture]:
        """The page at a clock with its phase and picture; nothing and all dark while off."""
        shown = page_at(self.times(), clock)
        if shown is None:
            return None, self.covered(0)
        return shown, self.picture(*shown)


def columns(characters: Sequence[Placing], rectangle: Rectangle) -> Iterator[tuple[Placing, int]]:
    """The column of each character of one line."""
    for justification in (LEFT, CENTRE, RIGHT, FULL):
        segment = segment_of(characters, justification)
        spare = rectangle.width - width_of(segment)
        starts = {LEFT: 0, CENTRE: spare // 2, RIGHT: spare, FULL: 0}
        for j, character in enumerate(segment):
            before = width_of(segment[: j + 1]) - character.width
            spread = 0
            if justification == FULL and len(segment) > 1:
                spread = j * spare // (len(segment) - 1)
            yield character, rectangle.left + starts[justification] + before + spread


def page_at(times: Sequence[tuple[int, int]], clock: int) -> Optional[tuple[int, int]]:
    """The page that is shown at a clock and its phase, or nothing in an off time."""
    cycle = sum(on + off for on, off in times)
    if len(times) == 1 or cycle == 0:
        return 0, clock
    within = clock % cycle
    for page, (on, _) in enumerate(times):
        start = sum(on + off for on, off in times[:page])
        if start <= within < start + on:
            return page, within - start
    return None


def judge(sign: Sign, octets: bytes, defaults: Optional[Defaults] = None) -> Verdict:
    """The verdict on a string by the sign's or by other defaults."""
    return Text(sign, defaults or sign.defaults, octets).verdict()


def frame_text(text: Text, clock: int, colour: int) -> list[bytes]:
    """The page at a clock, and the pixels of a colour row by row."""
    shown, pixels = text.picture_at(clock)
    head = b"off" if shown is None else b"page %d phase %d" % shown
    return [head] + [bytes(35 if p == colour else 46 for p in row) for row in pixels]


# ---------------------------------------------------------------- limits on steps


def check_limit(n: int) -> int:
    """The most steps of a check of n octets."""
    return 9 * n + 1


def drawing_limit(n: int, tallest: int, octets: int) -> int:
    """The most steps of drawing all pages on a plane of this many octets."""
    return 18 * n + 2 + tallest * n + octets * (n // 4 + 1)


def frame_limit(n: int, tallest: int, octets: int) -> int:
    return 2 * check_limit(n) + drawing_limit(n, tallest, octets)
