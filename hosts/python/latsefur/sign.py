"""A sign, which judges texts and draws their pages."""
from __future__ import annotations

import json
from ctypes import byref, c_size_t, create_string_buffer
from dataclasses import dataclass
from functools import lru_cache
from pathlib import Path
from typing import TYPE_CHECKING, Any, Callable, Iterable, Optional, SupportsIndex, Union

from .errors import TextTooLong
from .library import DONE, RECORD, REFUSED, TOO_SMALL, VERDICT, Library, PathLike, ShownFacts, SignFacts, Texts, VerdictFacts, load
from .picture import Picture, Plane, Shown, stride_of
from .values import MultiError, Octets, Text, number_of, octets_of, raw_octets, texts_of

if TYPE_CHECKING:
    import numpy

MOST_CLOCK = 2**64 - 1
# How much room is lent to the first call for a record or a film; a second call has as much as the first one says.
FIRST_RECORD, FIRST_FILM = 4096, 65536


@dataclass(frozen=True)
class Verdict:
    """What a sign says to a text. It is true if the sign accepts it, and `str` writes it as `signctl check` does.

    An accepted text has `pages`, 1 to 255, and `cycle`: the time of all pages together, lit and dark, in tenths of a second. With one page or
    a cycle of 0, page 0 is always shown. A refused text has its `error` and `at`: the octet, counted from 0, of the first item that offends
    (dmsMultiSyntaxError and dmsMultiSyntaxErrorPosition). What a verdict has no use for is 0 or `None`.
    """

    pages: int = 0
    cycle: int = 0
    error: Optional[MultiError] = None
    at: int = 0

    @property
    def accepted(self) -> bool:
        """Whether the sign accepts the text."""
        return self.error is None

    def __bool__(self) -> bool:
        return self.accepted

    def __str__(self) -> str:
        return f"ok {self.pages}" if self.error is None else f"error {int(self.error)} {self.at}"


@lru_cache(maxsize=4096)
def told_verdict(at: int, cycle: int, outcome: int, code: int, pages: int) -> Verdict:
    """The verdict of these numbers. One object may stand for several texts, since it never changes."""
    if outcome == DONE:
        return Verdict(pages=pages, cycle=cycle)
    if outcome != REFUSED:
        raise TextTooLong
    return Verdict(error=MultiError(code), at=at)


class Sign:
    """A sign by the octets of its sign file, which `docs/signs.md` describes.

        sign = Sign.from_file("signs/portable.toml")
        sign.check("ROAD[nl]WORK[nl]AHEAD").accepted

    It never changes. Threads may share it, and the library runs without Python's lock. It is equal to another one of the same octets, and can
    be pickled: the other process loads its own library. Each call reads the sign file anew, so many texts go into one `check_all`.

    A text is `bytes`, a `bytearray` or a `memoryview`, or a `str` in which each character is the octet of its number. Clocks, phases and other
    times are in tenths of a second. A clock counts from the moment at which the text is first shown, and a phase from the moment at which its
    page is. Pages count from 0.

    `library` is a file, or what `load` gives; if none is named, `load` says where it is looked for.

    Raises `NoSignFile` if the octets aren't a sign file, `SignFault` if its sign is outside a limit, and `LibraryNotFound` or `WrongLibrary`.
    Any call may raise `NoMemory`, and one with a text `NotAnOctet` and `TextTooLong`. The thread needs 64 KiB of stack.
    """

    __slots__ = ("_octets", "_named", "_library", "_facts")

    def __init__(self, octets: Octets, library: Union[Library, PathLike, None] = None) -> None:
        self._octets = raw_octets("a sign file", octets)
        self._named = None if isinstance(library, Library) or library is None else str(library)
        self._library = library if isinstance(library, Library) else load(library)
        self._facts = SignFacts()
        self._call("sign", byref(self._facts))

    @classmethod
    def from_file(cls, path: PathLike, library: Union[Library, PathLike, None] = None) -> Sign:
        """The sign of a file. Raises what the class does, and `OSError` if the file can't be read."""
        return cls(Path(path).read_bytes(), library)

    @property
    def octets(self) -> bytes:
        """The sign file."""
        return self._octets

    @property
    def library(self) -> Library:
        """The library that answers."""
        return self._library

    @property
    def width(self) -> int:
        """How many pixels a row has, 1 to 1,024."""
        return self._facts.width

    @property
    def height(self) -> int:
        """How many rows the sign has, 1 to 128."""
        return self._facts.height

    @property
    def max_pages(self) -> int:
        """How many pages a message may have, 1 to 255."""
        return self._facts.max_pages

    @property
    def classic(self) -> bool:
        """Whether the sign has the ten colours; else a pixel is lit or dark, and has colour 1 or 0."""
        return self._facts.classic == 1

    def check(self, text: Text) -> Verdict:
        """The verdict on a text. Whether a message table has room for it is another question."""
        octets, facts = octets_of(text), VerdictFacts()
        self._call("check", octets, len(octets), byref(facts), answers=(DONE, REFUSED))
        return told_verdict(facts.at, facts.cycle, facts.outcome, facts.code, facts.pages)

    def check_all(self, texts: Iterable[Text]) -> list[Verdict]:
        """The verdicts on these texts, in their order. The sign file is read once. Raises `TypeError` for a lone text."""
        return [told_verdict(*told) for told in VERDICT.iter_unpack(self._check_all(texts))]

    def check_array(self, texts: Iterable[Text]) -> numpy.ndarray[Any, Any]:
        """The verdicts on these texts as a NumPy array of records, in their order, without an object for each.

        A record has `refused`, `error` (0 if the text is accepted), `at`, `pages` and `cycle`, as `Verdict` says them. Raises `TypeError` for a
        lone text, and `ImportError` where NumPy isn't there.
        """
        import numpy

        told = numpy.frombuffer(self._check_all(texts), numpy.dtype(RECORD))
        if (told["refused"] > REFUSED).any():
            raise TextTooLong
        return told

    def shown(self, text: Text, clock: SupportsIndex = 0) -> Optional[Shown]:
        """The page of a text that is shown at a clock, 0 to 2**64 - 1, or `None` in the off time of a page. Raises `TextRefused`."""
        octets, facts = octets_of(text), ShownFacts()
        self._call("shown_at", octets, len(octets), number_of("clock", clock, MOST_CLOCK), byref(facts))
        return shown_of(facts)

    def colours(self, text: Text, clock: SupportsIndex = 0) -> Picture:
        """The colour of every pixel at a clock, 0 to 2**64 - 1. Raises `TextRefused`."""
        return self._picture("colours_at", text, number_of("clock", clock, MOST_CLOCK))

    def colours_of_page(self, text: Text, page: SupportsIndex, phase: SupportsIndex = 0) -> Picture:
        """The colour of every pixel of a page, at a phase. The phase, 0 to 2**64 - 1, matters for flashing text alone, and may be longer than
        the page is shown. Raises `TextRefused`, and `NoPage` if the text has no such page."""
        return self._picture("colours_of_page", text, number_of("page", page, 255), number_of("phase", phase, MOST_CLOCK))

    def pages(self, text: Text, phase: SupportsIndex = 0) -> list[Picture]:
        """The pictures of all pages, each at this phase. Raises `TextRefused`."""
        octets = octets_of(text)
        last = self.check(octets).pages
        return [self.colours_of_page(octets, page, phase) for page in range(max(last, 1))]

    def plane(self, text: Text, colour: SupportsIndex = 1, clock: SupportsIndex = 0) -> Plane:
        """Which pixels have a colour, 0 to 255, at a clock; none has one above 9. Raises `TextRefused`."""
        return self._plane("plane_at", text, number_of("clock", clock, MOST_CLOCK), number_of("colour", colour, 255))

    def plane_of_page(self, text: Text, page: SupportsIndex, colour: SupportsIndex = 1, phase: SupportsIndex = 0) -> Plane:
        """Which pixels of a page have a colour, at a phase. Raises `TextRefused` and `NoPage`."""
        words = number_of("page", page, 255), number_of("phase", phase, MOST_CLOCK), number_of("colour", colour, 255)
        return self._plane("plane_of_page", text, *words)

    def explain(self, text: Text, pictures: bool = False) -> dict[str, Any]:
        """What the sign says to a text and why, as `signctl explain --format json` tells it: the record that `docs/explain.schema.json` describes.
        With `pictures` each page has its picture. A text of more than 4,096 octets isn't judged. The library is of version 3."""
        octets = octets_of(text)
        told: dict[str, Any] = json.loads(self._told("explain", FIRST_RECORD, octets, len(octets), bool(pictures)))
        return told

    def film(self, text: Text, side: SupportsIndex = 8, seconds: Optional[SupportsIndex] = None) -> bytes:
        """A text as it plays, over and over, as a file in GIF: until it begins anew, or for its first seconds, 1 to 600. A pixel is a square of
        `side` by `side` points, 1 to 16. Raises `TextRefused`, `LargeFilm` and `LongFilm`. The library is of version 3."""
        octets = octets_of(text)
        wide, long = number_of("side", side, 16), 0 if seconds is None else number_of("seconds", seconds, 600)
        if wide == 0 or (seconds is not None and long == 0):
            raise ValueError("a side is 1 to 16 points, and a film lasts for 1 to 600 seconds")
        return self._told("film", FIRST_FILM, octets, len(octets), wide, long)

    def __repr__(self) -> str:
        colours = "ten colours" if self.classic else "one colour"
        return f"<Sign, {self.width} by {self.height} pixels of {colours}>"

    def __eq__(self, other: object) -> bool:
        if not isinstance(other, Sign):
            return NotImplemented
        return self._octets == other._octets

    def __hash__(self) -> int:
        return hash(self._octets)

    def __reduce__(self) -> tuple[Callable[..., Sign], tuple[bytes, Optional[str]]]:
        return type(self), (self._octets, self._named)

    def _call(self, name: str, *words: Any, answers: tuple[int, ...] = (DONE,)) -> int:
        return self._library.call(name, self._octets, len(self._octets), *words, answers=answers)

    def _told(self, name: str, room: int, *words: Any) -> bytes:
        """What a call tells, which may say how much room it needs."""
        count = c_size_t()
        buffer = create_string_buffer(room)
        if self._call(name, *words, buffer, len(buffer), byref(count), answers=(DONE, TOO_SMALL)) == TOO_SMALL:
            buffer = create_string_buffer(count.value)
            self._call(name, *words, buffer, len(buffer), byref(count))
        return buffer.raw[:count.value]

    def _check_all(self, texts: Iterable[Text]) -> bytes:
        """The verdicts on texts, as the library writes them."""
        given = texts_of(texts)
        if not given:
            return b""
        asked, room = Texts(given), (VerdictFacts * len(given))()
        self._call("check_all", asked.given, len(given), room, len(given))
        return bytes(room)

    def _picture(self, name: str, text: Text, *words: int) -> Picture:
        octets, buffer = octets_of(text), create_string_buffer(self.width * self.height)
        self._call(name, octets, len(octets), *words, buffer, len(buffer))
        return Picture(self.width, self.height, buffer.raw, self.classic)

    def _plane(self, name: str, text: Text, *words: int) -> Plane:
        octets, buffer = octets_of(text), create_string_buffer(stride_of(self.width) * self.height)
        self._call(name, octets, len(octets), *words, buffer, len(buffer))
        return Plane(self.width, self.height, buffer.raw)


def shown_of(facts: ShownFacts) -> Optional[Shown]:
    return Shown(facts.page, facts.phase) if facts.is_on else None
