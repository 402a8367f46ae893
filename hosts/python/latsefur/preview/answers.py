"""What the page is told of its sign and of the message that is written. All of it comes from the library."""
from __future__ import annotations

import hashlib
import re
import threading
from functools import lru_cache
from typing import Any, Optional, Sequence

from ..controller import Controller
from ..errors import TableFault
from ..picture import COLOURS, Picture
from ..sign import Sign, Verdict
from ..values import MultiError, Text, octets_of
from .tags import Tag, font_at, tags

# A message of more octets isn't judged, as `signctl` judges none; and at most this many tenths of a second are drawn for one question.
MOST_OCTETS = 4096
MOST_TENTHS = 100

# Characters of a font that are drawn on their buttons, and the pixels of all small signs that are
# drawn for one answer; one is always drawn.
MOST_DRAWN = 1024
MOST_SMALL = 1 << 20

# A bracket at the end: a lone `]`, or a tag that isn't closed; and the names that such a tag may still
# come to have. Which of them a sign takes, the sign says.
OPEN = re.compile(rb"\]|\[([^][]*)")
NAMES = b"nl np jl jp fo sc /sc pt fl /fl tr hc cf pb cb cr f g ms mv".split()

DIGITS = bytes(range(ord("0"), ord("0") + 10)) + bytes(246)


class TooLong(ValueError):
    """A message has more octets than are judged."""


class Answers:
    """The answers about one sign. Threads may share it."""

    def __init__(self, sign: Sign) -> None:
        self.sign = sign
        self.stamp = hashlib.sha256(sign.octets).hexdigest()[:16]
        self.font = lru_cache(maxsize=255)(self._font)
        self.drawing = threading.Lock()
        self.fonts = fonts_of(sign)
        self.default_font = default_font(sign, self.fonts)

    def facts(self) -> dict[str, Any]:
        """What the sign is like, and its fonts; `font` is the default one. `stamp` tells its sign
        file from others."""
        return {
            "width": self.sign.width,
            "height": self.sign.height,
            "pages": self.sign.max_pages,
            "classic": self.sign.classic,
            "stamp": self.stamp,
            "colours": list(COLOURS),
            "fonts": self.fonts,
            "font": self.default_font,
        }

    def taken(self, texts: Sequence[str]) -> list[bool]:
        """Whether each of these texts is accepted."""
        return list(map(bool, self.sign.check_all(text.encode("latin-1") for text in texts)))

    def tags(self) -> list[Tag]:
        """The tags with buttons that the sign has."""
        offered = tags(self.sign.classic, self.fonts)
        taken = self.taken([tag.message() for tag in offered])
        return [tag for tag, is_taken in zip(offered, taken) if is_taken]

    def small(self, texts: Sequence[str]) -> list[str]:
        """How each of these accepted texts begins, as a picture of digits. What isn't drawn is
        empty."""
        most = self.most_small()
        drawn = [digits(self.sign.colours(text).octets) for text in texts[:most]]
        return drawn + [""] * (len(texts) - len(drawn))

    def strip(self, text: Text, pages: int) -> list[str]:
        """How each of the pages of an accepted text begins, as a picture of digits, if there are
        several. Of very many not all are drawn."""
        octets = octets_of(text)
        drawn = range(min(pages, self.most_small()) if pages > 1 else 0)
        return [digits(self.sign.colours_of_page(octets, page).octets) for page in drawn]

    def most_small(self) -> int:
        """How many small signs are drawn for one answer."""
        return max(1, MOST_SMALL // (self.sign.width * self.sign.height))

    def font_at(self, text: str, caret: int) -> Optional[int]:
        """The font in force at the caret, if the sign has it."""
        number = font_at(text.encode("latin-1", "replace"), caret)
        return self.default_font if number not in self.fonts else number

    def picture(self, text: Text, page: Optional[int], time: int) -> Picture:
        """What is shown of a text: of a page at a phase, or of the message at a clock. Raises what
        `Sign.colours_of_page` does."""
        if page is None:
            return self.sign.colours(text, time)
        return self.sign.colours_of_page(text, page, time)

    def message(self, text: Text, view: Any, caret: int, begin: int, tenths: int) -> dict[str, Any]:
        """The verdict on a text and, if it is accepted, what is shown from `begin` on, for this many tenths of a second.

        `view` is a page by its number, from 0, and the times are then phases of it; or `"caret"`, the page on which the octet `caret` stands;
        or `None`, the message as it plays, and the times are then clocks. A page past the last one is the last one. A frame has its time, its
        page or `None` in an off time, and the place of its picture among the pictures. It stands until the next frame.

        A refused text is `unfinished` if more text can still mend it.

        Raises what `Sign.check` does, and `TooLong`.
        """
        octets = octets_of(text)
        if len(octets) > MOST_OCTETS:
            raise TooLong(f"{len(octets)} octets, and at most {MOST_OCTETS} are judged")
        verdict = self.sign.check(octets)
        if verdict.error is not None:
            return {
                "accepted": False,
                "at": verdict.at,
                "code": int(verdict.error),
                "name": name_of(verdict.error),
                "unfinished": is_unfinished(self.sign, octets, verdict),
            }
        if view == "caret":
            view = self._page_at(octets, caret) if verdict.pages > 1 else 0
        page = None if view is None else min(view, verdict.pages - 1)
        return {
            "accepted": True,
            "pages": verdict.pages,
            "cycle": verdict.cycle,
            "page": page,
            **self._film(octets, page, begin, min(tenths, MOST_TENTHS)),
        }

    def _film(self, octets: bytes, page: Optional[int], begin: int, tenths: int) -> dict[str, Any]:
        places: dict[bytes, int] = {}
        frames: list[tuple[int, Optional[int], int]] = []
        for time in range(begin, begin + tenths):
            if page is None:
                shown = self.sign.shown(octets, time)
                now, picture = None if shown is None else shown.page, self.sign.colours(
                    octets, time
                )
            else:
                now, picture = page, self.sign.colours_of_page(octets, page, time)
            place = places.setdefault(picture.octets, len(places))
            if not frames or frames[-1][1:] != (now, place):
                frames.append((time, now, place))
        return {
            "frames": frames,
            "until": begin + tenths,
            "pictures": [digits(known) for known in places],
        }

    def _page_at(self, octets: bytes, caret: int) -> int:
        """The page on which an octet of an accepted text stands. What stands before it is accepted up to a tag that it cuts in two."""
        before = self.sign.check(octets[:caret])
        if not before:
            before = self.sign.check(octets[: before.at])
        return max(before.pages, 1) - 1

    def _font(self, number: int) -> list[dict[str, Any]]:
        """The characters of a font: the number of each, what is written for it, and its picture by rows, cut to what is lit."""
        with self.drawing:
            asked = range(1, 65536)
            verdicts = self.sign.check_all(f"[fo{number}][hc{character:x}]" for character in asked)
            there = [character for character, verdict in zip(asked, verdicts) if is_there(verdict)]
            return [
                {
                    "number": character,
                    "text": written(character),
                    "rows": self._drawn(number, character) if place < MOST_DRAWN else [],
                }
                for place, character in enumerate(there)
            ]

    def _drawn(self, number: int, character: int) -> list[str]:
        text = f"[jp2][jl2][fo{number}][hc{character:x}]"
        return cut(self.sign.colours(text)) if self.sign.check(text) else []


def fonts_of(sign: Sign) -> list[int]:
    """The numbers of a sign's fonts."""
    verdicts = sign.check_all(f"[fo{number}]" for number in range(1, 256))
    there = enumerate((verdict.error != MultiError.FONT_NOT_DEFINED for verdict in verdicts), 1)
    return [number for number, is_defined in there if is_defined]


def default_font(sign: Sign, fonts: Sequence[int]) -> Optional[int]:
    """The font in force where no tag names one. A sign whose table has a fault can't be asked: its
    first font is given."""
    try:
        with Controller(sign) as controller:
            return controller.defaults().font
    except TableFault:
        return next(iter(fonts), None)


def is_there(verdict: Verdict) -> bool:
    """Whether a sign has the font and the character of such a text, by its verdict: the character may be too wide for the sign."""
    return verdict.accepted or verdict.error == MultiError.TEXT_TOO_BIG


def is_unfinished(sign: Sign, octets: bytes, verdict: Verdict) -> bool:
    """Whether what is wrong with a text is a bracket at its end that more text can mend: a `]` that a
    second one makes a character, or a tag whose name the sign takes, or whose beginning may become
    such a name."""
    bracket = OPEN.fullmatch(octets, verdict.at)
    if verdict.error != MultiError.UNSUPPORTED_TAG or bracket is None:
        return False
    begun = bracket[1]
    if begun is None:
        return True
    ends = [name[len(begun) :] for name in NAMES if name.startswith(begun.lower())] or [b""]
    closed = sign.check_all(octets + end + b"]" for end in ends)
    return any((one.error, one.at) != (verdict.error, verdict.at) for one in closed)


def name_of(error: MultiError) -> str:
    """The name of an error as NTCIP 1203 writes it."""
    first, *others = error.name.lower().split("_")
    return first + "".join("ID" if word == "id" else word.capitalize() for word in others)


def written(character: int) -> str:
    """What a message has for a character: itself, if it is printed ASCII, or its number. So the message means the same in a file of UTF-8."""
    return chr(character) if 32 <= character < 127 and chr(character) not in "[]" else f"[hc{character:x}]"


def digits(octets: bytes) -> str:
    """The colours of a picture, a digit for each pixel."""
    return octets.translate(DIGITS).decode("ascii")


def cut(picture: Picture) -> list[str]:
    """The rows of a picture, without those around it that are all of one colour, that of the last pixel."""
    rows = [digits(row) for row in picture.rows()]
    ground = rows[-1][-1]
    lit = [place for place, row in enumerate(rows) if row.strip(ground)]
    if not lit:
        return []
    rows = rows[lit[0] : lit[-1] + 1]
    left = min(len(row) - len(row.lstrip(ground)) for row in rows)
    right = max(len(row.rstrip(ground)) for row in rows)
    return [row[left:right] for row in rows]
