"""Tags that the page has buttons for, and the font that is in force at the caret."""
from __future__ import annotations

import re
from dataclasses import dataclass
from typing import Optional, Sequence

from ..picture import COLOURS

# A doubled bracket, which begins no tag, or a tag that names a font.
FONT_TAG = re.compile(rb"\[\[|\[fo(\d*)(?:,[0-9a-f]*)?\]", re.IGNORECASE)

# The seconds for which a page is shown that have a button.
SECONDS = (1, 2, 3, 5, 10)


@dataclass(frozen=True)
class Tag:
    """A tag that has a button.

    `group` and `name` are what the page calls it; a tag without a group stands alone. `open` is
    written before what is chosen and `close` after it. `pairs` is whether both are written if
    nothing is chosen, and `replaces` whether what is chosen is replaced. A sign has the tag if it
    accepts `tried`, or if that is empty, both parts.
    """

    group: str
    name: str
    open: str
    close: str = ""
    pairs: bool = False
    replaces: bool = False
    tried: str = ""

    def message(self) -> str:
        """A message that a sign with the tag accepts."""
        return self.tried or self.open + self.close

    def facts(self) -> dict[str, object]:
        """What the page is told of it."""
        told = ("group", "name", "open", "close", "pairs", "replaces")
        return {name: getattr(self, name) for name in told}


LONE = (
    Tag("", "New line", "[nl]", replaces=True),
    Tag("", "New page", "[np]", replaces=True),
    Tag("", "Flash", "[fl]", "[/fl]", pairs=True),
)
LINES = tuple(
    Tag("Justify line", name, f"[jl{number}]") for number, name in enumerate(("left", "centre", "right"), 2)
)
PAGES = tuple(
    Tag("Justify page", name, f"[jp{number}]") for number, name in enumerate(("top", "middle", "bottom"), 2)
)
# Times matter where a message has several pages.
TIMES = tuple(
    Tag("Page time", f"{seconds} s", f"[pt{10 * seconds}]", tried=f"[pt{10 * seconds}][np]")
    for seconds in SECONDS
)


def tags(classic: bool, fonts: Sequence[int]) -> list[Tag]:
    """The tags that a sign with these fonts may have. One colour or one font is no choice."""
    colours = COLOURS if classic else ()
    several = fonts if len(fonts) > 1 else ()
    return [
        *LONE,
        *(Tag("Colour", name, f"[cf{number}]", "[cf]") for number, name in enumerate(colours)),
        *(Tag("Font", f"font {number}", f"[fo{number}]", "[fo]") for number in several),
        *LINES,
        *PAGES,
        *TIMES,
    ]


def font_at(octets: bytes, caret: int) -> Optional[int]:
    """The font that the last tag before the caret names, or `None` if the default is in force."""
    named = [tag[1] for tag in FONT_TAG.finditer(octets, 0, caret) if tag[1] is not None]
    return int(named[-1]) if named and named[-1] else None
