"""What goes wrong, by name.

`LatsefurError` is the base of all. A text that a sign refuses is no error of `Sign.check`: its verdict says why. It is one for the calls
that draw a text, which have no answer then.
"""
from __future__ import annotations

from typing import TYPE_CHECKING, Optional

if TYPE_CHECKING:
    from .replies import Reply
    from .values import StateFault


class LatsefurError(Exception):
    """The base of what this package raises on its own."""


class LibraryNotFound(LatsefurError, OSError):
    """No shared library is there. The message says where one was looked for."""


class WrongLibrary(LatsefurError, ImportError):
    """A library is there, but it isn't Latsefur's, or it is older than this package."""


class NotAnOctet(LatsefurError, ValueError):
    """A text has a character above U+00FF, which no octet of a MULTI string names. `[hc..]` names it by its number, up to U+FFFF."""

    def __init__(self, text: str, at: int) -> None:
        number = ord(text[at])
        how = f"in MULTI it is written [hc{number:x}]" if number <= 0xFFFF else "MULTI has no number for it"
        super().__init__(f"{text[at]!r} at {at} is no octet; {how}")
        self.text = text
        self.at = at

    def __reduce__(self) -> tuple[type[NotAnOctet], tuple[str, int]]:
        return type(self), (self.text, self.at)


class CommandRefused(LatsefurError):
    """The sign refuses a command. `reply` says why: a `Refused`, `NotShown` or `NotSet`, or what came of judging a message that isn't valid."""

    def __init__(self, reply: Optional[Reply]) -> None:
        super().__init__(reply)
        self.reply = reply

    def __str__(self) -> str:
        return f"the sign replies {str(self.reply)!r}{because(self.reply)}"


def because(reply: Optional[Reply]) -> str:
    """The sentence of why a reply refuses, behind a colon, if it says why."""
    why = getattr(reply, "why", None)
    return "" if why is None else f": {why}"


class StateRefused(LatsefurError, ValueError):
    """Saved octets aren't taken. `why` says why: a `StateFault`."""

    def __init__(self, why: StateFault) -> None:
        super().__init__(why)
        self.why = why

    def __str__(self) -> str:
        return f"the saved octets aren't taken: {self.why}"


class Outcome(LatsefurError):
    """An outcome of the library that gives no answer. `number` is that of `hosts/latsefur.h`."""

    number = 0
    said = "the library has no such outcome"

    def __init__(self, said: Optional[str] = None) -> None:
        super().__init__(said or self.said)


class TextRefused(Outcome, ValueError):
    """The sign refuses the text; `Sign.check` tells why."""

    number, said = 1, "the sign refuses the text"


class NoMemory(Outcome, MemoryError):
    """Memory was refused. The same call may succeed later."""

    number, said = 2, "memory was refused"


class NoSignFile(Outcome, ValueError):
    """The octets aren't a sign file; `signctl sign` says where they are wrong."""

    number, said = 3, "the octets can't be read as a sign file"


class SignFault(Outcome, ValueError):
    """The sign file can be read, but its sign is outside a limit; `signctl sign` says which."""

    number, said = 4, "the sign of the sign file is outside its limits"


class TooSmall(Outcome):
    """A buffer is too small. This package makes its buffers as large as they must be, so it isn't seen."""

    number, said = 5, "a buffer is too small"


class NoPage(Outcome, IndexError):
    """The text has no page of this number."""

    number, said = 6, "the text has no such page"


class TextTooLong(Outcome, ValueError):
    """The text has 4,294,967,296 octets or more, and isn't judged."""

    number, said = 7, "the text has 2**32 octets or more"


class TableFault(Outcome, ValueError):
    """The sign is sound, but the message table of its sign file is outside a limit."""

    number, said = 8, "the message table of the sign file is outside its limits"


class NoController(Outcome, ValueError):
    """The controller was closed."""

    number, said = 9, "the controller is closed"


class BadLength(Outcome, ValueError):
    """An activation code hasn't 12 octets, or the code of `set_end` 5."""

    number, said = 10, "the code hasn't the length that it must have"


class NoDefault(Outcome, ValueError):
    """The number names no default."""

    number, said = 11, "no default has this number"


class NoFont(Outcome, LookupError):
    """The sign has no font of this number."""

    number, said = 12, "the sign has no such font"


class BadValue(Outcome, ValueError):
    """A number of a film is outside its range. This package looks at them first, so it isn't seen."""

    number, said = 13, "a number is outside its range"


class LargeFilm(Outcome, ValueError):
    """The film would have more than 64,000,000 octets."""

    number, said = 14, "the film would have more than 64,000,000 octets"


class LongFilm(Outcome, ValueError):
    """The text begins anew after more than ten minutes; a film of so many seconds may be asked for."""

    number, said = 15, "the text begins anew after more than ten minutes"


NAMED: dict[int, type[Outcome]] = {
    known.number: known
    for known in (
        TextRefused, NoMemory, NoSignFile, SignFault, TooSmall, NoPage, TextTooLong, TableFault, NoController, BadLength, NoDefault,
        NoFont, BadValue, LargeFilm, LongFilm,
    )
}


def named(outcome: int) -> Outcome:
    """The error of an outcome, by its number."""
    known = NAMED.get(outcome)
    return known() if known else Outcome(f"the library has no outcome {outcome}")
