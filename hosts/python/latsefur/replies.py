"""What a controller replies: a value for each kind of reply. `str` writes it as `signctl run` does."""
from __future__ import annotations

from dataclasses import dataclass
from typing import Optional, Union

from .errors import CommandRefused
from .picture import Picture, Plane, Shown
from .values import ActivateError, DefaultError, MultiError, SourceMode, Status, TableError, ValidateError


class Reply:
    """The base of the replies. Those that refuse a command are false, and all others true."""

    __slots__ = ()

    def __str__(self) -> str:
        return type(self).__name__.lower()


class Refusal(Reply):
    """The base of the replies that refuse a command: `Refused`, `NotShown` and `NotSet`."""

    __slots__ = ()

    def __bool__(self) -> bool:
        return False


def obeyed(reply: Reply) -> Reply:
    """A reply that is no refusal, which raises `CommandRefused`."""
    if not reply:
        raise CommandRefused(reply)
    return reply


@dataclass(frozen=True)
class Done(Reply):
    """The command was obeyed."""


@dataclass(frozen=True)
class Refused(Refusal):
    """The message table refuses the command, and nothing has changed."""

    why: TableError

    def __str__(self) -> str:
        return f"refused {int(self.why)}"


@dataclass(frozen=True)
class Idle(Reply):
    """No message waits to be judged."""


@dataclass(frozen=True)
class Worked(Reply):
    """A message was judged.

    `number` is its number among the changeable ones, and `status` what it became: valid or error. The others are the registers after it;
    `multi_position` is the octet of the error, counted from 0.
    """

    number: int
    status: Status
    validate_error: ValidateError
    multi_error: MultiError
    multi_position: int

    @property
    def why(self) -> Union[MultiError, ValidateError]:
        """Why the message isn't valid: what is wrong with its text, or with the rest of it. NONE of a valid one."""
        return self.multi_error if self.validate_error == ValidateError.SYNTAX_MULTI else self.validate_error

    def __str__(self) -> str:
        return f"worked {self.number} {int(self.status)} {int(self.validate_error)} {int(self.multi_error)} {self.multi_position}"


@dataclass(frozen=True)
class Activated(Reply):
    """The message is shown."""

    def __str__(self) -> str:
        return "shown"


@dataclass(frozen=True)
class NotShown(Refusal):
    """The message isn't shown, and the display keeps what it shows."""

    why: ActivateError

    def __str__(self) -> str:
        return f"not shown {int(self.why)}"


@dataclass(frozen=True)
class NotSet(Refusal):
    """The sign refuses the default."""

    why: DefaultError

    def __str__(self) -> str:
        return f"refused {int(self.why)}"


@dataclass(frozen=True)
class Ticked(Reply):
    """Time has passed."""


@dataclass(frozen=True)
class Ended(Reply):
    """Time has passed, and a duration has ended."""


def hexadecimal(octets: bytes) -> str:
    return octets.hex() or "-"


@dataclass(frozen=True)
class Message:
    """A message of the table (object dmsMessageTable).

    `crc` is 0 of a blank message, `priority` 1 to 255, and `beacon` and `pixel_service` 0 or 1.
    """

    memory: int
    number: int
    status: Status
    priority: int
    beacon: int
    pixel_service: int
    crc: int
    owner: bytes
    text: bytes

    def __str__(self) -> str:
        numbers = f"{self.memory} {self.number} {int(self.status)} {self.priority} {self.beacon} {self.pixel_service}"
        return f"row {numbers} {self.crc:04x} {hexadecimal(self.owner)} {hexadecimal(self.text)}"


@dataclass(frozen=True)
class Report:
    """The state of the sign.

    `clock` is in tenths of a second since the display began to show the message, and 2**64 - 1 may stand for more. `remaining` is in
    minutes, rounded up; 65,535 has no end. `free` is in octets. `activate`, `validate`, `multi` and `position` are the registers.
    """

    used: int
    free: int
    mode: SourceMode
    shown_memory: int
    shown_number: int
    crc: int
    priority: int
    remaining: int
    requester: int
    activate: ActivateError
    validate: ValidateError
    multi: MultiError
    position: int
    clock: int

    def __str__(self) -> str:
        return (
            f"report used={self.used} free={self.free} mode={int(self.mode)} shown={self.shown_memory}/{self.shown_number}"
            f" crc={self.crc:04x} priority={self.priority} remaining={self.remaining} requester={self.requester:08x}"
            f" activate={int(self.activate)} validate={int(self.validate)} multi={int(self.multi)} position={self.position}"
            f" clock={self.clock}"
        )


@dataclass(frozen=True)
class Defaults:
    """The defaults in force (group multiCfg). Times are in tenths of a second."""

    font: int
    line: int
    page: int
    page_on: int
    page_off: int
    flash_on: int
    flash_off: int
    fore: int
    back: int

    def __str__(self) -> str:
        times = f"{self.page_on} {self.page_off} {self.flash_on} {self.flash_off}"
        return f"defaults {self.font} {self.line} {self.page} {times} {self.fore} {self.back}"


@dataclass(frozen=True)
class Frame:
    """What the display shows now: the page, or `None` in the off time of one, and which pixels have the colour that was asked for."""

    shown: Optional[Shown]
    plane: Plane

    def __str__(self) -> str:
        return f"{self.shown or 'off'}\n{self.plane}"


@dataclass(frozen=True)
class Display:
    """What the display shows now: the page, or `None` in the off time of one, and the colour of every pixel."""

    shown: Optional[Shown]
    picture: Picture


@dataclass(frozen=True)
class Table:
    """The limits of a message table: the octets of all texts and owners together, how many changeable messages there are, the octets of one
    text, and how many permanent messages there are."""

    bytes: int
    slots: int
    max_string: int
    permanents: int


@dataclass(frozen=True)
class Font:
    """A font of a sign (object fontTable). Height and spacings are in pixels; version 0 is none."""

    version: int
    number: int
    height: int
    char_spacing: int
    line_spacing: int
