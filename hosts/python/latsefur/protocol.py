"""What a controller and a simulated sign have in common, so that a program can be written for either."""
from __future__ import annotations

from types import TracebackType
from typing import TYPE_CHECKING, Optional, Protocol, SupportsIndex, TypeVar, Union, runtime_checkable

from .controller import NO_END, ActivationCode, EndCode
from .replies import Defaults, Display, Frame, Message, Reply, Report, Worked
from .sign import Verdict
from .values import Memory, Octets, Text

if TYPE_CHECKING:
    from .controller import Controller
    from .simulated import SimulatedSign

Own = TypeVar("Own")


@runtime_checkable
class MessageSign(Protocol):
    """A sign that keeps messages and shows them: a `Controller`, or a `SimulatedSign`.

    A refusal raises `CommandRefused`, whose `reply` says why; only those of `activate`, `set_end`, `set_default` and `clear` are values for a
    controller that isn't strict. Numbers that don't go into their fields raise `ValueError`. Times are in tenths of a second, and durations in
    minutes. Messages are numbered from 1.
    """

    @property
    def width(self) -> int:
        """How many pixels a row has."""

    @property
    def height(self) -> int:
        """How many rows the sign has."""

    def store(
        self, number: SupportsIndex, text: Text, *, owner: Text = b"", priority: SupportsIndex = 1, beacon: SupportsIndex = 0,
        pixel_service: SupportsIndex = 0,
    ) -> None:
        """Writes a changeable message, which is then in modifying."""

    def validate(self, number: SupportsIndex) -> Worked:
        """Has a changeable message judged, which becomes valid."""

    def show(
        self, number: SupportsIndex, *, duration: SupportsIndex = NO_END, priority: SupportsIndex = 255,
        memory: SupportsIndex = Memory.CHANGEABLE,
    ) -> None:
        """Shows a message as it stands."""

    def activate(self, code: Union[ActivationCode, Octets]) -> Reply:
        """Shows a message, named by a code or by its 12 octets."""

    def set_end(self, code: Union[EndCode, Octets]) -> Reply:
        """Names the message that follows a duration, by a code or by its 5 octets."""

    def set_default(self, field: SupportsIndex, value: SupportsIndex) -> Reply:
        """Sets a default, one of `Default`."""

    def clear(self) -> Reply:
        """Empties every slot."""

    def tick(self, tenths: SupportsIndex) -> Reply:
        """Lets time pass: `Ticked` or `Ended`."""

    def message(self, memory: SupportsIndex, number: SupportsIndex) -> Message:
        """A message."""

    def report(self) -> Report:
        """The state of the sign."""

    def defaults(self) -> Defaults:
        """The defaults in force."""

    def check(self, text: Text) -> Verdict:
        """The verdict on a text by the defaults in force. A simulated sign takes a text of at most 4,096 octets, and
        doesn't tell the `cycle`, which is then 0."""

    def frame(self, colour: SupportsIndex = 1) -> Frame:
        """What the display shows now, and which pixels have a colour."""

    def colours(self) -> Display:
        """What the display shows now, in its colours."""

    def next_change(self, most: SupportsIndex) -> int:
        """For how many tenths of a second, at most `most`, what the display shows stays as it is if no command comes."""

    def save(self) -> bytes:
        """The state as octets that `restore` takes. A simulated sign saves at most 4,146."""

    def restore(self, octets: Octets) -> None:
        """Restores what a sign of the same sign file saved, of either kind."""

    def close(self) -> None:
        """Ends it."""

    def __enter__(self: Own) -> Own:
        """Gives itself."""

    def __exit__(
        self, kind: Optional[type[BaseException]], fault: Optional[BaseException], trace: Optional[TracebackType]
    ) -> None:
        """Closes it."""


if TYPE_CHECKING:

    def both(controller: Controller, simulated: SimulatedSign) -> tuple[MessageSign, MessageSign]:
        """Mypy holds both to the protocol by this."""
        return controller, simulated
