"""A controller, which keeps the messages of one sign and what the sign shows."""
from __future__ import annotations

import threading
import weakref
from ctypes import byref, c_size_t, c_uint8, c_uint32, c_uint64, create_string_buffer
from dataclasses import dataclass
from types import TracebackType
from typing import Any, NoReturn, Optional, SupportsIndex, Union

from .errors import CommandRefused, StateRefused
from .library import (
    DONE, REFUSED, DefaultFacts, FontFacts, Handle, Library, MessageFacts, PathLike, ReplyFacts, ReportFacts, ShownFacts, TableFacts, VerdictFacts,
    load,
)
from .picture import Picture, Plane, stride_of
from .replies import (
    Activated, Defaults, Display, Done, Ended, Font, Frame, Idle, Message, NotSet, NotShown, Refused, Reply, Report, Table, Ticked, Worked, obeyed
)
from .sign import MOST_CLOCK, Sign, Verdict, shown_of, told_verdict
from .values import (
    ActivateError, DefaultError, Memory, MultiError, Octets, Request, SourceMode, StateFault, Status, TableError, Text, ValidateError, number_of,
    octets_of, raw_octets,
)

# A text has at most 4,096 octets in the table of any sign, and an owner 127.
MOST_TEXT, MOST_OWNER = 4096, 127

NO_END = 65535


@dataclass(frozen=True)
class ActivationCode:
    """Which message is shown, for how long, and who asks (dmsActivateMessage). `bytes` writes its 12 octets.

    `duration` is in minutes, 0 to 65,535, and `NO_END` (65,535) has no end; `priority` is 0 to 255; `requester` an address of four octets,
    as a number. `message_crc` gives the CRC of a text.
    """

    memory: int
    number: int
    crc: int
    duration: int = NO_END
    priority: int = 255
    requester: int = 0x7F000001

    def __bytes__(self) -> bytes:
        fields = (
            ("duration", self.duration, 2), ("priority", self.priority, 1), ("memory", self.memory, 1), ("number", self.number, 2),
            ("crc", self.crc, 2), ("requester", self.requester, 4),
        )
        return written(fields)


@dataclass(frozen=True)
class EndCode:
    """The message that follows a duration (dmsEndDurationMessage). `bytes` writes its 5 octets."""

    memory: int
    number: int
    crc: int

    def __bytes__(self) -> bytes:
        return written((("memory", self.memory, 1), ("number", self.number, 2), ("crc", self.crc, 2)))


def written(fields: tuple[tuple[str, int, int], ...]) -> bytes:
    """Numbers as octets, the high octet of each first."""
    return b"".join(number_of(name, value, 256**count - 1).to_bytes(count, "big") for name, value, count in fields)


def message_crc(text: Text, beacon: SupportsIndex = 0, pixel_service: SupportsIndex = 0, library: Optional[PathLike] = None) -> int:
    """The CRC of a message's text, beacon and pixel service (dmsMessageCRC), which an activation code has."""
    octets = octets_of(text)
    switches = number_of("beacon", beacon, 255), number_of("pixel_service", pixel_service, 255)
    return int(load(library).calls["message_crc"](octets, len(octets), *switches))


def reply_of(facts: ReplyFacts) -> Reply:
    """The value of a reply's kind, by its number in `hosts/latsefur.h`."""
    if facts.kind == 1:
        return Refused(TableError(facts.code))
    if facts.kind == 3:
        validate, multi = ValidateError(facts.validate_error), MultiError(facts.multi_error)
        return Worked(facts.number, Status(facts.status), validate, multi, facts.multi_position)
    if facts.kind == 5:
        return NotShown(ActivateError(facts.code))
    if facts.kind == 6:
        return NotSet(DefaultError(facts.code))
    return {0: Done, 2: Idle, 4: Activated, 7: Ticked, 8: Ended}[facts.kind]()


def free(library: Library, handle: Handle) -> None:
    library.calls["controller_free"](byref(handle))


class Controller:
    """The controller of a sign: its message table, what the sign shows, its clock and its defaults. `docs/messages.md` says what each command
    does, and a reply says what came of it.

        with Controller(sign, strict=True) as controller:
            controller.store(1, "ROAD[np]WORK")
            controller.validate(1)
            controller.show(1, duration=1)

    A reply that refuses a command is false, and if the controller is `strict`, it is raised as `CommandRefused`. `store`, `validate`, `show` and
    `message` raise it always.

    Nothing runs between calls: time passes by `tick` alone. Threads may share it; each call waits until the one before it has returned. It
    can't be copied or pickled. `close`, the end of `with`, or the end of the object gives back its memory, and a closed one raises
    `NoController`. Memory types are those of `Memory`, and messages are numbered from 1; a number that doesn't go into its field raises
    `ValueError`, and any other is the controller's to judge.

    Raises `TableFault` if the message table of the sign file is outside a limit, and `NoMemory`. No other call takes memory of the library.
    """

    def __init__(self, sign: Sign, *, strict: bool = False) -> None:
        self._sign = sign
        self._strict = strict
        self._lock = threading.RLock()
        self._handle = Handle()
        sign.library.call("controller_new", sign.octets, len(sign.octets), byref(self._handle))
        self._free = weakref.finalize(self, free, sign.library, self._handle)
        self._free.atexit = False  # a thread may still be in a call then, and the memory goes with the process

    @classmethod
    def from_file(cls, path: PathLike, library: Union[Library, PathLike, None] = None, *, strict: bool = False) -> Controller:
        """The controller of the sign of a file. Raises what `Sign.from_file` and the class raise."""
        return cls(Sign.from_file(path, library), strict=strict)

    @property
    def sign(self) -> Sign:
        """The sign, as its file describes it; `defaults` has the defaults in force."""
        return self._sign

    @property
    def width(self) -> int:
        """How many pixels a row of the sign has, 1 to 1,024."""
        return self._sign.width

    @property
    def height(self) -> int:
        """How many rows the sign has, 1 to 128."""
        return self._sign.height

    def close(self) -> None:
        """Gives back the controller's memory. A second call does nothing."""
        with self._lock:
            self._free()

    def __enter__(self) -> Controller:
        return self

    def __exit__(
        self, kind: Optional[type[BaseException]], fault: Optional[BaseException], trace: Optional[TracebackType]
    ) -> None:
        self.close()

    def __copy__(self) -> NoReturn:
        raise TypeError("a controller can't be copied")

    def __deepcopy__(self, memo: dict[int, Any]) -> NoReturn:
        raise TypeError("a controller can't be copied")

    def __reduce__(self) -> NoReturn:
        raise TypeError("a controller can't be pickled")

    # A message in one step, without its codes. A refusal is raised.

    def store(
        self, number: SupportsIndex, text: Text, *, owner: Text = b"", priority: SupportsIndex = 1, beacon: SupportsIndex = 0,
        pixel_service: SupportsIndex = 0,
    ) -> None:
        """Writes a changeable message, which is then in modifying; `validate` makes it ready to be shown. Raises `CommandRefused`, and what was
        written before the refusal stays."""
        place, octets, owned = (Memory.CHANGEABLE, number_of("number", number, 65535)), octets_of(text), octets_of(owner)
        values = number_of("priority", priority, 255), number_of("beacon", beacon, 255), number_of("pixel_service", pixel_service, 255)
        with self._lock:
            obeyed(self.request(*place, Request.MODIFY))
            obeyed(self.set_multi(*place, octets))
            obeyed(self.set_owner(*place, owned))
            obeyed(self.set_priority(*place, values[0]))
            obeyed(self.set_beacon(*place, values[1]))
            obeyed(self.set_pixel_service(*place, values[2]))

    def validate(self, number: SupportsIndex) -> Worked:
        """Has a changeable message judged. Others that wait and have lower numbers are judged before it. Raises `CommandRefused` if it doesn't
        become valid, or can't be judged."""
        wanted = number_of("number", number, 65535)
        with self._lock:
            obeyed(self.request(Memory.CHANGEABLE, wanted, Request.VALIDATE))
            judged = self.work()
            while isinstance(judged, Worked) and judged.number != wanted:
                judged = self.work()
        if not isinstance(judged, Worked) or judged.status != Status.VALID:
            raise CommandRefused(judged)
        return judged

    def show(
        self, number: SupportsIndex, *, duration: SupportsIndex = NO_END, priority: SupportsIndex = 255,
        memory: SupportsIndex = Memory.CHANGEABLE,
    ) -> None:
        """Shows a message as it stands, whose CRC the controller tells; the address of who asks is 0. `duration` is in minutes, and `NO_END` has
        no end. Raises `CommandRefused` if it isn't shown, or isn't there."""
        asked = message_of(memory, number)
        times = number_of("duration", duration, 65535), number_of("priority", priority, 255)
        with self._lock:
            crc = self.message(*asked).crc
            obeyed(self.activate(ActivationCode(*asked, crc, *times, requester=0)))

    # Writing and judging messages.

    def request(self, memory: SupportsIndex, number: SupportsIndex, status: SupportsIndex) -> Reply:
        """Asks for a status, one of `Request`. A message waits until `work` judges it. `Done` or `Refused`."""
        return self._set("request", memory, number, "status", status)

    def set_multi(self, memory: SupportsIndex, number: SupportsIndex, text: Text) -> Reply:
        """Sets the text. `Done` or `Refused`."""
        octets = octets_of(text)
        return self._ask("set_multi", *message_of(memory, number), octets, len(octets))

    def set_owner(self, memory: SupportsIndex, number: SupportsIndex, owner: Text) -> Reply:
        """Sets the owner, of at most 127 octets. `Done` or `Refused`."""
        octets = octets_of(owner)
        return self._ask("set_owner", *message_of(memory, number), octets, len(octets))

    def set_priority(self, memory: SupportsIndex, number: SupportsIndex, value: SupportsIndex) -> Reply:
        """Sets the run-time priority, 1 to 255. `Done` or `Refused`."""
        return self._set("set_priority", memory, number, "value", value)

    def set_beacon(self, memory: SupportsIndex, number: SupportsIndex, value: SupportsIndex) -> Reply:
        """Sets the beacon, 0 or 1. `Done` or `Refused`."""
        return self._set("set_beacon", memory, number, "value", value)

    def set_pixel_service(self, memory: SupportsIndex, number: SupportsIndex, value: SupportsIndex) -> Reply:
        """Sets the pixel service, 0 or 1. `Done` or `Refused`."""
        return self._set("set_pixel_service", memory, number, "value", value)

    def clear(self) -> Reply:
        """Empties every slot. `Done`."""
        return self._ask("clear")

    def work(self) -> Reply:
        """Judges the message that waits. `Worked` or `Idle`."""
        return self._ask("work")

    # Showing messages.

    def activate(self, code: Union[ActivationCode, Octets]) -> Reply:
        """Shows a message, named by a code or by its 12 octets. `Activated` or `NotShown`. Raises `BadLength` for another number of octets."""
        octets = bytes(code) if isinstance(code, ActivationCode) else raw_octets("a code", code, "an ActivationCode or its octets")
        return self._ask("activate", octets, len(octets))

    def set_end(self, code: Union[EndCode, Octets]) -> Reply:
        """Names the message that follows a duration, by a code or by its 5 octets. `Done`. Raises `BadLength` for another number of octets."""
        octets = bytes(code) if isinstance(code, EndCode) else raw_octets("a code", code, "an EndCode or its octets")
        return self._ask("set_end", octets, len(octets))

    def tick(self, tenths: SupportsIndex) -> Reply:
        """Lets tenths of a second pass, 0 to 2**32 - 1. `Ticked` or `Ended`."""
        return self._ask("tick", number_of("tenths", tenths, 2**32 - 1))

    def set_default(self, field: SupportsIndex, value: SupportsIndex) -> Reply:
        """Sets a default, one of `Default`, to 0 to 255. `Done` or `NotSet`. Raises `NoDefault` if the number names none."""
        return self._ask("set_default", number_of("field", field, 255), number_of("value", value, 255))

    # Questions. They change nothing but the count of steps, by `frame`.

    def report(self) -> Report:
        """The state of the sign."""
        facts = ReportFacts()
        self._call("report", byref(facts))
        told: dict[str, Any] = {name: getattr(facts, name) for name, *_ in ReportFacts._fields_}
        kinds: dict[str, Any] = {"mode": SourceMode, "activate": ActivateError, "validate": ValidateError, "multi": MultiError}
        return Report(**told | {name: kind(told[name]) for name, kind in kinds.items()})

    def message(self, memory: SupportsIndex, number: SupportsIndex) -> Message:
        """A message. Memory type 5 and number 1 is what the display shows. Raises `CommandRefused`, whose reply says why there is none."""
        asked = message_of(memory, number)
        facts, text, owner = MessageFacts(), create_string_buffer(MOST_TEXT), create_string_buffer(MOST_OWNER)
        outcome = self._call("row", *asked, byref(facts), text, MOST_TEXT, owner, MOST_OWNER, answers=(DONE, REFUSED))
        if outcome == REFUSED:
            raise CommandRefused(Refused(TableError(facts.code)))
        return Message(
            *asked, Status(facts.status), facts.priority, facts.beacon, facts.pixel, facts.crc, owner.raw[:facts.owner], text.raw[:facts.multi]
        )

    def defaults(self) -> Defaults:
        """The defaults in force."""
        facts = DefaultFacts()
        self._call("defaults", byref(facts))
        return Defaults(*(getattr(facts, name) for name, *_ in DefaultFacts._fields_))

    def frame(self, colour: SupportsIndex = 1) -> Frame:
        """What the display shows now: the page, and which pixels have a colour, 0 to 255; none has one above 9."""
        width, height = self._sign.width, self._sign.height
        shown, plane = ShownFacts(), create_string_buffer(stride_of(width) * height)
        self._call("frame", number_of("colour", colour, 255), byref(shown), plane, len(plane))
        return Frame(shown_of(shown), Plane(width, height, plane.raw))

    def colours(self) -> Display:
        """What the display shows now, in its colours. This and the calls below need a library of version 2, and raise `WrongLibrary`."""
        width, height = self._sign.width, self._sign.height
        shown, buffer = ShownFacts(), create_string_buffer(width * height)
        self._call("colours", byref(shown), buffer, len(buffer))
        return Display(shown_of(shown), Picture(width, height, buffer.raw, self._sign.classic))

    def next_change(self, most: SupportsIndex = 2**32 - 1) -> int:
        """For how many tenths of a second, at most `most`, what the display shows stays as it is if no command comes."""
        tenths = c_uint32()
        self._call("next_change", number_of("most", most, 2**32 - 1), byref(tenths))
        return tenths.value

    def table(self) -> Table:
        """The limits of the message table."""
        facts = TableFacts()
        self._call("held_table", byref(facts))
        return Table(*(getattr(facts, name) for name, *_ in TableFacts._fields_))

    def font(self, number: SupportsIndex) -> Font:
        """The font of a number, 0 to 255. Raises `NoFont`."""
        facts = FontFacts()
        self._call("held_font", number_of("number", number, 255), byref(facts))
        return Font(*(getattr(facts, name) for name, *_ in FontFacts._fields_))

    def check(self, text: Text) -> Verdict:
        """The verdict on a text, as `Sign.check` gives it, but by the defaults in force, and without a look at the sign file."""
        octets, facts = octets_of(text), VerdictFacts()
        self._call("held_check", octets, len(octets), byref(facts), answers=(DONE, REFUSED))
        return told_verdict(facts.at, facts.cycle, facts.outcome, facts.code, facts.pages)

    def colours_of_page(self, text: Text, page: SupportsIndex, phase: SupportsIndex = 0) -> Picture:
        """The colour of every pixel of a page of a text, by the defaults in force. What the display shows stays. Raises `TextRefused` and
        `NoPage`."""
        octets, width, height = octets_of(text), self._sign.width, self._sign.height
        words, buffer = (number_of("page", page, 255), number_of("phase", phase, MOST_CLOCK)), create_string_buffer(width * height)
        self._call("held_colours_of_page", octets, len(octets), *words, buffer, len(buffer))
        return Picture(width, height, buffer.raw, self._sign.classic)

    def plane_of_page(self, text: Text, page: SupportsIndex, colour: SupportsIndex = 1, phase: SupportsIndex = 0) -> Plane:
        """Which pixels of a page of a text have a colour, by the defaults in force. Raises `TextRefused` and `NoPage`."""
        octets, width, height = octets_of(text), self._sign.width, self._sign.height
        words = number_of("page", page, 255), number_of("phase", phase, MOST_CLOCK), number_of("colour", colour, 255)
        buffer = create_string_buffer(stride_of(width) * height)
        self._call("held_plane_of_page", octets, len(octets), *words, buffer, len(buffer))
        return Plane(width, height, buffer.raw)

    def steps(self) -> int:
        """The steps that were counted; 2**64 - 1 may stand for more."""
        steps = c_uint64()
        self._call("steps", byref(steps))
        return steps.value

    # The state as octets, for a host that survives a loss of power. These calls need a library of version 3.

    def save(self) -> bytes:
        """The messages, what the display shows and since when, the defaults and the codes, as octets that `restore` takes."""
        with self._lock:
            size, count = c_size_t(), c_size_t()
            self._call("save_size", byref(size))
            buffer = create_string_buffer(size.value)
            self._call("save", buffer, len(buffer), byref(count))
            return buffer.raw[:count.value]

    def restore(self, octets: Octets) -> None:
        """Restores what a controller of the same sign file saved. Raises `StateRefused`, and then only the count of steps has changed."""
        saved, fault = raw_octets("octets", octets), c_uint8()
        if self._call("restore", saved, len(saved), byref(fault), answers=(DONE, REFUSED)) == REFUSED:
            raise StateRefused(StateFault(fault.value))

    def revision(self) -> int:
        """A number that rises whenever more than the time has changed of what `save` saves; 2**64 - 1 may stand for more."""
        revision = c_uint64()
        self._call("revision", byref(revision))
        return revision.value

    def end(self) -> EndCode:
        """The message that follows a duration, as `set_end` has set it."""
        buffer = create_string_buffer(5)
        self._call("end", buffer, len(buffer))
        memory, number, crc = buffer.raw[0], int.from_bytes(buffer.raw[1:3], "big"), int.from_bytes(buffer.raw[3:5], "big")
        return EndCode(memory, number, crc)

    def _call(self, name: str, *words: Any, answers: tuple[int, ...] = (DONE,)) -> int:
        with self._lock:
            return self._sign.library.call(name, byref(self._handle), *words, answers=answers)

    def _ask(self, name: str, *words: Any) -> Reply:
        facts = ReplyFacts()
        self._call(name, *words, byref(facts))
        reply = reply_of(facts)
        return obeyed(reply) if self._strict else reply

    def _set(self, name: str, memory: SupportsIndex, number: SupportsIndex, what: str, value: SupportsIndex) -> Reply:
        return self._ask(name, *message_of(memory, number), number_of(what, value, 255))


def message_of(memory: SupportsIndex, number: SupportsIndex) -> tuple[int, int]:
    return number_of("memory", memory, 255), number_of("number", number, 65535)
