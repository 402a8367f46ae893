"""A simulated sign for tests: `signctl serve` as a process, whose replies are values."""
from __future__ import annotations

import os
import re
import threading
from pathlib import Path
from types import TracebackType
from typing import NoReturn, Optional, SupportsIndex, Union, overload

from .controller import MOST_OWNER, MOST_TEXT, NO_END, ActivationCode, EndCode
from .errors import BadLength, CommandRefused, NoDefault, StateRefused, because
from .picture import Picture, Plane, Shown, stride_of
from .replies import (
    Activated, Defaults, Display, Done, Ended, Frame, Idle, Message, NotSet, NotShown, Refused, Reply, Report, Ticked, Worked
)
from .served import PROGRAM, Served
from .sign import Verdict
from .values import (
    ActivateError, Default, DefaultError, Memory, MultiError, Octets, Request, SourceMode, StateFault, Status, TableError, Text, ValidateError,
    number_of, octets_of, raw_octets,
)

MOST_TENTHS = 2**32 - 1


class UnexpectedReply(CommandRefused, AssertionError):
    """The sign answered something else than the call expects. `asked` is the line, `said` the reply, and `reply` its value, or `None` if it is
    no reply to a command that this package knows."""

    def __init__(self, asked: str, said: str) -> None:
        super().__init__(reply_told(asked, said))
        self.asked = asked
        self.said = said

    def __str__(self) -> str:
        return f"{self.asked!r} is answered {self.said!r}{because(self.reply)}"

    def __reduce__(self) -> tuple[type[UnexpectedReply], tuple[str, str]]:
        return type(self), (self.asked, self.said)


def reply_told(asked: str, said: str) -> Optional[Reply]:
    """The value of a reply to a command, or `None` if this package knows none such: a later program may have more numbers."""
    plain: dict[str, Reply] = {"done": Done(), "idle": Idle(), "shown": Activated(), "ticked": Ticked(), "ended": Ended()}
    words = re.fullmatch(r"(refused|not shown|worked)((?: \d+)+)", said)
    if not words:
        return plain.get(said)
    try:
        return numbered(asked, words[1], *map(int, words[2].split()))
    except ValueError:
        return None


def numbered(asked: str, kind: str, number: int, *others: int) -> Reply:
    """The value of a reply that has numbers. Raises `ValueError` if there are more or fewer, or one has no name."""
    if kind == "worked":
        status, validate, multi, position = others
        return Worked(number, Status(status), ValidateError(validate), MultiError(multi), position)
    if others:
        raise ValueError
    if kind == "not shown":
        return NotShown(ActivateError(number))
    return NotSet(DefaultError(number)) if asked.startswith("default ") else Refused(TableError(number))


class SimulatedSign:
    """A sign that runs in a process of its own, for the tests of a traffic centre's program.

        with SimulatedSign("signs/portable.toml") as sign:
            sign.store(1, "ROAD[np]WORK")
            sign.validate(1)
            sign.show(1, duration=1)
            sign.tick(30)
            print(sign.frame())

    `sign` is the name of a sign file; without one it is the sample sign. `program` is `signctl`, else what the variable LATSEFUR_SIGNCTL names,
    else `signctl` of the path. Messages are changeable ones, from 1, if no other memory is named. Time stands until `tick`.

    A reply that isn't the one that a call expects raises `UnexpectedReply`, which says it, and the sign goes on. `NoAnswer` is raised if none has
    come after `timeout` seconds, 10 if none are named and any number if it is `None`; `SignStopped` if the process has ended, and
    `ProgramNotFound` if it can't be started. `close`, or the end of `with`, ends it. Threads may share it, and each call is one step for them.
    """

    def __init__(
        self, sign: Union[str, os.PathLike[str], None] = None, program: Union[str, os.PathLike[str], None] = None, *,
        timeout: Optional[float] = 10,
    ) -> None:
        named = str(program or os.environ.get(PROGRAM) or "signctl")
        words = [named, "serve", "--sample"] if sign is None else [named, "serve", "--sign", str(Path(sign))]
        self._lock = threading.RLock()
        self._served = Served(words, timeout)
        try:
            head, *rows = self._served.ask("colours")
            self.width, self.height = (len(rows[0]), len(rows)) if rows else refuse("colours", head)
        except BaseException:
            self.close()
            raise

    def close(self) -> None:
        """Ends the process. A second call does nothing."""
        with self._lock:
            self._served.close()

    def __enter__(self) -> SimulatedSign:
        return self

    def __exit__(
        self, kind: Optional[type[BaseException]], fault: Optional[BaseException], trace: Optional[TracebackType]
    ) -> None:
        self.close()

    # What changes the sign.

    def store(
        self, number: SupportsIndex, text: Text, *, owner: Text = b"", priority: SupportsIndex = 1, beacon: SupportsIndex = 0,
        pixel_service: SupportsIndex = 0,
    ) -> None:
        """Writes a changeable message, which is then in modifying; `validate` makes it ready to be shown."""
        slot = f"{int(Memory.CHANGEABLE)} {number_of('number', number, 65535)}"
        # No table takes more: one octet too many is refused as all of them are, and all may be too many for a line.
        multi, owned = octets_of(text)[:MOST_TEXT + 1], octets_of(owner)[:MOST_OWNER + 1]
        lines = (
            f"request {slot} {int(Request.MODIFY)}", f"multix {slot} {multi.hex()}", f"owner {slot} {owned.hex()}",
            f"priority {slot} {number_of('priority', priority, 255)}", f"beacon {slot} {number_of('beacon', beacon, 255)}",
            f"pixel {slot} {number_of('pixel_service', pixel_service, 255)}",
        )
        with self._lock:
            for line in lines:
                self._expect(line, Done())

    def validate(self, number: SupportsIndex) -> Worked:
        """Has a changeable message judged, and expects that it becomes valid. Others that wait and have lower numbers are judged before it."""
        wanted = number_of("number", number, 65535)
        with self._lock:
            self._expect(f"request {int(Memory.CHANGEABLE)} {wanted} {int(Request.VALIDATE)}", Done())
            judged = self._work()
            while judged.number != wanted:
                judged = self._work()
        if judged.status != Status.VALID:
            raise UnexpectedReply("work", str(judged))
        return judged

    def show(
        self, number: SupportsIndex, *, duration: SupportsIndex = NO_END, priority: SupportsIndex = 255,
        memory: SupportsIndex = Memory.CHANGEABLE,
    ) -> None:
        """Shows a message as it stands, whose code the sign tells, and expects that it is shown. `duration` is in minutes; `NO_END` has no
        end."""
        with self._lock:
            self.activate(self.code(number, duration=duration, priority=priority, memory=memory))

    def activate(self, code: Union[ActivationCode, Octets]) -> Reply:
        """Shows a message, named by a code or by its 12 octets, and expects that it is shown. Raises `BadLength` for another number of octets."""
        octets = bytes(code) if isinstance(code, ActivationCode) else raw_octets("a code", code, "an ActivationCode or its octets")
        if len(octets) != 12:
            raise BadLength
        return self._expect(f"activate {octets.hex()}", Activated())

    def set_end(self, code: Union[EndCode, Octets]) -> Reply:
        """Names the message that follows a duration, by a code or by its 5 octets. Raises `BadLength` for another number of octets."""
        octets = bytes(code) if isinstance(code, EndCode) else raw_octets("a code", code, "an EndCode or its octets")
        if len(octets) != 5:
            raise BadLength
        return self._expect(f"end {octets.hex()}", Done())

    def set_default(self, field: SupportsIndex, value: SupportsIndex) -> Reply:
        """Sets a default, one of `Default`, to 0 to 255. Raises `NoDefault` if the number names none."""
        number, wanted = number_of("field", field, 255), number_of("value", value, 255)
        if number not in set(Default):
            raise NoDefault
        return self._expect(f"default {Default(number).name.lower()} {wanted}", Done())

    def clear(self) -> Reply:
        """Empties every slot."""
        return self._expect("clear", Done())

    def tick(self, tenths: SupportsIndex) -> Reply:
        """Lets tenths of a second pass, 0 to 2**32 - 1: `Ticked`, or `Ended` if a duration has ended."""
        line = f"tick {number_of('tenths', tenths, MOST_TENTHS)}"
        said = self.ask(line)
        return Ended() if said == "ended" else Ticked() if said == "ticked" else refuse(line, said)

    # What only tells of it.

    def frame(self, colour: SupportsIndex = 1) -> Frame:
        """What the display shows now: the page, and which pixels have a colour, 0 to 255."""
        line = f"frame {number_of('colour', colour, 255)}"
        head, *rows = self._picture(line)
        bits = [row.translate(str.maketrans(".#", "01")).ljust(8 * stride_of(self.width), "0") for row in rows]
        octets = b"".join(int(row, 2).to_bytes(stride_of(self.width), "big") for row in bits)
        return Frame(shown_of(line, head), Plane(self.width, self.height, octets))

    def colours(self) -> Display:
        """What the display shows now, in its colours."""
        head, *rows = self._picture("colours")
        return Display(shown_of("colours", head), Picture(self.width, self.height, bytes(map(int, "".join(rows)))))

    def report(self) -> Report:
        """The state of the sign."""
        said = self.ask("report")
        words = re.fullmatch(
            r"report used=(\d+) free=(\d+) mode=(\d+) shown=(\d+)/(\d+) crc=([0-9a-f]{4}) priority=(\d+) remaining=(\d+)"
            r" requester=([0-9a-f]{8}) activate=(\d+) validate=(\d+) multi=(\d+) position=(\d+) clock=(\d+)", said,
        )
        if not words:
            refuse("report", said)
        used, free, mode, memory, number, crc, priority, remaining, requester, activate, validate, multi, position, clock = words.groups()
        return Report(
            int(used), int(free), SourceMode(int(mode)), int(memory), int(number), int(crc, 16), int(priority), int(remaining),
            int(requester, 16), ActivateError(int(activate)), ValidateError(int(validate)), MultiError(int(multi)), int(position), int(clock),
        )

    def message(self, memory: SupportsIndex, number: SupportsIndex) -> Message:
        """A message. Memory type 5 and number 1 is what the display shows."""
        line = f"row {number_of('memory', memory, 255)} {number_of('number', number, 65535)}"
        said = self.ask(line)
        words = said.split(" ")
        if words[0] != "row":
            refuse(line, said)
        kind, place, status, priority, beacon, pixel = map(int, words[1:7])
        owner, text = (bytes.fromhex(word.replace("-", "")) for word in words[8:])
        return Message(kind, place, Status(status), priority, beacon, pixel, int(words[7], 16), owner, text)

    def defaults(self) -> Defaults:
        """The defaults in force."""
        said = self.ask("defaults")
        words = said.split(" ")
        return Defaults(*map(int, words[1:])) if words[0] == "defaults" else refuse("defaults", said)

    def code(
        self, number: SupportsIndex, *, duration: SupportsIndex = NO_END, priority: SupportsIndex = 255,
        memory: SupportsIndex = Memory.CHANGEABLE,
    ) -> bytes:
        """The 12 octets by which a message is activated as it stands."""
        message = f"{number_of('memory', memory, 255)} {number_of('number', number, 65535)}"
        line = f"code {message} {number_of('duration', duration, 65535)} {number_of('priority', priority, 255)}"
        return bytes.fromhex(self._told(line, "code "))

    def check(self, text: Text) -> Verdict:
        """The verdict on a text by the defaults in force. Its `cycle` is 0, since the program doesn't tell it. Raises `UnexpectedReply` for more
        than 4,096 octets, which the program doesn't judge."""
        line = f"verdictx {octets_of(text).hex()}"
        said = self.ask(line)
        words = re.fullmatch(r"(ok|error) (\d+)(?: (\d+))?", said)
        if not words:
            refuse(line, said)
        if words[1] == "ok":
            return Verdict(pages=int(words[2]))
        return Verdict(error=MultiError(int(words[2])), at=int(words[3]))

    def crc(self, text: Text) -> int:
        """The CRC of a message with this text, whose beacon and pixel service are 0. Raises `UnexpectedReply` for more than 4,147 octets, which
        are too many for a line."""
        return int(self._told(f"crcx {octets_of(text).hex()}", "crc "), 16)

    def save(self) -> bytes:
        """The state of the sign as octets that `restore` takes. Raises `UnexpectedReply` if it has more than 4,146, which are too many for a
        line."""
        return bytes.fromhex(self._told("save", "save "))

    def restore(self, octets: Octets) -> None:
        """Restores what a sign of the same sign file saved, simulated or a `Controller`. Raises `StateRefused`, and then the sign is as it was;
        and `UnexpectedReply` for more than 4,146 octets."""
        line = f"restore {raw_octets('octets', octets).hex()}"
        said = self.ask(line)
        refused = re.fullmatch(r"refused (\d+)", said)
        if refused:
            raise StateRefused(StateFault(int(refused[1])))
        if said != "done":
            refuse(line, said)

    @overload
    def next_change(self) -> Optional[int]: ...

    @overload
    def next_change(self, most: SupportsIndex) -> int: ...

    def next_change(self, most: Optional[SupportsIndex] = None) -> Optional[int]:
        """The tenths of a second until what the display shows changes, or `None` if it never does. With `most`, 0 to
        2**32 - 1, it is that where it would be later or never."""
        limit = None if most is None else number_of("most", most, MOST_TENTHS)
        said = self._told("next", "next ")
        left = None if said == "never" else int(said)
        if limit is None:
            return left
        return limit if left is None else min(left, limit)

    def ask(self, line: Text) -> str:
        """The reply to a line whose reply is one line, as `signctl serve` writes it. Raises `ValueError` if the reply has more lines, as that to
        `frame` or `colours` has, and if the line has a line feed, or a carriage return at its end."""
        with self._lock:
            said = self._served.ask(line)
        if len(said) != 1:
            raise ValueError(f"the reply to {line!r} has {len(said)} lines; the calls `frame` and `colours` give such a reply")
        return said[0]

    # Lines and replies.

    def _work(self) -> Worked:
        said = self.ask("work")
        reply = reply_told("work", said)
        return reply if isinstance(reply, Worked) else refuse("work", said)

    def _expect(self, line: str, wanted: Reply) -> Reply:
        said = self.ask(line)
        return wanted if said == str(wanted) else refuse(line, said)

    def _told(self, line: Text, begin: str) -> str:
        said = self.ask(line)
        return said[len(begin):] if said.startswith(begin) else refuse(line, said)

    def _picture(self, line: str) -> list[str]:
        with self._lock:
            said = self._served.ask(line)
        return said if len(said) == 1 + self.height else refuse(line, said[0])


def refuse(line: Text, said: str) -> NoReturn:
    raise UnexpectedReply(octets_of(line).decode("latin-1"), said)


def shown_of(line: str, head: str) -> Optional[Shown]:
    """The page of the first line of a picture."""
    if head == "off":
        return None
    words = re.fullmatch(r"page (\d+) phase (\d+)", head)
    return Shown(*map(int, words.groups())) if words else refuse(line, head)
