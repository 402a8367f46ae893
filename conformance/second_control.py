"""A second reading of the sign's specification: messages, activation, time and scripts.

The controller takes the lines of the script language and gives the exact lines of the reply.
"""

from __future__ import annotations

import re
from dataclasses import dataclass, fields, replace
from typing import Callable, Optional, Sequence

from second_multi import (
    BOTTOM,
    FULL,
    LEFT,
    NO_ERROR,
    TOP,
    Defaults,
    Sign,
    Text,
    Verdict,
    frame_text,
    judge,
)

MOST_CLOCK = 2**64 - 1


# ---------------------------------------------------------------- the message CRC


def crc16(octets: bytes) -> int:
    """The CRC-16 of ISO/IEC 3309, bit by bit."""
    register = 0xFFFF
    for octet in octets:
        register ^= octet
        for _ in range(8):
            out = register & 1
            register >>= 1
            if out:
                register ^= 0x8408
    return register ^ 0xFFFF


def message_crc(multi: bytes, beacon: int, pixel: int) -> int:
    return crc16(multi + bytes([beacon, pixel]))


# ---------------------------------------------------------------- the message table

# dmsMessageMemoryType
PERMANENT, CHANGEABLE, CURRENT_BUFFER, BLANK = 2, 3, 5, 7

# dmsMessageStatus
NOT_USED, MODIFYING, VALIDATING, VALID, ERROR = 1, 2, 3, 4, 5
MODIFY_REQ, VALIDATE_REQ, NOT_USED_REQ = 6, 7, 8

TAKEN_IN = {
    MODIFY_REQ: (NOT_USED, MODIFYING, VALID, ERROR),
    VALIDATE_REQ: (MODIFYING,),
    NOT_USED_REQ: (NOT_USED, MODIFYING, VALIDATING, VALID, ERROR),
}
NEW_STATUS = {MODIFY_REQ: MODIFYING, VALIDATE_REQ: VALIDATING, NOT_USED_REQ: NOT_USED}

# Refusals of the message table and of the command on defaults.
MEMORY_TYPE, NUMBER, READ_ONLY, WRONG_STATE, BAD_VALUE, TOO_LONG, NO_SPACE = range(1, 8)
DEFAULT_VALUE, DEFAULT_FONT = 9, 10

# dmsValidateMessageError
VALIDATE_NONE, VALIDATE_BEACONS, VALIDATE_PIXELS, VALIDATE_SYNTAX = 2, 3, 4, 5

# dmsActivateMsgError
ACTIVATE_NONE, PRIORITY, STATUS, ACTIVATE_MEMORY, ACTIVATE_NUMBER, CRC, SYNTAX = range(2, 9)

# dmsMsgSourceMode
MODE_OTHER, MODE_CENTRAL, MODE_END_DURATION = 1, 8, 14

ENDLESS = 65535
MOST_OWNER = 127
Place = tuple[int, int]


@dataclass(frozen=True)
class Message:
    """A message: a slot of the table, a permanent message, a blank or what is displayed."""

    status: int = NOT_USED
    multi: bytes = b""
    owner: bytes = b""
    priority: int = 1
    beacon: int = 0
    pixel: int = 0
    blank: bool = False

    @property
    def crc(self) -> int:
        return 0 if self.blank else message_crc(self.multi, self.beacon, self.pixel)


@dataclass(frozen=True)
class StoreLimits:
    slots: int
    bytes: int
    max_string: int


@dataclass(frozen=True)
class Display:
    """What is shown: the message with where it came from, and the defaults it is shown by."""

    message: Message
    source: Place
    defaults: Defaults
    clock: int
    remaining: Optional[int]
    requester: bytes
    mode: int


@dataclass(frozen=True)
class Registers:
    activate: int = ACTIVATE_NONE
    validate: int = VALIDATE_NONE
    multi: int = NO_ERROR
    position: int = 0


def blank_message(number: int) -> Message:
    return Message(status=VALID, priority=number, blank=True)


def swapped(number: int) -> int:
    return (number & 0xFF) << 8 | number >> 8


def refused_default(sign: Sign, defaults: Defaults) -> Optional[int]:
    """Why defaults are refused: a value outside its range, or a font that the sign has not."""
    in_range = (
        defaults.font >= 1
        and LEFT <= defaults.line <= FULL
        and TOP <= defaults.page <= BOTTOM
        and defaults.fore <= 9
        and defaults.back <= 9
    )
    if not in_range:
        return DEFAULT_VALUE
    return DEFAULT_FONT if sign.font(defaults.font) is None else None


class Controller:
    """The message table, the display and the registers of one sign."""

    def __init__(self, sign: Sign, limits: StoreLimits, permanent: Sequence[Message]) -> None:
        self.sign = sign
        self.limits = limits
        self.permanent = list(permanent)
        self.slots = {number: Message() for number in range(1, limits.slots + 1)}
        self.defaults = sign.defaults
        self.registers = Registers()
        self.end_code = bytes([BLANK, 0, 1, 0, 0])
        blank = blank_message(1)
        self.display = Display(blank, (BLANK, 1), sign.defaults, 0, None, bytes(4), MODE_OTHER)

    # Reading the table.

    def used_bytes(self) -> int:
        return sum(len(slot.multi) + len(slot.owner) for slot in self.slots.values())

    def used_slots(self) -> int:
        return sum(1 for slot in self.slots.values() if slot.status != NOT_USED)

    def message(self, place: Place) -> Message | int:
        """The message at a place, or the number of the refusal."""
        memory, number = place
        if memory == PERMANENT and 1 <= number <= len(self.permanent):
            return self.permanent[number - 1]
        if memory == CHANGEABLE and number in self.slots:
            return self.slots[number]
        if memory == CURRENT_BUFFER and number == 1:
            return replace(self.display.message, status=VALID, owner=b"")
        if memory == BLANK and 1 <= number <= 255:
            return blank_message(number)
        known = memory in (PERMANENT, CHANGEABLE, CURRENT_BUFFER, BLANK)
        return NUMBER if known else MEMORY_TYPE

    # Writing the table: the first reason to refuse in the fixed order, or none.

    def refusal(self, place: Place, state: Callable[[Message], bool]) -> Optional[int]:
        """The refusals that every write has: memory type, number, read only, wrong state."""
        message = self.message(place)
        if isinstance(message, int):
            return message
        if place[0] != CHANGEABLE:
            return READ_ONLY
        return None if state(message) else WRONG_STATE

    def request(self, place: Place, request: int) -> Optional[int]:
        taken_in = TAKEN_IN.get(request)
        refused = self.refusal(place, lambda m: taken_in is None or m.status in taken_in)
        if refused is not None:
            return refused
        if taken_in is None:
            return BAD_VALUE
        slot = Message() if request == NOT_USED_REQ else self.slots[place[1]]
        self.slots[place[1]] = replace(slot, status=NEW_STATUS[request])
        return None

    def write(self, place: Place, name: str, value: bytes | int) -> Optional[int]:
        """Sets one field of a slot that is being modified."""
        refused = self.refusal(place, lambda message: message.status == MODIFYING)
        if refused is None and isinstance(value, int):
            refused = None if self.sound_number(name, value) else BAD_VALUE
        if refused is None and isinstance(value, bytes):
            refused = self.refusal_of_text(self.slots[place[1]], name, value)
        if refused is None:
            changed = replace(self.slots[place[1]], **{name: value})
            self.slots[place[1]] = changed
        return refused

    def sound_number(self, name: str, value: int) -> bool:
        return value >= 1 if name == "priority" else value <= 1

    def refusal_of_text(self, slot: Message, name: str, text: bytes) -> Optional[int]:
        most = self.limits.max_string if name == "multi" else MOST_OWNER
        old = slot.multi if name == "multi" else slot.owner
        if len(text) > most:
            return TOO_LONG
        if self.used_bytes() - len(old) + len(text) > self.limits.bytes:
            return NO_SPACE
        return None

    def clear(self) -> None:
        self.slots = {number: Message() for number in self.slots}

    # Validation.

    def work(self) -> Optional[tuple[int, int, int]]:
        """Judges the validating slot with the lowest number: it, its status, validate error."""
        waiting = [n for n, slot in self.slots.items() if slot.status == VALIDATING]
        if not waiting:
            return None
        number = min(waiting)
        error = self.validate_error(self.slots[number])
        status = VALID if error == VALIDATE_NONE else ERROR
        self.slots[number] = replace(self.slots[number], status=status)
        self.registers = replace(self.registers, validate=error)
        return number, status, error

    def validate_error(self, slot: Message) -> int:
        if slot.beacon == 1 and not self.sign.beacons:
            return VALIDATE_BEACONS
        if slot.pixel == 1 and not self.sign.pixel_service:
            return VALIDATE_PIXELS
        found = judge(self.sign, slot.multi, self.defaults)
        self.registers = replace(self.registers, multi=found.error, position=found.position)
        return VALIDATE_NONE if found.accepted else VALIDATE_SYNTAX

    # Activation.

    def crc_taken(self, message: Message, crc: int) -> bool:
        """The message's CRC in either order of octets; two values stand for a blank's."""
        right = {0x0000, 0x0F47} if message.blank else {message.crc}
        return crc in right or swapped(crc) in right

    def defaults_for(self, place: Place) -> Defaults:
        return self.display.defaults if place[0] == CURRENT_BUFFER else self.defaults

    def refusal_to_show(
        self, place: Place, crc: int, priority: Optional[int]
    ) -> tuple[Optional[int], Optional[Verdict]]:
        """The first reason not to show a message, and the verdict where its text was judged."""
        message = self.message(place)
        if isinstance(message, int):
            return (ACTIVATE_MEMORY if message == MEMORY_TYPE else ACTIVATE_NUMBER), None
        if message.status != VALID:
            return STATUS, None
        if not self.crc_taken(message, crc):
            return CRC, None
        if priority is not None and priority < self.display.message.priority:
            return PRIORITY, None
        found = judge(self.sign, message.multi, self.defaults_for(place))
        return (None if found.accepted else SYNTAX), found

    def show(self, place: Place) -> None:
        """Puts a message on the display; the current buffer stays as it is."""
        message = self.message(place)
        assert isinstance(message, Message)
        defaults = self.defaults_for(place)
        source = self.display.source if place[0] == CURRENT_BUFFER else place
        self.display = replace(
            self.display,
            message=replace(message, owner=b"", status=VALID),
            source=source,
            defaults=defaults,
        )

    def activate(self, code: bytes) -> int:
        """Activates by a MessageActivationCode; dmsActivateMsgError, which is none if shown."""
        duration = int.from_bytes(code[0:2], "big")
        place = (code[3], int.from_bytes(code[4:6], "big"))
        crc = int.from_bytes(code[6:8], "big")
        error, found = self.refusal_to_show(place, crc, code[2])
        if found is not None:
            self.registers = replace(self.registers, multi=found.error, position=found.position)
        self.registers = replace(self.registers, activate=error or ACTIVATE_NONE)
        if error is None:
            self.show(place)
            self.display = replace(
                self.display,
                clock=0,
                remaining=None if duration == ENDLESS else duration * 600,
                requester=code[8:12],
                mode=MODE_CENTRAL,
            )
        return self.registers.activate

    # Time.

    def tick(self, tenths: int) -> bool:
        """Lets time pass; true where the duration ended."""
        remaining = self.display.remaining
        if remaining is None or tenths < remaining:
            self.display = replace(
                self.display,
                clock=min(self.display.clock + tenths, MOST_CLOCK),
                remaining=None if remaining is None else remaining - tenths,
            )
            return False
        self.show_end_message()
        self.display = replace(
            self.display, clock=tenths - remaining, remaining=None, mode=MODE_END_DURATION
        )
        return True

    def show_end_message(self) -> None:
        """Shows the end-duration message, or blank 1 where it cannot be shown."""
        place = (self.end_code[0], int.from_bytes(self.end_code[1:3], "big"))
        crc = int.from_bytes(self.end_code[3:5], "big")
        error, _ = self.refusal_to_show(place, crc, None)
        self.show(place if error is None else (BLANK, 1))

    # Defaults set by a command.

    def set_default(self, name: str, value: int) -> Optional[int]:
        changed = replace(self.defaults, **{name: value})
        refused = refused_default(self.sign, changed)
        if refused is None:
            self.defaults = changed
        return refused

    # Replies.

    def frame(self, colour: int) -> list[bytes]:
        display = self.display
        text = Text(self.sign, display.defaults, display.message.multi)
        return frame_text(text, display.clock, colour)

    def row(self, place: Place) -> list[bytes]:
        message = self.message(place)
        if isinstance(message, int):
            return [b"refused %d" % message]
        numbers = (message.status, message.priority, message.beacon, message.pixel)
        head = b"row %d %d %d %d %d %d" % (place + numbers)
        texts = [text.hex().encode() or b"-" for text in (message.owner, message.multi)]
        return [b"%s %04x %s %s" % (head, message.crc, texts[0], texts[1])]

    def report(self) -> list[bytes]:
        display, registers = self.display, self.registers
        minutes = ENDLESS if display.remaining is None else (display.remaining + 599) // 600
        values: list[tuple[str, object]] = [
            ("used", self.used_slots()),
            ("free", self.limits.bytes - self.used_bytes()),
            ("mode", display.mode),
            ("shown", "%d/%d" % display.source),
            ("crc", "%04x" % display.message.crc),
            ("priority", display.message.priority),
            ("remaining", minutes),
            ("requester", display.requester.hex()),
            ("activate", registers.activate),
            ("validate", registers.validate),
            ("multi", registers.multi),
            ("position", registers.position),
            ("clock", display.clock),
        ]
        return [("report " + " ".join(f"{name}={value}" for name, value in values)).encode()]


# ---------------------------------------------------------------- the script language


class BadLine(Exception):
    """A line that is no command."""


Reply = list[bytes]


def number_field(text: bytes, most: int) -> int:
    if re.fullmatch(rb"[0-9]{1,10}", text) is None or int(text) > most:
        raise BadLine
    return int(text)


def hex_field(text: bytes, octets: Optional[int] = None) -> bytes:
    if re.fullmatch(rb"(?:[0-9a-fA-F]{2})*", text) is None:
        raise BadLine
    if octets is not None and len(text) != 2 * octets:
        raise BadLine
    return bytes.fromhex(text.decode())


def place_fields(memory: bytes, number: bytes) -> Place:
    return number_field(memory, 255), number_field(number, 65535)


def exactly(rest: Optional[bytes], count: int) -> list[bytes]:
    """The fields after the command's word, separated by exactly one space each."""
    parts = [] if rest is None else rest.split(b" ")
    if len(parts) != count:
        raise BadLine
    return parts


def done_or_refused(refused: Optional[int]) -> Reply:
    return [b"done" if refused is None else b"refused %d" % refused]


def request_line(controller: Controller, rest: Optional[bytes]) -> Reply:
    memory, number, request = exactly(rest, 3)
    place = place_fields(memory, number)
    return done_or_refused(controller.request(place, number_field(request, 255)))


def text_line(name: str, is_hex: bool) -> Callable[[Controller, Optional[bytes]], Reply]:
    def answer(controller: Controller, rest: Optional[bytes]) -> Reply:
        parts = [] if rest is None else rest.split(b" ", 2)
        if len(parts) < 2:
            raise BadLine
        place = place_fields(parts[0], parts[1])
        text = parts[2] if len(parts) == 3 else b""
        octets = hex_field(text) if is_hex else text
        return done_or_refused(controller.write(place, name, octets))

    return answer


def number_line(name: str) -> Callable[[Controller, Optional[bytes]], Reply]:
    def answer(controller: Controller, rest: Optional[bytes]) -> Reply:
        memory, number, value = exactly(rest, 3)
        place = place_fields(memory, number)
        return done_or_refused(controller.write(place, name, number_field(value, 255)))

    return answer


def clear_line(controller: Controller, rest: Optional[bytes]) -> Reply:
    exactly(rest, 0)
    controller.clear()
    return [b"done"]


def work_line(controller: Controller, rest: Optional[bytes]) -> Reply:
    exactly(rest, 0)
    judged = controller.work()
    if judged is None:
        return [b"idle"]
    registers = controller.registers
    return [b"worked %d %d %d %d %d" % (judged + (registers.multi, registers.position))]


def activate_line(controller: Controller, rest: Optional[bytes]) -> Reply:
    (code,) = exactly(rest, 1)
    error = controller.activate(hex_field(code, 12))
    return [b"shown" if error == ACTIVATE_NONE else b"not shown %d" % error]


def end_line(controller: Controller, rest: Optional[bytes]) -> Reply:
    (code,) = exactly(rest, 1)
    controller.end_code = hex_field(code, 5)
    return [b"done"]


def tick_line(controller: Controller, rest: Optional[bytes]) -> Reply:
    (tenths,) = exactly(rest, 1)
    return [b"ended" if controller.tick(number_field(tenths, 4294967295)) else b"ticked"]


def frame_line(controller: Controller, rest: Optional[bytes]) -> Reply:
    (colour,) = exactly(rest, 1)
    return controller.frame(number_field(colour, 255))


def row_line(controller: Controller, rest: Optional[bytes]) -> Reply:
    memory, number = exactly(rest, 2)
    return controller.row(place_fields(memory, number))


def report_line(controller: Controller, rest: Optional[bytes]) -> Reply:
    exactly(rest, 0)
    return controller.report()


def default_line(controller: Controller, rest: Optional[bytes]) -> Reply:
    name, value = exactly(rest, 2)
    if name not in [known.name.encode() for known in fields(Defaults)]:
        raise BadLine
    return done_or_refused(controller.set_default(name.decode(), number_field(value, 255)))


def defaults_line(controller: Controller, rest: Optional[bytes]) -> Reply:
    exactly(rest, 0)
    values = [getattr(controller.defaults, known.name) for known in fields(Defaults)]
    return [b" ".join([b"defaults"] + [b"%d" % value for value in values])]


LINES: dict[bytes, Callable[[Controller, Optional[bytes]], Reply]] = {
    b"request": request_line,
    b"multi": text_line("multi", is_hex=False),
    b"multix": text_line("multi", is_hex=True),
    b"owner": text_line("owner", is_hex=True),
    b"priority": number_line("priority"),
    b"beacon": number_line("beacon"),
    b"pixel": number_line("pixel"),
    b"clear": clear_line,
    b"work": work_line,
    b"activate": activate_line,
    b"end": end_line,
    b"tick": tick_line,
    b"frame": frame_line,
    b"row": row_line,
    b"report": report_line,
    b"default": default_line,
    b"defaults": defaults_line,
}


def script_line(controller: Controller, line: bytes) -> Reply:
    """The reply lines to a line of a script; raises where it is no command."""
    if line == b"" or line.startswith(b"#"):
        return []
    word, space, rest = line.partition(b" ")
    answer = LINES.get(word)
    if answer is None:
        raise BadLine
    return answer(controller, rest if space else None)
