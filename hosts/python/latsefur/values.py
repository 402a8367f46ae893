"""Octets and numbers that are handed to the library, and the enumerations of NTCIP 1203 that it answers with."""
from __future__ import annotations

import operator
from contextlib import suppress
from enum import IntEnum
from typing import Iterable, SupportsIndex, Union

from .errors import LibraryNotFound, NotAnOctet, WrongLibrary

Octets = Union[bytes, bytearray, memoryview]
Text = Union[str, Octets]


def octets_of(text: Text) -> bytes:
    """The octets of a text. Each character of a `str` is the octet of its number, as MULTI names the characters of a font.

    Raises `NotAnOctet` if a character is above U+00FF, and `TypeError` for any other kind of value.
    """
    if not isinstance(text, str):
        return raw_octets("a text", text, "a str, bytes, bytearray or memoryview")
    try:
        return text.encode("latin-1")
    except UnicodeEncodeError as fault:
        raise NotAnOctet(text, fault.start) from None


def raw_octets(name: str, value: Octets, kinds: str = "bytes, a bytearray or a memoryview") -> bytes:
    """The octets of a value that is nothing else. Raises `TypeError` for any other kind of value: `bytes` makes five zeros of the number 5."""
    if isinstance(value, (bytes, bytearray, memoryview)):
        return bytes(value)
    raise TypeError(f"{name} is {kinds}, and not {type(value).__name__}")


def several(name: str, texts: Iterable[Text]) -> Iterable[Text]:
    """These texts. Raises `TypeError` for a lone one, whose characters would be taken for texts."""
    if isinstance(texts, (str, bytes, bytearray, memoryview)):
        raise TypeError(f"{name} are a list or another iterable, and not a lone {type(texts).__name__}")
    return texts


def texts_of(texts: Iterable[Text]) -> list[bytes]:
    """The octets of several texts. Raises `TypeError` for a lone text, and what `octets_of` does."""
    return [octets_of(text) for text in several("texts", texts)]


def number_of(name: str, value: SupportsIndex, most: int) -> int:
    """A whole number from 0 to `most`. Raises `ValueError` for another one, which the library would be handed cut short."""
    number = operator.index(value)
    if not 0 <= number <= most:
        raise ValueError(f"{name} is {number}, and may be 0 to {most}")
    return number


class Sentenced(IntEnum):
    """A number that says why, by a sentence, which `str` and `print` write. It is still a number: `int(why)`, or `f"{why:d}"`."""

    @property
    def sentence(self) -> str:
        """The sentence that the library has for it, or its name in words if the library never answers with it. The library is that which `load`
        finds, of version 3; if there is none, it is the name in words too."""
        from .library import sentence_of

        told = None
        with suppress(LibraryNotFound, WrongLibrary):
            told = sentence_of(SENTENCED.index(type(self)) + 1, self)
        return told or self.name.lower().replace("_", " ")

    def __str__(self) -> str:
        return self.sentence

    def __format__(self, spec: str) -> str:
        return format(int(self), spec) if spec else self.sentence


class MultiError(Sentenced):
    """What is wrong with a text (dmsMultiSyntaxError)."""

    OTHER = 1
    NONE = 2
    UNSUPPORTED_TAG = 3
    UNSUPPORTED_TAG_VALUE = 4
    TEXT_TOO_BIG = 5
    FONT_NOT_DEFINED = 6
    CHARACTER_NOT_DEFINED = 7
    FIELD_DEVICE_NOT_EXIST = 8
    FIELD_DEVICE_ERROR = 9
    FLASH_REGION_ERROR = 10
    TAG_CONFLICT = 11
    TOO_MANY_PAGES = 12
    FONT_VERSION_ID = 13
    GRAPHIC_ID = 14
    GRAPHIC_NOT_DEFINED = 15


class Memory(IntEnum):
    """The kinds of memory that a message may be in (dmsMessageMemoryType)."""

    PERMANENT = 2
    CHANGEABLE = 3
    CURRENT_BUFFER = 5
    BLANK = 7


class Request(IntEnum):
    """What a host may ask of a message's status (dmsMessageStatus)."""

    MODIFY = 6
    VALIDATE = 7
    NOT_USED = 8


class Status(IntEnum):
    """The status of a message (dmsMessageStatus)."""

    NOT_USED = 1
    MODIFYING = 2
    VALIDATING = 3
    VALID = 4
    ERROR = 5


class ValidateError(Sentenced):
    """What the sign found when it judged a message (dmsValidateMessageError)."""

    OTHER = 1
    NONE = 2
    BEACONS = 3
    PIXEL_SERVICE = 4
    SYNTAX_MULTI = 5


class ActivateError(Sentenced):
    """Why a message isn't shown (dmsActivateMsgError)."""

    OTHER = 1
    NONE = 2
    PRIORITY = 3
    MESSAGE_STATUS = 4
    MESSAGE_MEMORY_TYPE = 5
    MESSAGE_NUMBER = 6
    MESSAGE_CRC = 7
    SYNTAX_MULTI = 8


class TableError(Sentenced):
    """Why the message table refuses a command."""

    MEMORY_TYPE = 1
    NUMBER = 2
    READ_ONLY = 3
    WRONG_STATE = 4
    BAD_VALUE = 5
    TOO_LONG = 6
    NO_SPACE = 7


class StateFault(Sentenced):
    """Why saved octets give a controller no state."""

    LENGTH = 1
    VERSION = 2
    CHECKSUM = 3
    VALUE = 4
    TOO_LONG = 5
    NO_SPACE = 6
    SLOTS = 7
    DEFAULTS = 8
    TEXT = 9


class DefaultError(Sentenced):
    """Why the sign refuses a default."""

    BAD_VALUE = 9
    NO_FONT = 10


class SourceMode(IntEnum):
    """Why the sign shows what it shows (dmsMsgSourceMode)."""

    OTHER = 1
    CENTRAL = 8
    END_DURATION = 14


class Default(IntEnum):
    """The defaults of a sign (group multiCfg)."""

    FONT = 1
    LINE = 2
    PAGE = 3
    PAGE_ON = 4
    PAGE_OFF = 5
    FLASH_ON = 6
    FLASH_OFF = 7
    FORE = 8
    BACK = 9


# By the kinds of numbers of `latsefur_sentence`, from 1.
SENTENCED: tuple[type[Sentenced], ...] = (TableError, ValidateError, ActivateError, MultiError, DefaultError, StateFault)
