"""The shared library: where it lies, its structures, and the types of its exports.

Each structure is one of `hosts/latsefur.h`, field by field, and each row of `EXPORTS` one of its calls. The other modules hand in octets
and numbers, and get numbers; nothing of this module leaves the package but `Library` and `load`.
"""
from __future__ import annotations

import ctypes
import os
import struct
import threading
from array import array
from ctypes import (
    POINTER, Structure, byref, c_char, c_char_p, c_size_t, c_uint8, c_uint16, c_uint32, c_uint64, c_void_p, cast, create_string_buffer,
)
from itertools import accumulate
from pathlib import Path
from typing import Any, Optional, Sequence, Union

from .errors import LibraryNotFound, WrongLibrary, named

DONE, REFUSED, TOO_SMALL, BAD_VALUE = 0, 1, 5, 13
# The most octets of a sentence.
MOST_SENTENCE = 64

# The variable that names a library, and the file's name in the package and in the repository.
VARIABLE = "LATSEFUR_LIBRARY"
NAME = "liblatsefur.so"

# The oldest version of the header whose library can be called. Each later one has more calls, and the structures of those before.
OLDEST_VERSION = 1

PathLike = Union[str, "os.PathLike[str]"]


class SignFacts(Structure):
    width: int
    height: int
    max_pages: int
    classic: int
    _fields_ = [("width", c_uint16), ("height", c_uint16), ("max_pages", c_uint8), ("classic", c_uint8)]


class VerdictFacts(Structure):
    at: int
    cycle: int
    outcome: int
    code: int
    pages: int
    _fields_ = [("at", c_size_t), ("cycle", c_uint32), ("outcome", c_uint8), ("code", c_uint8), ("pages", c_uint8)]


# The fields of a verdict one after the other, for `struct` and for NumPy; `refused` is the outcome.
VERDICT = struct.Struct("=QIBBBx")
RECORD: Any = {
    "names": ["at", "cycle", "refused", "error", "pages"], "formats": ["<u8", "<u4", "u1", "u1", "u1"],
    "offsets": [0, 8, 12, 13, 14], "itemsize": 16,
}


class ShownFacts(Structure):
    phase: int
    page: int
    is_on: int
    _fields_ = [("phase", c_uint64), ("page", c_uint8), ("is_on", c_uint8)]


class TextFacts(Structure):
    _fields_ = [("octets", c_void_p), ("length", c_size_t)]


class Texts:
    """Some texts, at least one, for a call that takes all at once: their octets one after the other, and where each begins.

    An array of structures that holds each text by itself would take ten times as long to fill.
    """

    def __init__(self, texts: Sequence[bytes]) -> None:
        self.joined = b"".join(texts)
        lengths = array("Q", map(len, texts))
        begin = cast(c_char_p(self.joined), c_void_p).value
        self.places = array("Q", bytes(16 * len(texts)))
        self.places[0::2] = array("Q", accumulate(lengths[:-1], initial=begin))
        self.places[1::2] = lengths
        self.given = (TextFacts * len(texts)).from_buffer(self.places)


class Handle(Structure):
    _fields_ = [("held", c_void_p), ("full", c_uint8)]


class ReplyFacts(Structure):
    kind: int
    code: int
    status: int
    validate_error: int
    multi_error: int
    number: int
    multi_position: int
    _fields_ = [
        *((name, c_uint8) for name in ("kind", "code", "status", "validate_error", "multi_error")),
        ("number", c_uint16), ("multi_position", c_uint16),
    ]


class ReportFacts(Structure):
    _fields_ = [
        ("clock", c_uint64), ("free", c_uint32), ("requester", c_uint32),
        *((name, c_uint16) for name in ("used", "shown_number", "crc", "remaining", "position")),
        *((name, c_uint8) for name in ("mode", "shown_memory", "priority", "activate", "validate", "multi")),
    ]


class DefaultFacts(Structure):
    _fields_ = [
        (name, c_uint8)
        for name in ("font", "line", "page", "page_on", "page_off", "flash_on", "flash_off", "fore", "back")
    ]


class MessageFacts(Structure):
    multi: int
    owner: int
    crc: int
    code: int
    status: int
    priority: int
    beacon: int
    pixel: int
    _fields_ = [
        ("multi", c_size_t), ("owner", c_size_t), ("crc", c_uint16),
        *((name, c_uint8) for name in ("code", "status", "priority", "beacon", "pixel")),
    ]


class TableFacts(Structure):
    _fields_ = [("bytes", c_uint32), ("slots", c_uint16), ("max_string", c_uint16), ("permanents", c_uint8)]


class FontFacts(Structure):
    _fields_ = [("version", c_uint16), *((name, c_uint8) for name in ("number", "height", "char_spacing", "line_spacing"))]


OCTETS = [c_char_p, c_size_t]
BUFFER = [POINTER(c_char), c_size_t]
HANDLE = [POINTER(Handle)]
MESSAGE = [POINTER(Handle), c_uint8, c_uint16]
REPLY = [POINTER(ReplyFacts)]

# What each call takes; a pointer from `bytes` is never NULL, and an array of ctypes neither. All but those of `OTHERS` return an outcome.
EXPORTS: dict[str, list[Any]] = {
    "sign": [*OCTETS, POINTER(SignFacts)],
    "check": [*OCTETS, *OCTETS, POINTER(VerdictFacts)],
    "check_all": [*OCTETS, POINTER(TextFacts), c_size_t, POINTER(VerdictFacts), c_size_t],
    "shown_at": [*OCTETS, *OCTETS, c_uint64, POINTER(ShownFacts)],
    "plane_at": [*OCTETS, *OCTETS, c_uint64, c_uint8, *BUFFER],
    "plane_of_page": [*OCTETS, *OCTETS, c_uint8, c_uint64, c_uint8, *BUFFER],
    "colours_at": [*OCTETS, *OCTETS, c_uint64, *BUFFER],
    "colours_of_page": [*OCTETS, *OCTETS, c_uint8, c_uint64, *BUFFER],
    "controller_new": [*OCTETS, *HANDLE],
    "request": [*MESSAGE, c_uint8, *REPLY],
    "set_multi": [*MESSAGE, *OCTETS, *REPLY],
    "set_owner": [*MESSAGE, *OCTETS, *REPLY],
    "set_priority": [*MESSAGE, c_uint8, *REPLY],
    "set_beacon": [*MESSAGE, c_uint8, *REPLY],
    "set_pixel_service": [*MESSAGE, c_uint8, *REPLY],
    "clear": [*HANDLE, *REPLY],
    "work": [*HANDLE, *REPLY],
    "activate": [*HANDLE, *OCTETS, *REPLY],
    "set_end": [*HANDLE, *OCTETS, *REPLY],
    "tick": [*HANDLE, c_uint32, *REPLY],
    "set_default": [*HANDLE, c_uint8, c_uint8, *REPLY],
    "report": [*HANDLE, POINTER(ReportFacts)],
    "defaults": [*HANDLE, POINTER(DefaultFacts)],
    "steps": [*HANDLE, POINTER(c_uint64)],
    "row": [*MESSAGE, POINTER(MessageFacts), *BUFFER, *BUFFER],
    "frame": [*HANDLE, c_uint8, POINTER(ShownFacts), *BUFFER],
}
# The calls that a library of version 2 has more, and from `explain` on those of version 3.
LATER: dict[str, list[Any]] = {
    "colours": [*HANDLE, POINTER(ShownFacts), *BUFFER],
    "next_change": [*HANDLE, c_uint32, POINTER(c_uint32)],
    "held_table": [*HANDLE, POINTER(TableFacts)],
    "held_font": [*HANDLE, c_uint8, POINTER(FontFacts)],
    "held_check": [*HANDLE, *OCTETS, POINTER(VerdictFacts)],
    "held_plane_of_page": [*HANDLE, *OCTETS, c_uint8, c_uint64, c_uint8, *BUFFER],
    "held_colours_of_page": [*HANDLE, *OCTETS, c_uint8, c_uint64, *BUFFER],
    "explain": [*OCTETS, *OCTETS, c_uint8, *BUFFER, POINTER(c_size_t)],
    "film": [*OCTETS, *OCTETS, c_uint8, c_uint16, *BUFFER, POINTER(c_size_t)],
    "sentence": [c_uint8, c_uint8, *BUFFER, POINTER(c_size_t)],
    "save_size": [*HANDLE, POINTER(c_size_t)],
    "save": [*HANDLE, *BUFFER, POINTER(c_size_t)],
    "restore": [*HANDLE, *OCTETS, POINTER(c_uint8)],
    "revision": [*HANDLE, POINTER(c_uint64)],
    "end": [*HANDLE, *BUFFER],
}
OTHERS: dict[str, tuple[Any, list[Any]]] = {
    "controller_free": (None, HANDLE),
    "message_crc": (c_uint16, [*OCTETS, c_uint8, c_uint8]),
    "version": (c_uint32, []),
}


class Library:
    """A loaded library. `path` is the file, and `version` the number of its header."""

    def __init__(self, path: Path) -> None:
        try:
            loaded = ctypes.CDLL(str(path))
        except OSError as fault:
            raise WrongLibrary(f"{path} can't be loaded: {fault}") from fault
        self.path = path
        self.calls: dict[str, Any] = {}
        returned = {name: (c_uint8, words) for name, words in (EXPORTS | LATER).items()} | OTHERS
        for name, (result, words) in returned.items():
            try:
                call = getattr(loaded, f"latsefur_{name}")
            except AttributeError as fault:
                if name in LATER:
                    continue
                raise WrongLibrary(f"{path} has no call latsefur_{name}") from fault
            call.restype, call.argtypes = result, words
            self.calls[name] = call
        self.version = int(self.calls["version"]())
        if self.version < OLDEST_VERSION:
            raise WrongLibrary(f"{path} has version {self.version}, and at least {OLDEST_VERSION} is needed")

    def __repr__(self) -> str:
        return f"<latsefur library {str(self.path)!r}, version {self.version}>"

    def call(self, name: str, *words: Any, answers: tuple[int, ...] = (DONE,)) -> int:
        """Makes a call. Any other outcome than these answers is raised, and `WrongLibrary` if the library hasn't the call."""
        if name not in self.calls:
            raise WrongLibrary(f"{self.path} has version {self.version}, and the call latsefur_{name} came later")
        outcome = int(self.calls[name](*words))
        if outcome not in answers:
            raise named(outcome)
        return outcome


def places() -> list[Path]:
    """Where a library is looked for if none is named: in the package, then in the repository that the package stands in."""
    here = Path(__file__).resolve().parent
    return [here / NAME, *(above / "out" / "hosts" / NAME for above in list(here.parents)[2:3])]


LOADED: dict[Path, Library] = {}
LOADING = threading.Lock()


def load(path: Optional[PathLike] = None) -> Library:
    """Loads the library, once for each file.

    It is the file at `path`; or that which the variable `LATSEFUR_LIBRARY` names; or the one in the package, as a wheel has it; or the one
    that `bin/latsefur-archive` has made in the repository that the package stands in.

    Raises `LibraryNotFound` if there is none, and `WrongLibrary` if it is none of Latsefur.
    """
    given = path if path is not None else os.environ.get(VARIABLE) or None
    wanted = [Path(given)] if given is not None else places()
    there = next((place.resolve() for place in wanted if place.is_file()), None)
    if there is None:
        looked = " and ".join(map(str, wanted))
        raise LibraryNotFound(f"no library is at {looked}; {VARIABLE} names one, and bin/latsefur-archive makes one")
    with LOADING:
        if there not in LOADED:
            LOADED[there] = Library(there)
        return LOADED[there]


def sentence_of(kind: int, number: int) -> Optional[str]:
    """The sentence of a number of a kind, or `None` if it has none."""
    buffer, count = create_string_buffer(MOST_SENTENCE), c_size_t()
    if load().call("sentence", kind, number, buffer, len(buffer), byref(count), answers=(DONE, BAD_VALUE)) == BAD_VALUE:
        return None
    return buffer.raw[:count.value].decode("ascii")
