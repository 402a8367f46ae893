"""What a roadside message sign says to a message, and the pages that it shows: NTCIP 1203 v03, by a proved library.

    from latsefur import Sign

    sign = Sign.from_file("signs/portable.toml")
    verdict = sign.check("ROAD[nl]WORK[nl]AHEAD")
    print(verdict.accepted, verdict.pages)

`Sign` judges texts in MULTI and draws their pages, and `Controller` keeps messages and shows them. `latsefur.script` runs the scripts of
`docs/formats.md`. All times are in tenths of a second; pages, rows, columns and octets count from 0, and messages from 1.
"""
from . import script
from .controller import NO_END, ActivationCode, Controller, EndCode, message_crc
from .errors import (
    BadLength, BadValue, CommandRefused, LargeFilm, LatsefurError, LibraryNotFound, LongFilm, NoController, NoDefault, NoFont, NoMemory, NoPage,
    NoSignFile, NotAnOctet, Outcome, SignFault, StateRefused, TableFault, TextRefused, TextTooLong, TooSmall, WrongLibrary,
)
from .library import Library, load
from .picture import COLOURS, Picture, Plane, Shown
from .protocol import MessageSign
from .replies import (
    Activated, Defaults, Display, Done, Ended, Font, Frame, Idle, Message, NotSet, NotShown, Refusal, Refused, Reply, Report, Table, Ticked,
    Worked,
)
from .script import BadLine
from .served import NoAnswer, ProgramNotFound, SignStopped
from .sign import Sign, Verdict
from .simulated import SimulatedSign, UnexpectedReply
from .values import (
    ActivateError, Default, DefaultError, Memory, MultiError, Request, SourceMode, StateFault, Status, TableError, Text, ValidateError
)

__all__ = [
    "COLOURS", "NO_END", "ActivateError", "Activated", "ActivationCode", "BadLength", "BadLine", "BadValue", "CommandRefused",
    "Controller", "Default", "DefaultError", "Defaults", "Display", "Done", "EndCode", "Ended", "Font", "Frame", "Idle", "LargeFilm",
    "LatsefurError", "Library", "LibraryNotFound", "LongFilm", "Memory", "Message", "MessageSign", "MultiError", "NoAnswer",
    "NoController", "NoDefault", "NoFont", "NoMemory", "NoPage", "NoSignFile", "NotAnOctet", "NotSet", "NotShown", "Outcome", "Picture",
    "Plane", "ProgramNotFound", "Refusal", "Refused", "Reply", "Report", "Request", "Shown", "Sign", "SignFault", "SignStopped",
    "SimulatedSign", "SourceMode", "StateFault", "StateRefused", "Status", "Table", "TableError", "TableFault", "Text", "TextRefused",
    "TextTooLong", "Ticked", "TooSmall", "UnexpectedReply", "ValidateError", "Verdict", "Worked", "WrongLibrary", "load", "message_crc",
    "script",
]
