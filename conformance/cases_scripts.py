"""The scripts of the conformance cases, family by family.

A script is a list of lines of the script language for one sign.  The families go through the
status table, the fields, the places and their refusals, the budget, validation, activation,
durations, defaults and the forms of lines, and then through random scripts from a fixed seed.
"""

from __future__ import annotations

import random
from itertools import product
from typing import Callable, Iterator, Sequence

from second_control import Controller, message_crc, swapped
from second_multi import judge

Script = list[str]
Scripts = Iterator[Script]

PLACES = [(m, 1) for m in range(9)] + [(255, 1), (2, 0), (2, 2), (2, 3), (3, 0), (3, 2), (3, 4)]
PLACES += [(3, 9), (5, 0), (5, 2), (7, 0), (7, 9), (7, 255), (7, 256), (3, 65535), (2, 65535)]


def code(minutes: int, priority: int, place: tuple[int, int], crc: int, source: int = 1) -> str:
    """The hexadecimal digits of a MessageActivationCode."""
    memory, number = place
    return f"{minutes:04x}{priority:02x}{memory:02x}{number:04x}{crc:04x}{source:08x}"


def activate(
    place: tuple[int, int], crc: int, priority: int = 255, minutes: int = 65535, source: int = 1
) -> str:
    return "activate " + code(minutes, priority, place, crc, source)


def end(place: tuple[int, int], crc: int) -> str:
    return f"end {place[0]:02x}{place[1]:04x}{crc:04x}"


def crc_of(text: str, beacon: int = 0, pixel: int = 0) -> int:
    return message_crc(text.encode("latin-1"), beacon, pixel)


def stored(text: str, slot: int = 1) -> Script:
    """A message put into a slot and validated."""
    return [f"request 3 {slot} 6", f"multi 3 {slot} {text}", f"request 3 {slot} 7", "work"]


def reaching(status: int, text: str = "A") -> Script:
    """Lines that bring slot 1 into a status: notUsed to error."""
    if status == 5:
        return stored("[x]")
    return [] if status == 1 else stored(text)[:status]


# ---------------------------------------------------------------- the message table


def status_table(controller: Controller) -> Scripts:
    for status, request in product(range(1, 6), list(range(11)) + [255]):
        yield reaching(status) + [f"request 3 1 {request}", "row 3 1", "report"]


def written_fields(controller: Controller) -> Scripts:
    lines = [
        "multi 3 1 B",
        "multi 3 1",
        "multi 3 1 ",
        "multix 3 1 4142",
        "owner 3 1 4f",
        "owner 3 1",
    ]
    lines += [f"priority 3 1 {v}" for v in (0, 1, 2, 255)]
    lines += [f"{name} 3 1 {v}" for name in ("beacon", "pixel") for v in (0, 1, 2, 255)]
    for status, line in product(range(1, 6), lines):
        yield reaching(status) + [line, "row 3 1"]


def places(controller: Controller) -> Scripts:
    writes = ["request {p} 6", "request {p} 9", "multi {p} A", "multix {p} 41", "owner {p} 41"]
    writes += ["priority {p} 0", "priority {p} 9", "beacon {p} 1", "pixel {p} 2", "row {p}"]
    for memory, number in PLACES:
        place = f"{memory} {number}"
        yield [write.format(p=place) for write in writes]
        yield ["request 3 1 6"] + [f"row {place}", f"multi {place} A", f"row {place}", "report"]
        yield [activate((memory, number), 0), activate((memory, number), 0x0F47), "report"]
        yield [end((memory, number), 0), activate((7, 2), 0, minutes=0), "tick 0", "report"]


def budget(controller: Controller) -> Scripts:
    limits = controller.limits
    sizes = {0, 1, 126, 127, 128, limits.max_string - 1, limits.max_string, limits.max_string + 1}
    sizes |= {limits.bytes - 1, limits.bytes, limits.bytes + 1, limits.bytes // 2}
    usable = sorted(size for size in sizes if 0 <= size <= 300)
    for size in usable:
        yield ["request 3 1 6", "multi 3 1 " + "A" * size, "report", "owner 3 1 41", "report"]
        yield ["request 3 1 6", "owner 3 1 " + "41" * size, "report", "multi 3 1 A", "report"]
    for first, second in product(usable, usable):
        if 0 < first <= 70 and 0 < second <= 70:
            yield [
                "request 3 1 6",
                "request 3 2 6",
                "multi 3 1 " + "A" * first,
                "multi 3 2 " + "I" * second,
                "multi 3 1 AA",
                "owner 3 2 4142",
                "request 3 1 8",
                "multi 3 2 " + "I" * second,
                "report",
            ]
    yield ["request 3 1 6", "owner 3 1 4142", "owner 3 1 41", "owner 3 1", "row 3 1", "report"]
    yield ["request 3 1 6", "priority 3 1 7", "beacon 3 1 1", "request 3 1 8", "row 3 1", "report"]
    yield ["request 3 1 6", "multi 3 1 A", "clear", "row 3 1", "report", "clear"]
    yield stored("A") + ["request 3 1 6", "row 3 1", "multi 3 1 AI", "row 3 1", "request 3 1 7"]


def texts(controller: Controller) -> list[str]:
    return [
        "",
        "A",
        "[x]",
        "A]",
        "[jl9]",
        "A" * 12,
        "[np]I",
        "[jl4]A[jl2]A",
        "[cf3]I[pb1]",
        "[fo9]A",
    ]


def validation(controller: Controller) -> Scripts:
    for text, beacon, pixel in product(texts(controller), (0, 1), (0, 1)):
        fields = [f"beacon 3 1 {beacon}", f"pixel 3 1 {pixel}", f"multi 3 1 {text}"]
        shown = activate((3, 1), crc_of(text, beacon, pixel))
        yield ["request 3 1 6"] + fields + ["request 3 1 7", "work", "row 3 1", shown, "report"]
    for order in product((1, 2), (1, 2)):
        waiting = [f"request 3 {slot} 6" for slot in (1, 2)] + ["multi 3 1 A]", "multi 3 2 I"]
        yield waiting + [f"request 3 {slot} 7" for slot in order] + [
            "work",
            "work",
            "work",
            "report",
        ]
    yield stored("A]") + stored("A", 2) + ["report"]
    yield stored("A]") + ["request 3 2 6", "beacon 3 2 1", "pixel 3 2 1", "request 3 2 7", "work"]


# ---------------------------------------------------------------- activation and time


def activation(controller: Controller) -> Scripts:
    places = [((3, 1), crc_of("A")), ((7, 1), 0), ((7, 200), 0x0F47), ((5, 1), crc_of("I"))]
    places += [((2, k), message.crc) for k, message in enumerate(controller.permanent, 1)]
    raised = ["request 3 1 6", "priority 3 1 100", "request 3 1 7", "work"]
    displayed = stored("I") + raised + [activate((3, 1), crc_of("I"), 100, 9)]
    for (place, crc), head in product(places, [stored("A"), displayed]):
        for given in dict.fromkeys([crc, swapped(crc), crc ^ 1, 0, 0x0F47, 0x470F, 0xFFFF]):
            yield head + [activate(place, given), "row 5 1", "report"]
        for priority, minutes in product((0, 99, 100, 101), (0, 1, 65534)):
            yield head + [activate(place, crc, priority, minutes, 0xC0A80001), "report"]


def activation_by_status(controller: Controller) -> Scripts:
    for status, given in product(range(1, 6), (crc_of("A"), crc_of(""), crc_of("[x]"), 0x1234)):
        lines = reaching(status) + [activate((3, 1), given, 0), activate((3, 1), given)]
        yield lines + ["row 5 1", "report"]


def display_is_a_copy(controller: Controller) -> Scripts:
    changes = [
        "request 3 1 8",
        "request 3 1 6",
        "clear",
        "default fore 0",
        "default font 9",
        "work",
    ]
    for change, other in product(changes, changes):
        lines = stored("AI") + [activate((3, 1), crc_of("AI")), change, other, "row 5 1", "frame 1"]
        yield lines + [activate((5, 1), crc_of("AI")), "frame 1", activate((3, 1), crc_of("AI"))]


def current_buffer(controller: Controller) -> Scripts:
    shown = [activate((7, 9), 0), activate((3, 1), crc_of("A"))]
    for first, crc, priority in product(
        shown, (0, 0x0F47, 0x470F, crc_of("A"), swapped(crc_of("A"))), (1, 255)
    ):
        again = activate((5, 1), crc, priority, 2, 0x0A000001)
        yield stored("A") + [first, "tick 7", again, "report", "row 5 1", "tick 1200", "report"]


def durations(controller: Controller) -> Scripts:
    ends = ["", end((3, 1), crc_of("A")), end((3, 1), crc_of("I"))]
    ends += [end((2, k), message.crc) for k, message in enumerate(controller.permanent, 1)]
    ends += [end((7, 5), 0x470F), end((7, 5), 1), end((5, 1), crc_of("A")), end((5, 1), 0)]
    ends += [end((1, 1), 0), end((3, 2), 0), end((2, 99), 0)]
    for last, minutes in product(ends, (0, 1, 2)):
        tenths = minutes * 600
        for tick in dict.fromkeys([0, 1, max(tenths - 1, 0), tenths, tenths + 7, 4294967295]):
            lines = stored("A") + ([last] if last else [])
            lines += [activate((3, 1), crc_of("A"), 9, minutes), f"tick {tick}", "report"]
            yield lines + ["row 5 1", f"tick {tick}", "report"]
    for change in ["request 3 1 8", "default font 5", "default line 5", "clear"]:
        lines = stored("AA") + [end((3, 1), crc_of("AA")), activate((7, 3), 0, minutes=1), change]
        yield lines + ["tick 600", "row 5 1", "report", "frame 1"]
    yield [activate((7, 1), 0)] + ["tick 4294967295"] * 3 + ["report"]
    yield [activate((7, 1), 0, minutes=65534), "tick 39320399", "report", "tick 1", "report"]


def frames(controller: Controller) -> Scripts:
    """Frames of flashing texts and of pages, at clocks that ticks reach."""
    rows = ["[flt3o2]A", "[flo3t2]I", "[pt3o1]A[np]I", "[fl]A[/fl]I", "[pb]A[np][cf0]I", "[pto3]I"]
    for text, colour in product(rows, (0, 1, 2, 9, 10, 255)):
        lines = stored(text) + [activate((3, 1), crc_of(text)), f"frame {colour}"]
        for tenths in (1, 2, 1):
            lines += [f"tick {tenths}", f"frame {colour}"]
        yield lines


# ---------------------------------------------------------------- defaults


def defaults(controller: Controller) -> Scripts:
    names = "font line page page_on page_off flash_on flash_off fore back".split()
    uses = {"font": "[fo]A[fo]", "line": "[jl3]A[jl]I", "page": "[jp]A", "fore": "A[cf1]I[cf]I"}
    uses |= {
        "page_on": "[pt]A[np]I",
        "page_off": "[pt1]A[np]I",
        "back": "[pb]I",
        "flash_on": "[fl]A",
    }
    uses |= {"flash_off": "[flt1]A"}
    fonts = [font.number for font in controller.sign.fonts]
    for name in names:
        for value in list(range(8)) + [9, 10, 255] + (fonts if name == "font" else []):
            text = uses[name]
            lines = [f"default {name} {value}", "defaults"] + stored(text)
            yield lines + [activate((3, 1), crc_of(text)), "tick 2", "frame 1"]
    for first, second in zip(names, names[1:]):
        yield [f"default {first} 0", f"default {second} 3", f"default {first} 2", "defaults"]


def kept_and_present(change: str, text: str) -> Scripts:
    """A change of defaults after a message is valid, shown, or named for a duration's end."""
    crc = crc_of(text)
    shown, again = activate((3, 1), crc), activate((5, 1), crc)
    yield stored(text) + [change, shown, "report", "frame 1"]
    yield stored(text) + [shown, change, "frame 1", again, "frame 1", shown, "frame 1", "report"]
    lines = stored(text) + [end((5, 1), crc), activate((3, 1), crc, minutes=1), change]
    yield lines + ["tick 601", "frame 1", "report"]
    lines = stored(text) + [end((3, 1), crc), activate((7, 1), 0, minutes=1), change]
    yield lines + ["frame 0", "tick 601", "frame 1", "report"]


def widest(controller: Controller) -> str:
    """As many letters as fit one line in the default font."""
    sign = controller.sign
    texts = ["A" * count for count in range(1, 12)]
    return max(text for text in texts if judge(sign, text.encode()).accepted)


def defaults_in_force(controller: Controller) -> Scripts:
    changes = ["default line 5", "default line 4", "default back 3", "default page 2"]
    changes += ["default fore 5", "default page_on 1", "default flash_off 0"]
    changes += [f"default font {font.number}" for font in controller.sign.fonts]
    for change, text in product(changes, ["AI", "A[np]I", "[jl]A[jl2]I"]):
        yield from kept_and_present(change, text)
    for font in controller.sign.fonts:
        for text in [widest(controller), f"{widest(controller)}[nl]I", "[jp]I[nl][nl]I", "[[", "W"]:
            yield from kept_and_present(f"default font {font.number}", text)
    for line in ("2", "4", "5"):
        for text in [f"[jl]A[jl{line}]I", f"[jl{line}]A[jl]I", f"[jl3]A[jl]I"]:
            yield from kept_and_present(f"default line {line}", text)
    yield ["default back 1", "frame 1", activate((7, 1), 0), "frame 1", "default back 0", "frame 1"]


# ---------------------------------------------------------------- forms of lines


def forms_of_lines(controller: Controller) -> Scripts:
    """Lines that are no command, and lines that nearly are none, between two good ones."""
    lines = [" work", "work ", "WORK", "Work", "works", "wor", "clear 1", "report ", "report 1"]
    lines += [
        "",
        "#",
        "# x",
        " #",
        "#\tx",
        "tick",
        "tick ",
        "tick -1",
        "tick +1",
        "tick 1 ",
        "tick  1",
    ]
    lines += [
        "tick 4294967295",
        "tick 4294967296",
        "tick 0000000001",
        "tick 00000000001",
        "tick 0x1",
    ]
    lines += [
        "tick 1 1",
        "frame",
        "frame 255",
        "frame 256",
        "frame 0000000001",
        "frame 1 1",
        "frame x",
    ]
    lines += ["activate", "activate ffff", "activate " + "0" * 24, "activate " + "0" * 23]
    lines += ["activate " + "0" * 26, "activate " + "0" * 23 + "g", "activate  " + "0" * 24]
    lines += ["activate FFFF8007000100007F000001", "activate ffFF800700010000abCDef01"]
    lines += [
        "end",
        "end 0700010000",
        "end 07000100001",
        "end 070001000",
        "end 07 00010000",
        "END 0700010000",
    ]
    lines += ["request 3 1 6", "request 3 1", "request 3 1 6 ", "request 3  1 6", "request  3 1 6"]
    lines += ["request 256 1 6", "request 3 65536 6", "request 3 1 256", "request 03 01 06"]
    lines += [
        "request 3 1 x",
        "request 0000000003 1 6",
        "request 00000000003 1 6",
        "request 3 1 6 6",
    ]
    lines += [
        "multi 3 1",
        "multi 3 1 ",
        "multi 3 1  ",
        "multi 3 1 A B",
        "multi 3",
        "multi",
        "multi 3 ",
    ]
    lines += ["multi  3 1 A", "multi 3  1 A", "multi 3 x A", "multi 256 1 A", "multi 3 1\tA"]
    lines += ["multix 3 1", "multix 3 1 ", "multix 3 1 4", "multix 3 1 41", "multix 3 1 4g"]
    lines += ["multix 3 1 41 42", "multix 3 1  41", "multix 3 1 aAfF", "owner 3 1", "owner 3 1 "]
    lines += ["owner 3 1 414", "owner 3 1 FF", "owner 3 1 x", "priority 3 1", "priority 3 1 256"]
    lines += ["priority 3 1 5", "priority 3 1 5 5", "beacon 3 1 1", "beacon 3 1", "pixel 3 1 256"]
    lines += ["row", "row 3", "row 3 1", "row 3 1 1", "row 3 1 ", "row 0 0", "row 255 65535"]
    lines += ["row 256 1", "row 3 65536", "row 0000000007 0000000009", "default", "default font"]
    lines += [
        "default font 1",
        "default font 256",
        "default Font 1",
        "default font  1",
        "default size 1",
    ]
    lines += ["default font 1 1", "default page-on 1", "default page_on 1", "defaults", "defaults "]
    lines += ["defaults 1", "defaults font", "%%", "check A", "multi3 1 A", "\x7f", "~"]
    for line in lines:
        yield ["request 3 1 6", line, "row 3 1"]


# ---------------------------------------------------------------- random scripts


def random_line(controller: Controller, draw: random.Random) -> str:
    slot = draw.randint(1, 3)
    text = draw.choice(["A", "I", "AI", "A A", "[np]I", "[x]", "A[fl]I", "[jl]A[jp2]I", ""])
    place = draw.choice([(3, slot), (3, slot), (7, 1), (7, 30), (5, 1), (2, 1)])
    crc = draw.choice(
        [crc_of("A"), crc_of("I"), crc_of("AI"), 0, 0x470F, controller.display.message.crc]
    )
    if place == (3, slot) and slot in controller.slots and draw.random() < 0.8:
        crc = controller.slots[slot].crc
    if place == (2, 1) and controller.permanent:
        crc = controller.permanent[0].crc
    priority, minutes = draw.choice([1, 5, 255]), draw.choice([0, 1, 3, 65535])
    name = draw.choice("font line page page_on page_off flash_on flash_off fore back".split())
    choices = [
        f"request 3 {slot} 6",
        f"request 3 {slot} 7",
        f"multi 3 {slot} {text}",
        "work",
        "work",
    ]
    choices += [f"request 3 {slot} {draw.choice([6, 7, 7, 8, 9])}", f"multi 3 {slot} {text}"]
    choices += [f"priority 3 {slot} {draw.choice([0, 1, 5, 6])}", f"owner 3 {slot} 4142"]
    choices += [
        f"beacon 3 {slot} {draw.choice([0, 0, 1, 2])}",
        f"pixel 3 {slot} {draw.choice([0, 1])}",
    ]
    choices += [activate(place, crc, priority, minutes), activate(place, crc, 255, minutes)]
    choices += [end(place, crc), f"tick {draw.choice([0, 1, 5, 599, 600, 1800])}", "tick 600"]
    choices += [
        f"row 3 {slot}",
        "row 5 1",
        "report",
        "report",
        f"default {name} {draw.randint(0, 9)}",
    ]
    return draw.choice(choices)


def leading(controller: Controller, draw: random.Random) -> Script:
    """A message made and shown, so that random lines meet more than empty slots."""
    text = draw.choice(["A", "I", "AI", "A A", "A[np]I"])
    made = stored(text) if draw.random() < 0.8 else []
    return made + ([activate((3, 1), crc_of(text), 200, 1)] if draw.random() < 0.5 else [])


def random_scripts(controller: Controller) -> Scripts:
    draw = random.Random(f"scripts on {controller.sign.width} by {controller.sign.height}")
    for _ in range(66):
        lines = leading(controller, draw)
        lines += [random_line(controller, draw) for _ in range(draw.randint(4, 12))]
        yield lines + ["report"]


Family = Callable[[Controller], Scripts]

FAMILIES: list[tuple[str, Sequence[str], Family]] = [
    ("status", ["corridor", "pinhole"], status_table),
    ("field", ["harbour", "mill"], written_fields),
    ("place", ["corridor", "mosaic"], places),
    ("budget", ["corridor", "harbour", "pinhole"], budget),
    ("validation", ["corridor", "harbour", "mill", "orchard", "archive", "pinhole"], validation),
    ("activation", ["corridor", "harbour"], activation),
    ("unready", ["harbour", "orchard"], activation_by_status),
    ("copy", ["corridor", "mosaic"], display_is_a_copy),
    ("current", ["corridor", "orchard", "archive"], current_buffer),
    ("duration", ["corridor", "archive"], durations),
    ("frame", ["corridor", "archive", "mosaic"], frames),
    ("default", ["mill", "archive", "mosaic"], defaults),
    ("present", ["mill", "archive"], defaults_in_force),
    ("line", ["corridor"], forms_of_lines),
    ("random", ["corridor", "harbour", "mill", "orchard", "archive", "mosaic"], random_scripts),
]
