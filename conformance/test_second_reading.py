"""Every worked row of the specification, by the second reading."""

from __future__ import annotations

import os
import random
import unittest
from itertools import pairwise, product
from typing import Iterator, Optional, Sequence

import second_reading as program
from second_control import Controller, Message, crc16, message_crc, script_line
from second_multi import (
    Text,
    check_limit,
    drawing_limit,
    frame_limit,
    meaning,
    read_items,
)

SAMPLE = program.SAMPLE_SIGN.read_bytes()
Places = list[tuple[int, int]]


def changed(*changes: tuple[str, str]) -> bytes:
    """The sample sign with some of its text changed."""
    text = SAMPLE.decode()
    for old, new in changes:
        assert old in text, old
        text = text.replace(old, new, 1)
    return text.encode()


def on_top(line: str) -> tuple[str, str]:
    return ("width = 12", line + "\nwidth = 12")


WORDS = changed(on_top('line_fill = "words"'))
CLASSIC = changed(("monochrome", "classic"))

HIGH = b"""
width = 1024
height = 128
scheme = "monochrome"
max_pages = 255
slots = 1
bytes = 4
max_string = 4096
[defaults]
font = 1
line = 3
page = 3
page_on = 30
page_off = 0
flash_on = 5
flash_off = 5
fore = 1
back = 0
[[font]]
number = 1
height = 1
char_spacing = 0
line_spacing = 0
cell = [ { number = 73, width = 1, bits = "80" } ]
"""


def text_on(sign: bytes, octets: str | bytes) -> Text:
    octets = octets.encode("latin-1") if isinstance(octets, str) else octets
    made = program.make_controller(sign).sign
    return Text(made, made.defaults, octets)


def answer(octets: str, sign: bytes = SAMPLE) -> str:
    output = program.check(sign + b"\n%%\n" + octets.encode("latin-1") + b"\n")
    assert output.fault is None, output.fault
    return output.octets.decode().rstrip("\n")


def cells(octets: str, sign: bytes = SAMPLE, page: int = 0) -> Places:
    text = text_on(sign, octets)
    assert text.verdict().accepted, octets
    return [place for _, place in sorted(text.places(page).items())]


def shown(octets: str, clock: int, colour: int = 1, sign: bytes = SAMPLE) -> list[str]:
    lines = sign + b"\n%%\n" + octets.encode() + b"\n"
    output = program.show(lines, colour=colour, clock=clock)
    assert output.fault is None, output.fault
    return output.octets.decode().splitlines()


def lit(octets: str, clock: int, colour: int = 1, sign: bytes = SAMPLE) -> int:
    return "".join(shown(octets, clock, colour, sign)[1:]).count("#")


def sign_fault(sign: bytes) -> Optional[str]:
    fault = program.check(sign + b"\n%%\n").fault
    return None if fault is None else fault.removeprefix("signctl: ")


SCRIPT_P = """request 3 1 6 => done
multi 3 1 A => done
priority 3 1 200 => done
request 3 1 7 => done
work => worked 1 4 2 2 0
work => idle"""

FRAME_OF_A = [
    "page 0 phase 0",
    "............",
    "............",
    ".....#......",
    "....###.....",
    "....#.#.....",
    "............",
    "............",
]


class Scripts(unittest.TestCase):
    """Runs scripts whose lines show the command and the reply."""

    def expect(self, script: str, sign: bytes = SAMPLE) -> Controller:
        controller = program.make_controller(sign)
        for row in script.splitlines():
            line, _, reply = row.partition(" => ")
            with self.subTest(line=line):
                replies = script_line(controller, line.encode())
                self.assertEqual(b"\n".join(replies).decode(), reply)
        return controller


class Strings(unittest.TestCase):
    """Expects answers and places of strings."""

    def expect(self, rows: Sequence[tuple[str, str]], sign: bytes = SAMPLE) -> None:
        for octets, reply in rows:
            with self.subTest(string=octets[:40]):
                self.assertEqual(answer(octets, sign), reply)

    def expect_cells(self, rows: Sequence[tuple[str, Places]], sign: bytes = SAMPLE) -> None:
        for octets, places in rows:
            with self.subTest(string=octets):
                self.assertEqual(cells(octets, sign), places)


class Verdicts(Strings):
    """Strings on the sample sign."""

    def test_empty_string_is_one_dark_page(self) -> None:
        self.expect([("", "ok 1")])
        self.assertEqual(lit("", 0), 0)

    def test_one_cell_is_centred(self) -> None:
        self.expect([("A", "ok 1")])
        self.expect_cells([("A", [(4, 2)])])
        self.assertEqual(shown("A", 0), FRAME_OF_A)

    def test_three_cells_fit_and_a_fourth_does_not(self) -> None:
        self.expect([("AAA", "ok 1"), ("AAAI", "error 5 3")])

    def test_lines(self) -> None:
        self.expect([("A[nl]A", "ok 1"), ("A[nl]A[nl]", "ok 1"), ("A[nl]A[nl]A", "error 5 10")])

    def test_empty_lines(self) -> None:
        self.expect([("[nl][nl]", "ok 1"), ("[nl][nl][nl]", "error 5 8")])

    def test_gap_of_a_new_line(self) -> None:
        self.expect([("A[nl0]A", "ok 1"), ("A[nl2]A", "error 5 6")])
        self.assertEqual([row for _, row in cells("A[nl0]A")], [0, 3])

    def test_doubled_brackets(self) -> None:
        self.expect([("[[I]]", "ok 1"), ("[[B", "error 7 2")])
        self.assertEqual([column for column, _ in cells("[[I]]")], [2, 5, 7])

    def test_brackets_and_tags_that_are_none(self) -> None:
        self.expect([("A]", "error 3 1"), ("[nl", "error 3 0"), ("[]", "error 3 0")])
        self.expect([("[g1]", "error 3 0"), ("[nlx]", "error 4 0"), ("]]]", "error 3 2")])

    def test_too_many_pages(self) -> None:
        self.expect([("A[np]A[np]A", "error 12 6"), ("[np]", "ok 2"), ("[np][np]", "error 12 4")])
        self.expect([("AAAA[np][np]", "error 5 3"), ("A[np]A[np]AAAAA", "error 12 6")])
        self.expect([("A[np]A", "ok 2"), ("A[NP]", "ok 2")])

    def test_limits_on_pages(self) -> None:
        self.expect([("[np]", "error 12 0")], changed(("max_pages = 2", "max_pages = 1")))
        many = changed(("max_pages = 2", "max_pages = 255"))
        self.expect([("[np]" * 254, "ok 255"), ("[np]" * 255, "error 12 1016")], many)

    def test_two_fonts_on_a_line(self) -> None:
        self.expect([("[fo2]A[fo1]A", "ok 1")])
        self.expect_cells([("[fo2]A[fo1]A", [(1, 1), (7, 3)])])

    def test_order_of_justifications(self) -> None:
        self.expect([("[jl4]A[jl2]A", "error 11 11"), ("[jl4]A[nl][jl2]", "ok 1")])
        self.expect([("[jp4]A[jp2]A", "error 11 11")])

    def test_fit_of_segments(self) -> None:
        self.expect([("[jl2]I[jl3]AA[jl4]I", "ok 1"), ("[jl2]A[jl3]AA", "error 5 12")])

    def test_full_line_is_spread(self) -> None:
        self.expect([("[jl5]AAA", "ok 1")])
        self.assertEqual([column for column, _ in cells("[jl5]AAA")], [0, 4, 9])

    def test_fonts_and_versions(self) -> None:
        self.expect(
            [("[fo9]A", "error 6 0"), ("[fo0]", "error 4 0"), ("[fo1,0002]A", "error 13 0")]
        )
        self.expect([("[fo1,1a2B]A", "ok 1"), ("[fo2]I", "error 7 5")])

    def test_rectangles(self) -> None:
        self.expect([("[tr7,1,6,0]A", "ok 1"), ("[tr7,1,6,0]AA", "error 5 12")])
        self.expect([("[tr8,1,6,7]", "error 4 0"), ("[tr13,1,0,0]", "error 4 0")])
        self.expect([("[tr0,1,0,0]", "error 4 0"), ("[tr1,1,2,0]A", "error 5 11")])
        self.expect_cells([("[tr7,1,6,0]A", [(7, 2)])])
        self.expect_cells([("[tr1,1,3,3]A[tr10,5,3,3]A", [(0, 0), (9, 4)])])

    def test_rectangle_ends_at_a_new_page(self) -> None:
        self.expect([("[tr1,1,3,3][np]A", "ok 2")])
        self.assertEqual(cells("[tr1,1,3,3][np]A", page=1), [(4, 2)])

    def test_long_strings(self) -> None:
        self.expect([("[" * 4096, "error 5 8"), ("A" * 4097, "too long"), ("A" * 8300, "too long")])

    def test_character_spacing(self) -> None:
        self.expect([("[sc0]AAAA", "ok 1"), ("[sc0]AAAAA", "error 5 9")])
        self.expect([("A[sc5]A[/sc]A", "error 5 12")])
        self.expect_cells([("A[sc4]A", [(1, 2), (8, 2)])])

    def test_page_justification(self) -> None:
        self.expect_cells([("[jp2]A[jp4]A", [(4, 0), (4, 4)])])
        self.expect([("[jp2]A[jp3]A", "error 5 11")])

    def test_full_beside_others(self) -> None:
        self.expect([("[jl2]A[jl5]A", "error 11 11")])
        self.expect_cells([("[jl5]A[jl5]A", [(0, 2), (9, 2)])])

    def test_tags_of_the_table(self) -> None:
        taken = ["[PT30O0]", "[pto5]", "[FO01]"]
        bad = ["[sc]", "[np1]", "[jl1]", "[cf255,0,0]", "[foo]", "[pt256]", "[nl123456]"]
        bad += ["[fo256]", "[/fl1]", "[tr1,1,0]"]
        unknown = ["[cb1]", "[f1]", "[ms]", "[x]", "[/]", "[/f]", "[n]"]
        self.expect([(tag, "ok 1") for tag in taken])
        self.expect([(tag, "error 4 0") for tag in bad])
        self.expect([(tag, "error 3 0") for tag in unknown])

    def test_characters_by_number(self) -> None:
        self.expect([("[hc41]", "ok 1"), ("[HC0041]", "ok 1"), ("[hc5b]", "ok 1")])
        self.expect([("[hc42]", "error 7 0"), ("A[hc41]AA", "error 5 8")])
        self.expect([(tag, "error 4 0") for tag in ["[hc]", "[hc0]", "[hc12345]", "[hcG]"]])
        self.assertEqual(shown("[hc41]", 0), FRAME_OF_A)
        last = '  { number = 93, width = 2, bits = "dc" },\n'
        wide = changed((last, last + '  { number = 65535, width = 1, bits = "e0" },\n'))
        self.expect([("[hcffff]", "ok 1")], wide)
        self.assertEqual(sign_fault(wide.replace(b"65535", b"65536")), "sign not read")


class Items(unittest.TestCase):
    def test_items_of_doubled_brackets(self) -> None:
        items, broken = read_items(b"[[I]]")
        found = [(item.character, item.at, len(item.spelling())) for item in items]
        self.assertEqual(found, [(91, 0, 2), (73, 2, 1), (93, 3, 2)])
        self.assertIsNone(broken)

    def test_values_of_tags(self) -> None:
        rows = {
            b"[flT5o05]": ("on first", (5, 5)),
            b"[flo7t3]": ("off first", (7, 3)),
            b"[pto5]": ("pt", (None, 5)),
            b"[fo1,1a2B]": ("fo", (1, 6699)),
            b"[tr1,1,0,0]": ("tr", (1, 1, 0, 0)),
            b"[hc41]": ("character", (65,)),
        }
        for octets, value in rows.items():
            item = meaning(read_items(octets)[0][0])
            self.assertEqual((item.kind, item.values), value)

    def test_spelling_gives_the_string_back(self) -> None:
        for octets in [b"A[np]]][[", b"[[np]]", b"[nl]\x00\xff[x]"]:
            items, broken = read_items(octets)
            self.assertEqual(b"".join(item.spelling() for item in items), octets)
            self.assertIsNone(broken)


class Pictures(unittest.TestCase):
    def test_flash(self) -> None:
        seen = [lit("[flt5o5]A[/fl]", clock) > 0 for clock in (0, 4, 5, 9, 10)]
        self.assertEqual(seen, [True, True, False, False, True])
        seen = [lit("[flo5t5]A", clock) > 0 for clock in (0, 5, 10)]
        self.assertEqual(seen, [False, True, False])
        self.assertGreater(lit("[flt0o0]A", 7), 0)

    def test_page_times(self) -> None:
        rows = [
            ("[pt10o5]A[np]A", 9, "page 0 phase 9"),
            ("[pt10o5]A[np]A", 10, "off"),
            ("[pt10o5]A[np]A", 15, "page 1 phase 0"),
            ("[pt10o5]A[np]A", 29, "off"),
            ("[pt10o5]A[np]A", 30, "page 0 phase 0"),
            ("[pt0o0]A[np]A", 42, "page 0 phase 42"),
            ("[pt0o5]A[np]A", 0, "off"),
            ("A[np]A[pt10]", 30, "page 1 phase 0"),
            ("A[np]A[pt10]", 40, "page 0 phase 0"),
        ]
        for octets, clock, head in rows:
            self.assertEqual(shown(octets, clock)[0], head)

    def test_off_is_dark(self) -> None:
        self.assertEqual(lit("[pt0o5]A[np]A", 0, colour=0), 84)
        self.assertEqual(lit("[pt0o5]A[np]A", 0, colour=1), 0)

    def test_colours(self) -> None:
        def count(octets: str, colour: int, sign: bytes) -> int:
            return lit(octets, 0, colour, sign)

        self.assertEqual(count("[cf3]A[pb1]", 1, CLASSIC), 84)
        self.assertEqual(count("[cf3]A[pb1]", 3, CLASSIC), 0)
        self.assertEqual(count("[pb1][cf3]A", 1, CLASSIC), 78)
        self.assertEqual(count("[pb1][cf3]A", 3, CLASSIC), 6)
        self.assertEqual(count("[cf3]A", 1, SAMPLE), 6)
        self.assertEqual(count("[cf3]A", 3, SAMPLE), 0)


class Filling(Strings):
    """Lines filled by words."""

    def test_lines_by_words(self) -> None:
        rows: list[tuple[str, Places]] = [
            ("AA AA", [(2, 0), (6, 0), (2, 4), (6, 4)]),
            ("AAA A", [(0, 0), (4, 0), (8, 0), (4, 4)]),
            ("[jl4]A AAA", [(9, 0), (1, 4), (5, 4), (9, 4)]),
            ("[jl5]AA AA", [(0, 0), (9, 0), (0, 4), (9, 4)]),
            ("[tr1,1,1,0] I", [(0, 4)]),
        ]
        self.expect_cells(rows, WORDS)
        self.assertEqual(cells("AAA  A", WORDS)[-1], (6, 4))
        places = cells("A A A", WORDS)
        self.assertEqual([places[0], places[2], places[3]], [(1, 0), (8, 0), (4, 4)])

    def test_refused_by_words(self) -> None:
        self.expect([("AA AA", "error 5 3")])
        self.expect([("AAAA", "error 5 3"), ("AA AA AA", "error 5 6")], WORDS)
        self.expect([("[jl4]AA [jl2]AA", "error 11 13")], WORDS)

    def test_choices(self) -> None:
        self.expect([("AAA ", "ok 1"), ("AAA [nl]A", "error 5 8")], WORDS)
        self.expect([("AA[jl4] [jl2]AA", "error 11 13")], WORDS)
        self.expect(
            [("A[nl9]", "ok 1"), ("[jl4]A[jl2][nl]", "ok 1"), ("[jl5]A[jl2]A", "error 11 11")]
        )


class HighSign(Strings):
    """A sign of the largest size with a font of one pixel."""

    def test_lines(self) -> None:
        self.expect([("[nl]" * 128, "ok 1"), ("[nl]" * 129, "error 5 512")], HIGH)
        self.expect([("[nl]" * 128 + "I", "error 5 512"), ("[nl]" * 127 + "I", "ok 1")], HIGH)

    def test_many_tags(self) -> None:
        string = "[tr1,1,0,0]" * 372 + "IIII"
        self.expect([(string, "ok 1"), ("[np]" * 254, "ok 255"), ("[pb]" * 1024, "ok 1")], HIGH)
        self.assertEqual(cells(string, HIGH), [(column, 63) for column in range(510, 514)])
        self.expect([("[" + "a" * 4095, "error 3 0")], HIGH)

    @unittest.skipUnless(os.environ.get("LONG"), "long strings only with LONG=1")
    def test_long_lines(self) -> None:
        self.expect([("I" * 4096, "error 5 1024")], HIGH)
        self.expect([(("I" * 1024 + "[nl]") * 3 + "I" * 1012, "ok 1")], HIGH)


class MessageTable(Scripts):
    def test_budget_and_refusals(self) -> None:
        self.expect(
            f"""request 3 1 6 => done
multi 3 1 AAAA => done
multi 3 1 AAAAA => refused 7
row 3 1 => row 3 1 2 1 0 0 6db5 - 41414141
request 3 2 6 => refused 2
multi 2 1 A => refused 3
multi 4 1 A => refused 1
priority 3 1 0 => refused 5
multi 3 1 {'A' * 65} => refused 6
request 3 1 7 => done
multi 3 1 A => refused 4"""
        )

    def test_owner_counts(self) -> None:
        self.expect(
            """request 3 1 6 => done
owner 3 1 4142 => done
owner 3 1 4142434445 => refused 7
multi 3 1 AAA => refused 7
row 3 1 => row 3 1 2 1 0 0 0f47 4142 -"""
        )

    def test_status_table_and_work(self) -> None:
        self.expect(
            """request 3 1 7 => refused 4
request 3 1 5 => refused 5
request 3 1 9 => refused 5
priority 3 1 0 => refused 4
priority 5 1 9 => refused 3
priority 5 2 9 => refused 2
priority 7 9 9 => refused 3
row 7 0 => refused 2
row 7 256 => refused 2
row 3 0 => refused 2
request 3 1 6 => done
multi 3 1 AAAI => done
request 3 1 7 => done
request 3 1 6 => refused 4
work => worked 1 5 5 5 3
request 3 1 6 => done
beacon 3 1 1 => done
pixel 3 1 1 => done
request 3 1 7 => done
work => worked 1 5 3 5 3
request 3 1 6 => done
beacon 3 1 0 => done
request 3 1 7 => done
work => worked 1 5 4 5 3
work => idle
clear => done
row 3 1 => row 3 1 1 1 0 0 0f47 - -
report => report used=0 free=4 mode=1 shown=7/1 crc=0000 priority=1 remaining=65535 \
requester=00000000 activate=2 validate=4 multi=5 position=3 clock=0"""
        )

    def test_gaps_in_the_budget(self) -> None:
        sign = changed(("slots = 1", "slots = 3"), ("bytes = 4\n", "bytes = 10\n"))
        controller = self.expect(
            """request 3 1 6 => done
request 3 2 6 => done
request 3 3 6 => done
multi 3 1 AA => done
multi 3 2 BBB => done
multi 3 3 CCCC => done
multi 3 2 BBBBB => refused 7
multi 3 2 BBBB => done
request 3 1 8 => done
owner 3 2 7879 => done
multi 3 3 => done
row 3 2 => row 3 2 2 1 0 0 4db3 7879 42424242""".replace(
                "4db3", "%04x" % message_crc(b"BBBB", 0, 0)
            ),
            sign,
        )
        self.assertEqual(controller.limits.bytes - controller.used_bytes(), 4)

    def test_rows_at_making(self) -> None:
        self.expect(
            """row 3 1 => row 3 1 1 1 0 0 0f47 - -
row 7 9 => row 7 9 4 9 0 0 0000 - -
row 2 1 => row 2 1 4 5 0 0 ab77 - 41414149"""
        )

    def test_crc(self) -> None:
        self.assertEqual(crc16(b"123456789"), 0x906E)
        self.assertEqual(message_crc(b"", 0, 0), 0x0F47)
        self.assertEqual(message_crc(b"A", 0, 0), 0x9A66)
        self.assertEqual(message_crc(b"AAAA", 0, 0), 0x6DB5)
        self.assertEqual(message_crc(b"AAAI", 0, 0), 0xAB77)


class Activation(Scripts):
    def test_validation(self) -> None:
        self.expect(SCRIPT_P)

    def test_crc_and_priority(self) -> None:
        self.expect(
            SCRIPT_P
            + """
activate ffff800300019a677f000001 => not shown 7
activate ffff80030001669a7f000001 => shown
report => report used=1 free=3 mode=8 shown=3/1 crc=9a66 priority=200 remaining=65535 \
requester=7f000001 activate=2 validate=2 multi=2 position=0 clock=0
activate ffff8007000100007f000001 => not shown 3
activate ffffc8070001470f7f000001 => shown"""
        )

    def test_end_of_a_duration(self) -> None:
        self.expect(
            SCRIPT_P
            + """
activate 000180030001669a7f000001 => shown
tick 599 => ticked
report => report used=1 free=3 mode=8 shown=3/1 crc=9a66 priority=200 remaining=1 \
requester=7f000001 activate=2 validate=2 multi=2 position=0 clock=599
tick 6 => ended
report => report used=1 free=3 mode=14 shown=7/1 crc=0000 priority=1 remaining=65535 \
requester=7f000001 activate=2 validate=2 multi=2 position=0 clock=5
activate 0000800300019a667f000001 => shown
tick 0 => ended"""
        )

    def test_display_is_a_copy(self) -> None:
        frame = "\n".join(FRAME_OF_A)
        script = SCRIPT_P + "\nactivate ffff800300019a667f000001 => shown\nrequest 3 1 8 => done"
        controller = self.expect(script)
        self.assertEqual(b"\n".join(controller.frame(1)).decode(), frame)
        for line, reply in [
            (b"activate ffff800300019a667f000001", b"not shown 4"),
            (b"activate ffffc80500019a667f000001", b"shown"),
        ]:
            self.assertEqual(script_line(controller, line), [reply])

    def test_syntax_at_activation(self) -> None:
        self.expect(
            """activate ffff80020001ab777f000001 => not shown 8
report => report used=0 free=4 mode=1 shown=7/1 crc=0000 priority=1 remaining=65535 \
requester=00000000 activate=8 validate=2 multi=5 position=3 clock=0"""
        )

    def test_memory_types_and_numbers(self) -> None:
        script = "".join(
            f"activate ffff80{m:02x}0001000000000000 => not shown 5\n" for m in (1, 4, 6)
        )
        for place in ("030000", "030002", "050002", "070000", "020002"):
            script += f"activate ffff80{place}000000000000 => not shown 6\n"
        script += "activate ffff80030001123400000000 => not shown 4\n"
        script += "activate ffff00030001123400000000 => not shown 4"
        self.expect(script)

    def test_end_duration_message(self) -> None:
        sign = changed(('multi = "AAAI"', 'multi = "A"'))
        self.expect(
            """end 0200019a66 => done
activate 0001ff0700010f4700000000 => shown
tick 600 => ended
row 5 1 => row 5 1 4 5 0 0 9a66 - 41
report => report used=0 free=4 mode=14 shown=2/1 crc=9a66 priority=5 remaining=65535 \
requester=00000000 activate=2 validate=2 multi=2 position=0 clock=0""",
            sign,
        )

    def test_end_duration_message_that_is_not_accepted(self) -> None:
        self.expect(
            """end 020001ab77 => done
activate 0001ff0700010f4700000000 => shown
tick 600 => ended
row 5 1 => row 5 1 4 1 0 0 0000 - -"""
        )

    def test_defaults_by_command(self) -> None:
        self.expect(
            """request 3 1 6 => done
multi 3 1 AAAA => done
request 3 1 7 => done
work => worked 1 4 2 2 0
activate ffff800300016db500000000 => shown
default font 2 => done
activate ffff800500016db500000000 => shown
activate ffff800300016db500000000 => not shown 8
report => report used=1 free=0 mode=8 shown=3/1 crc=6db5 priority=1 remaining=65535 \
requester=00000000 activate=8 validate=2 multi=5 position=3 clock=0
row 3 1 => row 3 1 4 1 0 0 6db5 - 41414141
default font 9 => refused 10
default font 0 => refused 9
default line 1 => refused 9
defaults => defaults 2 3 3 30 0 5 5 1 0""",
            changed(("width = 12", "width = 16")),
        )
        output = program.run(b"default size 1\n", sample=True)
        self.assertEqual(output.fault, "signctl: line 1: bad line")


class SignFiles(unittest.TestCase):
    def test_faults_of_the_sign(self) -> None:
        font = "[[font]]\nnumber = {n}\nheight = 1\nchar_spacing = 0\nline_spacing = 0\n"
        rows: list[tuple[bytes, str]] = [
            (changed(("width = 12", "width = 1025")), "sign fault 1"),
            (changed(("height = 7", "height = 129")), "sign fault 1"),
            (changed(("width = 12", "width = 0")), "sign fault 1"),
            (
                changed(("number = 1\nv", "number = 2\nv"), ("number = 2\nh", "number = 1\nh")),
                "sign fault 2",
            ),
            (changed(("height = 5", "height = 65")), "sign fault 2"),
            (SAMPLE + "".join(font.format(n=n) for n in range(3, 18)).encode(), "sign fault 2"),
            (changed(('"5e80"', '"5e81"')), "sign fault 3"),
            (changed(('"5e80"', '"5e"')), "sign fault 3"),
            (changed(("number = 65, width = 4", "number = 0, width = 4")), "sign fault 3"),
            (changed(("font = 1", "font = 3")), "sign fault 4"),
            (changed(("line = 3", "line = 1")), "sign fault 4"),
            (changed(("max_pages = 2", "max_pages = 0")), "sign fault 5"),
            (
                changed(("max_pages = 2", "max_pages = 0"), ("width = 12", "width = 0")),
                "sign fault 1",
            ),
            (changed(("slots = 1", "slots = 0")), "sign fault 5"),
            (changed(('"5e80"', '"5"')), "sign not read"),
            (changed(on_top('line_fill = "none "')), "sign not read"),
        ]
        for sign, fault in rows:
            with self.subTest(fault=fault):
                self.assertEqual(sign_fault(sign), fault)

    def test_cell_numbers_above_255(self) -> None:
        self.assertIsNone(
            sign_fault(changed(("number = 65, width = 4", "number = 256, width = 4")))
        )

    def test_no_line_between(self) -> None:
        self.assertEqual(program.check(SAMPLE).fault, "signctl: sign not read")

    def test_permanent_messages(self) -> None:
        controller = program.make_controller(SAMPLE)
        self.assertEqual(controller.permanent, [Message(4, b"AAAI", b"", 5, 0, 0)])


class Lines(unittest.TestCase):
    def test_sample_run(self) -> None:
        output = program.check(b"A[np]A\n", sample=True)
        self.assertEqual((output.octets, output.fault, output.status), (b"ok 2\n", None, 0))

    def test_unfinished_command(self) -> None:
        output = program.run(b"request 3 1 6\nmulti 3 1 A", sample=True)
        self.assertEqual((output.octets, output.status), (b"done\n", 1))
        self.assertEqual(output.fault, "signctl: line 2: bad line")

    def test_bad_lines(self) -> None:
        bad = [b" work", b"work ", b"tick", b"frame 256", b"activate ffff", b"owner 3 1 414"]
        for line in bad + [b"request 3  1 6", b"tick 00000000001", b"default font 256", b"\r\r"]:
            with self.subTest(line=line):
                output = program.run(b"clear\n" + line + b"\nclear\n", sample=True)
                self.assertEqual(output.octets, b"done\n")
                self.assertEqual(output.fault, "signctl: line 2: bad line")

    def test_lines_passed_over(self) -> None:
        octets = b"\n#x\r\nrequest 3 1 6\nmulti 3 1\nmulti 3 1 \ntick 0000000001\n"
        output = program.run(octets, sample=True)
        self.assertEqual(output.octets, b"done\ndone\ndone\nticked\n")
        self.assertIsNone(output.fault)

    def test_long_lines(self) -> None:
        output = program.check(b"A" * 8300 + b"\r\n", sample=True)
        self.assertEqual((output.octets, output.fault), (b"too long\n", None))
        output = program.check(b"A" * 8301 + b"\n", sample=True)
        self.assertEqual(output.fault, "signctl: line 1: too long")
        output = program.check(b"A" * 9000, sample=True)
        self.assertEqual(output.fault, "signctl: line 1: bad line")

    def test_input_too_long(self) -> None:
        output = program.run(b"\n" * 16_777_217, sample=True)
        self.assertEqual((output.octets, output.fault), (b"", "signctl: input too long"))


class Choices(Scripts):
    """Where the specification leaves a choice."""

    def test_attributes_across_pages(self) -> None:
        self.assertEqual(cells("[jp4]A[np]A", page=1), [(4, 4)])
        self.assertEqual(lit("[pb1][pt1o1]A[np]A", 2, sign=CLASSIC), 84)

    def test_absent_values_set_the_default(self) -> None:
        rows = {
            "[pt10o5]A[np][pt20]A": [(10, 5), (20, 0)],
            "[pt10o5]A[np][pto1]A": [(10, 5), (30, 1)],
            "[pt10o5]A[np]A[pt]": [(10, 5), (30, 0)],
        }
        for octets, times in rows.items():
            self.assertEqual(text_on(SAMPLE, octets).times(), times)
        self.assertEqual([lit("[flt9o9]A[flt3]I", c) for c in (2, 3, 9)], [9, 6, 3])

    def test_flash_with_a_time_of_nothing(self) -> None:
        self.assertEqual([lit("[flt0o5]A", clock) for clock in range(6)], [0] * 6)
        self.assertEqual([lit("[flt5o0]A", clock) for clock in range(6)], [6] * 6)

    def test_one_page_is_always_shown(self) -> None:
        self.assertEqual(shown("[pt0o5]A", 42)[0], "page 0 phase 42")

    def test_colours_above_one_are_empty_on_a_monochrome_sign(self) -> None:
        self.assertEqual(lit("[cf2]A", 0, colour=2), 0)
        output = program.run(b"frame 255\n", sample=True)
        self.assertEqual(output.octets.count(b"#"), 0)

    def test_an_accepted_blank_resets_the_syntax_error(self) -> None:
        self.expect(
            """request 3 1 6 => done
multi 3 1 A] => done
request 3 1 7 => done
work => worked 1 5 5 3 1
activate ffff80030001000000000000 => not shown 4
work => idle
activate ffff8007000100007f000001 => shown
report => report used=1 free=2 mode=8 shown=7/1 crc=0000 priority=1 remaining=65535 \
requester=7f000001 activate=2 validate=5 multi=2 position=0 clock=0"""
        )

    def test_current_buffer_at_the_end_of_a_duration(self) -> None:
        self.expect(
            SCRIPT_P
            + """
end 050001669a => done
activate 0001c80300019a667f000001 => shown
default font 2 => done
tick 601 => ended
report => report used=1 free=3 mode=14 shown=3/1 crc=9a66 priority=200 remaining=65535 \
requester=7f000001 activate=2 validate=2 multi=2 position=0 clock=1"""
        )

    def test_request_out_of_range(self) -> None:
        self.expect("request 2 1 9 => refused 3\nrequest 3 1 255 => refused 5")


class InputLines(unittest.TestCase):
    """Faults of inputs with a sign file."""

    def expect(self, octets: bytes, fault: Optional[str], written: bytes = b"") -> None:
        output = program.check(octets)
        self.assertEqual(output.fault, None if fault is None else "signctl: " + fault)
        self.assertEqual(output.octets, written)

    def test_long_lines_of_a_sign_file(self) -> None:
        long = b"# " + b"x" * 8300
        self.expect(long + b"\n" + SAMPLE + b"%%\nA\n", "line 1: too long")
        self.expect(long + b"\n", "line 1: too long")
        self.expect(long, "sign not read")
        self.expect(b"width\n%%\n" + long + b"\n", "sign not read")

    def test_line_between(self) -> None:
        self.expect(SAMPLE + b"%%", "sign not read")
        self.expect(SAMPLE + b"%%\r\nA\r\n", None, b"ok 1\n")
        self.expect(SAMPLE + b"%% \n%%\n", "sign not read")
        self.expect(b'x = """\n%%\n"""\n' + SAMPLE + b"%%\n", "sign not read")
        self.expect(SAMPLE + b"%%\n%%\n", None, b"error 7 0\n")
        self.expect(b"\xff\n%%\n", "sign not read")

    def test_kinds_and_limits_of_keys(self) -> None:
        rows = [
            (changed(("slots = 1", "slots = 70000")), "sign not read"),
            (changed(("slots = 1", "slots = 1001")), "sign fault 5"),
            (changed(("slots = 1", "slots = true")), "sign not read"),
            (changed(("slots = 1", "slots = 1.0")), "sign not read"),
            (changed(("priority = 5", "priority = 0")), "sign fault 5"),
            (changed(("priority = 5", "beacon = 2")), "sign fault 5"),
            (changed(("priority = 5", "beacon = 256")), "sign not read"),
            (changed(("max_string = 64", "max_string = 3")), "sign fault 5"),
            (changed(("max_string = 64", "max_string = 4097")), "sign fault 5"),
            (changed(("bytes = 4\n", "bytes = 1_000_001\n")), "sign fault 5"),
            (changed(('"69f990"', '""')), "sign fault 3"),
            (changed(('"69f990"', '"69f99g"')), "sign not read"),
            (changed(("monochrome", "full")), "sign not read"),
            (changed(on_top("beacons = 1")), "sign not read"),
            (changed(on_top("colour = 1")), None),
            (changed(("[defaults]", "[default]")), "sign not read"),
            (SAMPLE.partition(b"[[font]]")[0], "sign fault 2"),
            (b"font = []\n" + SAMPLE.partition(b"[[font]]")[0], "sign fault 2"),
            (b"font = 1\n" + SAMPLE.partition(b"[[font]]")[0], "sign not read"),
            (
                changed(("number = 2\nheight = 5", "number = 0\nheight = 5"), ("5e80", "5e")),
                "sign fault 2",
            ),
        ]
        for sign, fault in rows:
            with self.subTest(fault=fault):
                self.assertEqual(sign_fault(sign), fault)

    def test_input_too_long_without_a_sign(self) -> None:
        self.expect(b"#" * 8000 + (b"\n" + b"#" * 8000) * 2097, "input too long")


class Laws(unittest.TestCase):
    """Laws over the definitions, on random strings from a fixed seed."""

    def strings(self) -> Iterator[bytes]:
        draw = random.Random("laws")
        parts = [
            "A",
            "A",
            "I",
            " ",
            " ",
            "[nl]",
            "[np]",
            "[fo2]",
            "[fo]",
            "[jl4]",
            "[jl]",
            "]",
            "[[",
        ]
        parts += ["[jp4]", "[sc0]", "[tr1,1,7,0]", "[hc41]", "z", "[x]", "[jl9]"]
        for _ in range(300):
            yield "".join(draw.choices(parts, k=draw.randint(1, 9))).encode()

    def test_a_refusal_stands_for_every_continuation(self) -> None:
        for sign, octets in product((SAMPLE, WORDS), self.strings()):
            text = text_on(sign, octets)
            found = text.verdict()
            at = [k for k, item in enumerate(text.items) if item.at == found.position]
            if found.accepted or not at:
                continue
            end = found.position + len(read_items(octets)[0][at[0]].spelling())
            for tail in (b"", b"A", b"[np]", b"[", b"]"):
                self.assertEqual(text_on(sign, octets[:end] + tail).verdict(), found)

    def test_one_more_item_keeps_every_break(self) -> None:
        for octets in self.strings():
            text = text_on(WORDS, octets)
            if not text.verdict().accepted:
                continue
            placing = [k for k, i in enumerate(text.items) if i.kind in ("character", "nl")]
            for earlier, later in pairwise(placing):
                if text.last_before(later, "np", "tr") != text.last_before(earlier, "np", "tr"):
                    continue
                before, after = (self.breaks(text, index) for index in (earlier, later))
                self.assertEqual(after[: len(before)], before)
                self.assertLessEqual(len(after), len(before) + 1)

    def breaks(self, text: Text, index: int) -> list[int]:
        """The last character before each break of the last run of the last group."""
        area = text.area_up_to(index)
        groups = text.groups(area)
        assert groups is not None
        ended = [line for lines in groups.values() for line in lines if line.ended]
        return [line.characters[-1].index for line in ended if line.characters]


class Limits(unittest.TestCase):
    def test_limits_on_steps(self) -> None:
        self.assertEqual([check_limit(n) for n in (0, 1, 4, 64)], [1, 10, 37, 577])
        self.assertEqual([frame_limit(n, 5, 14) for n in (0, 1, 4, 64)], [18, 59, 196, 2866])
        self.assertEqual(check_limit(6), 55)
        self.assertEqual(55 + check_limit(6) + drawing_limit(6, 5, 14), 278)

    def test_limits_on_long_strings(self) -> None:
        self.assertEqual(check_limit(4_194_308), 37_748_773)
        self.assertEqual(check_limit(4096), 36_865)
        self.assertEqual(drawing_limit(6, 5, 14), 168)
        self.assertEqual(drawing_limit(1016, 1, 16_384), 4_197_226)
        self.assertEqual(drawing_limit(4096, 1, 16_384), 16_871_426)


if __name__ == "__main__":
    unittest.main()
