"""The strings of the conformance cases, family by family.

A family is a way of choosing strings for a sign: by the rows of the tag table, by pairs of tags,
by sizes at the limits, by errors, and at random from a fixed seed.
"""

from __future__ import annotations

import random
from dataclasses import dataclass
from itertools import product
from typing import Callable, Iterator, Sequence

from second_multi import Font, Sign, Text

Strings = Iterator[str]

ALL = "corridor harbour mill orchard archive pinhole gantry mosaic".split()
SMALL = [name for name in ALL if name not in ("pinhole", "gantry")]
FILLING = ["mill", "orchard", "mosaic"]


@dataclass(frozen=True)
class Setting:
    """A sign with the letters that the families use on it."""

    name: str
    sign: Sign

    @property
    def font(self) -> Font:
        font = self.sign.font(self.sign.defaults.font)
        assert font is not None
        return font

    @property
    def letter(self) -> str:
        return "A" if self.font.cell(65) is not None else "I"

    def fonts(self) -> list[Font]:
        """Three fonts at most: the first, the default one and the last."""
        chosen = [self.sign.fonts[0], self.font, self.sign.fonts[-1]]
        return [font for k, font in enumerate(chosen) if font not in chosen[:k]]


# ---------------------------------------------------------------- octets and brackets


def every_octet(setting: Setting) -> Strings:
    for octet in range(256):
        yield chr(octet)


def brackets_and_octets(setting: Setting) -> Strings:
    for bracket in "[]":
        for octet in range(256):
            yield bracket + chr(octet)


def one_octet_bodies(setting: Setting) -> Strings:
    for octet in range(256):
        yield f"[{chr(octet)}]"


def words_of_brackets(setting: Setting) -> Strings:
    for length in range(6):
        for word in product("[]I", repeat=length):
            yield "".join(word)


def broken_tags(setting: Setting) -> Strings:
    a = setting.letter
    for tag in ["np", "nl", "nl1", "jl3", "x", "tr1,1,0,0"]:
        for form in ["[{t}", "{t}]", "[[{t}]", "[{t}]]", "[[{t}]]", "[{t}[", "[{t}[]", "[[[{t}]]]"]:
            yield form.format(t=tag)
            yield a + form.format(t=tag) + a


# ---------------------------------------------------------------- the table of tags

DECIMALS = ["", "0", "1", "00", "01", "9", "10", "99", "100", "255", "256", "00255", "00256"]
DECIMALS += ["65535", "65536", "99999", "100000", "000000", "000001"]
ODD = ["-1", "+1", " 1", "1 ", "x", "1x", "1.0", "1,1", "1o1", "t1", ",", "\x00", "1\n", "\xb2"]
HEXADECIMALS = ["", "0", "1", "20", "41", "5b", "5B", "5d", "0041", "00041", "ff", "100", "FFFF"]
HEXADECIMALS += ["fffe", "10000", "G", "4e2D", "0", "0000", "00000", " 41", "41 ", "-1", "0x41"]

EDGES = {"jl": range(0, 8), "jp": range(0, 7), "cf": range(0, 12), "pb": range(0, 12)}
TIMES = ["", "0", "1", "99", "100", "255", "256", "00001", "000001", "x"]


def bodies_with_one_number() -> Strings:
    for name in ["np", "nl", "jl", "jp", "sc", "/sc", "/fl", "cf", "pb"]:
        for rest in DECIMALS + ODD + [str(n) for n in EDGES.get(name, [])]:
            yield name + rest


def bodies_of_fonts() -> Strings:
    for number in DECIMALS + ODD + ["2", "3", "5", "254"]:
        yield "fo" + number
    for number in ["1", "5", "01", "0", "255", "256", ""]:
        for version in ["", "0", "1a2b", "1A2B", "01a2b", "00000", "ffff", "abcd", "g", "1,1"]:
            yield f"fo{number},{version}"


def bodies_with_times() -> Strings:
    for first in TIMES:
        yield "pt" + first
        yield "flt" + first
        yield "flo" + first
        yield "fl" + first
    for first, second in product(TIMES, ["", "0", "255", "256", "01", "x"]):
        yield f"pt{first}o{second}"
        yield f"flt{first}o{second}"
        yield f"flo{first}t{second}"
    yield from ["pto", "ptoo", "pt1t1", "ptt1", "flto", "flot", "flt1t1", "flo1o1", "flt1o1t1"]
    yield from ["PT5O5", "flT5o5", "FLt5O5", "FlO5T5", "pt5 o5", "flt5,o5", "pt5o5o5"]


def bodies_of_rectangles() -> Strings:
    values = ["1", "2", "0", "00001", "99999", "100000", "000001", "", "x", "-1"]
    for place in range(4):
        for value in values:
            numbers = ["1", "1", "0", "0"]
            numbers[place] = value
            yield "tr" + ",".join(numbers)
    yield from ["tr", "tr1", "tr1,1", "tr1,1,0", "tr1,1,0,0,", "tr1,1,0,0,0", "tr,1,1,0,0"]
    yield from ["tr1 ,1,0,0", "tr1;1;0;0", "tr0,0,0,0", "TR1,1,1,1", "tr1,1,1,1"]


def bodies_by_number() -> Strings:
    for rest in HEXADECIMALS:
        yield "hc" + rest
        yield "HC" + rest


def bodies_of_table() -> list[str]:
    """Every row of the tag table with its boundary values, absent and odd rests."""
    made = [bodies_with_one_number(), bodies_of_fonts(), bodies_with_times()]
    made += [bodies_of_rectangles(), bodies_by_number()]
    return list(dict.fromkeys(body for bodies in made for body in bodies))


def table_of_tags(setting: Setting) -> Strings:
    for body in bodies_of_table():
        yield f"[{body}]"


def names_in_any_case(setting: Setting) -> Strings:
    rests = {"jl": "3", "jp": "3", "sc": "1", "fl": "t1o1", "tr": "1,1,0,0", "hc": "49"}
    for name in "np nl jl jp fo sc /sc pt fl /fl cf pb tr hc".split():
        for letters in product(*((c.lower(), c.upper()) for c in name)):
            yield f"I[{''.join(letters)}{rests.get(name, '')}]I"


def unknown_names(setting: Setting) -> Strings:
    known = "np nl jl jp fo sc pt fl cf pb tr hc".split()
    for first, second in product("abcdfghjlmnoprstv/", "bcfhjlnoprstvu"):
        if first + second not in known:
            yield f"[{first}{second}1]"
    yield from [
        "[cb1]",
        "[cr1,1,1,1,0]",
        "[f1]",
        "[f1,2]",
        "[g1]",
        "[g1,2,3]",
        "[ms1,2]",
        "[mvtdw]",
    ]
    yield from ["[/s]", "[/f]", "[/]", "[//sc]", "[/nl]", "[ nl]", "[n]", "[n l]", "[\xf1p]", "[0]"]
    yield from ["[/scx]", "[/SC1]", "[/flt]", "[foo]", "[flash]", "[nlnl]", "[npnp]", "[trx]"]


def taken_bodies(setting: Setting) -> list[str]:
    """Bodies of the table that have a value, one for each way to write it."""
    bodies = "np nl nl0 nl1 nl3 nl9 jl jl2 jl3 jl4 jl5 jp jp2 jp3 jp4 fo fo1 fo2 fo5 fo9".split()
    bodies += "fo3 fo200 fo1,1a2b fo5,1a2b sc0 sc1 sc2 sc9 sc100 /sc pt pt0 pt5 pt5o5".split()
    bodies += "pto5 pt0o0 fl flt flo flt1 flo1 flt1o2 flo1t2 flt0o0 flt0o1 flo0t1 /fl cf".split()
    bodies += "cf0 cf1 cf9 pb pb0 pb1 pb9 tr1,1,0,0 tr2,2,0,0 tr1,1,9,7 tr5,3,7,0 hc41".split()
    return bodies + "hc49 hc20 hc5b hc5d hc12c hc4e2d hc2003 hcffff".split()


def effects_of_tags(setting: Setting) -> Strings:
    a = setting.letter
    for body in taken_bodies(setting):
        yield f"{a}[{body}]{a}"
        yield f"[{body}]{a}I[np]{a}"


def pairs_of_tags(setting: Setting) -> Strings:
    a = setting.letter
    second = str(setting.fonts()[-1].number)
    bodies = f"np nl nl0 jl2 jl4 jl5 jp2 jp4 fo fo{second} sc0 sc3 /sc".split()
    bodies += "pt2o1 pto0 flt1o1 flo /fl cf cf2 pb pb3 tr1,1,0,0 tr4,2,9,7 hc20".split()
    for first, other in product(bodies, bodies):
        yield f"[{first}]{a}[{other}]I"


def absent_values(setting: Setting) -> Strings:
    """A tag without its value after the same tag with one."""
    a = setting.letter
    rows = {"jl": ["4", "5"], "jp": ["4"], "fo": [str(setting.fonts()[-1].number)]}
    rows |= {"cf": ["5"], "pb": ["6"], "pt": ["1o1"], "fl": ["t1o1", "o1t1"], "nl": ["3"]}
    for name, rests in rows.items():
        for rest in rests:
            yield f"[{name}{rest}]{a}[np][{name}]{a}"
            yield f"[{name}{rest}][{name}]{a}[np]{a}"
    for first, later in product(["1o1", "9", "o9", "0o0"], ["", "2", "o2", "2o", "o", "2o2"]):
        yield f"[pt{first}]{a}[pt{later}][np]I"
        yield f"[pt{first}]{a}[np]I[pt{later}]"
    for first, later in product(["t9o9", "o9t9"], ["", "t2", "o2", "t2o", "o2t", "to2", "ot2"]):
        yield f"[fl{first}]{a}[fl{later}]I"


# ---------------------------------------------------------------- errors


def provoking(setting: Setting) -> list[str]:
    """Strings that end in an error, for each error and each way to it."""
    a = setting.letter
    own = setting.font.version
    wide = a * (setting.sign.width // 2 + 2)
    return (
        ["[x]", "[cb1]", "]", "[", "[]", "[jl9]", "[sc]", "[tr0,1,0,0]", "[hc0]", "[cf10]"]
        + [wide, "[nl]" * (setting.sign.height + 1), "[fo77]", "[fo77,1]", "z", "[hc7a]"]
        + [f"[jp4]{a}[jp2]{a}", f"[jl4]{a}[jl2]{a}", f"[jp4]{a}[jp3][nl]", f"[jl5]{a}[jl4]{a}"]
        + [f"[jl2]{a}[jl5]{a}", f"[fo{setting.font.number},{own ^ 1:x}]"]
        + ["[np]" * (setting.sign.max_pages if setting.sign.max_pages < 9 else 1) + a]
    )


def errors(setting: Setting) -> Strings:
    a = setting.letter
    before = ["", a, f"{a}[nl]", "[np]", "[jl4][fl][cf1]"]
    for error, head, tail in product(provoking(setting), before, ["", "[x]", a]):
        yield head + error + tail


def pairs_of_errors(setting: Setting) -> Strings:
    """Two errors one after the other: the first counts."""
    for first, second in product(provoking(setting), provoking(setting)):
        yield first + second


def two_errors_of_one_item(setting: Setting) -> Strings:
    a = setting.letter
    full = a * (setting.sign.width // (setting.font.height * 2) + 1)
    tall = "[nl]" * (setting.sign.height // (setting.font.height + setting.font.line_spacing))
    yield from [f"[jl4]{a}[jl2]z", f"[jp4]{a}[jp2]z", f"[jl5]{a}[jl4]z", f"[jl5]{a}[jl4][hc7a]"]
    yield from [f"[jp4]{full}[jp2]{a}", f"[jl4]{full}[jl2]{a}", f"[jl4]{full}[jl2]{full}{full}"]
    yield from [f"[jp4]{tall}[jp2][nl]", f"[jp4]{tall}[nl]", f"[jp4]{tall}[jp2]{a}"]
    yield from ["[fo77,1]", "[fo77,0]", "[fo256,1]", "[fo0,1]", f"{tall}{tall}z", f"{full}{full}z"]
    yield from ["[tr0,1,99999,0]", "[tr99999,1,0,0]", "[tr1,1,99999,99999]", "[tr1,1,100000,0]"]


# ---------------------------------------------------------------- sizes at the limits


def letters_that_fit(font: Font, length: int, spacing: int, letter: str) -> int:
    cell = font.cell(ord(letter))
    width = 1 if cell is None else cell.width
    return max((length + spacing) // max(width + spacing, 1), 0)


def widths(setting: Setting) -> Strings:
    """Lines of about the width that fits, in each font, justification and spacing."""
    for font, jl, sc in product(setting.fonts(), ["", "2", "3", "4", "5"], [None, 0, 1, 255]):
        letter = "A" if font.cell(65) is not None else "I"
        spacing = font.char_spacing if sc is None else sc
        most = letters_that_fit(font, setting.sign.width, spacing, letter)
        head = f"[fo{font.number}][jl{jl}]" + ("" if sc is None else f"[sc{sc}]")
        for count in range(max(most - 1, 1), most + 2):
            yield head + letter * count
        yield head + letter * max(most - 1, 1) + "I"
        yield head + letter * max(most - 1, 1) + "II"


def heights(setting: Setting) -> Strings:
    """About as many lines as fit, in each font, page justification and gap."""
    for font, jp, gap in product(setting.fonts(), ["2", "3", "4"], ["", "0", "7"]):
        letter = "A" if font.cell(65) is not None else "I"
        between = int(gap) if gap else font.line_spacing
        most = (setting.sign.height + between) // (font.height + between)
        head = f"[fo{font.number}][jp{jp}]"
        for count in range(max(most, 1), min(most + 2, 140)):
            yield head + f"[nl{gap}]".join([letter] * count)
            yield head + f"[nl{gap}]" * count
        yield head + f"[nl{gap}]".join([letter] * min(most, 40)) + "[nl255]"
        yield head + f"{letter}[nl{gap}][nl{gap}]{letter}"


def rectangles(setting: Setting) -> Strings:
    """Rectangles at the edges of the sign, with a narrow character in them."""
    for across in (True, False):
        length = setting.sign.width if across else setting.sign.height
        for start in dict.fromkeys([0, 1, 2, length - 1, length, length + 1]):
            left = length - start + 1
            for size in dict.fromkeys([0, 1, left - 1, left, left + 1]):
                if start >= 0 and size >= 0:
                    place = f"{start},1,{size},0" if across else f"1,{start},0,{size}"
                    yield f"[tr{place}]I"
                    yield f"[tr{place}]"


def sizes_of_rectangles(setting: Setting) -> Strings:
    """Rectangles just as large as their text, or one less, at each justification."""
    width = sum(cell.width for cell in setting.font.cells if chr(cell.number) == setting.letter)
    a, height = setting.letter, setting.font.height
    two = 2 * width + setting.font.char_spacing
    for jl, jp in product(["2", "3", "4", "5"], ["2", "3", "4"]):
        for w, h in product([two - 1, two, two + 1], [height - 1, height, height + 3]):
            yield f"[tr2,1,{max(w, 0)},{max(h, 0)}][jl{jl}][jp{jp}]{a}{a}"


def several_rectangles(setting: Setting) -> Strings:
    a, w, h = setting.letter, setting.sign.width, setting.sign.height
    places = [f"1,1,{w // 2},0", f"{w // 2 + 1},1,0,0", f"1,1,0,{h // 2}", f"1,{h // 2 + 1},0,0"]
    places += ["1,1,0,0", f"2,2,{max(w - 2, 0)},0"]
    for first, second in product(places, places):
        yield f"[tr{first}]{a}[cf2][tr{second}]I"
        yield f"{a}[tr{first}][cf2]{a}[pb1][tr{second}][np]I"


def parts_of_a_line(setting: Setting) -> Strings:
    for left, centre, right in product(range(4), repeat=3):
        yield f"[jl2]{'A' * left}[jl3]{'A' * centre}[jl4]{'I' * right}"
        yield f"[jl2]{'I' * left}[jl3]{'AI' * centre}[jl4]{'A' * right}"


def parts_of_a_page(setting: Setting) -> Strings:
    lines = ["", "I", "I[nl]", "I[nl]I", "[nl2][nl0]"]
    for top, middle, bottom in product(lines, repeat=3):
        yield f"[jp2]{top}[jp3]{middle}[jp4]{bottom}"


def spacings(setting: Setting) -> Strings:
    """Characters and lines of several fonts beside each other."""
    fonts = setting.sign.fonts if setting.name != "gantry" else setting.fonts()
    for first, second in product(fonts, fonts):
        pair = f"[fo{first.number}]", f"[fo{second.number}]"
        for a, b, between in product("AI", "A", ["", "[nl]", "[sc1]", "[nl][nl]"]):
            yield f"{pair[0]}{a}{pair[1]}{between}{b}"
            yield f"{pair[0]}{a}{between}{pair[1]}{b}"


def orders(setting: Setting) -> Strings:
    """Justifications one after the other, of lines and of pages."""
    for first, second, third in product("2345", repeat=3):
        yield f"[jl{first}]I[jl{second}]I[jl{third}]I"
        yield f"[jl{first}]I[jl{second}][nl][jl{third}]I"
        yield f"[jl{first}]I[jl{second}][jl{third}]I[nl]I"
    for first, second, third in product("234", repeat=3):
        yield f"[jp{first}]I[jp{second}]I[jp{third}]I"
        yield f"[jp{first}]I[jp{second}][nl][jp{third}]I"
        yield f"[jp{first}]I[np][jp{second}]I[tr1,1,0,0][jp{third}]I"


def numbers_of_pages(setting: Setting) -> Strings:
    most = setting.sign.max_pages
    for count in dict.fromkeys([0, 1, most - 2, most - 1, most, most + 1]):
        if count >= 0:
            yield "[np]" * count
            yield "I[np]" * count + "I"
            yield "[np]" * count + "z"


# ---------------------------------------------------------------- times, flash, colours


def page_times(setting: Setting) -> Strings:
    values = ["", "0", "1", "255"]
    for on, off in product(values, values):
        yield f"[pt{on}o{off}]I"
        yield f"[pt{on}o{off}]I[np]A"
        yield f"I[np][pt{on}o{off}]A"
        yield f"I[pt{on}o{off}][np][pt2o3]A"
        yield f"[pt0o0]I[np]A[pt{on}o{off}][np]I"
        yield f"[pt{on}]I[np]A[pt{off}]"


def flashes(setting: Setting) -> Strings:
    values = ["", "0", "1", "3", "255"]
    for first, second in product(values, values):
        yield f"[flt{first}o{second}]A[/fl]I"
        yield f"[flo{first}t{second}]A[/fl]I"
    for head in ["fl", "flt", "flo", "flto", "flot", "flt2", "flo2"]:
        yield f"[{head}]A[/fl]I"
        yield f"I[np][pt9o2][{head}]A"
    yield from ["[/fl]I", "[flt1o1]I[flo1t1]I[/fl]I", "[flt1o1]I[np]I", "[pt3o1][flt2o2]I[np]A"]


def colours(setting: Setting) -> Strings:
    for fore, back in product(range(10), range(10)):
        yield f"[pb{back}][cf{fore}]AI" if (fore + back) % 2 else f"[cf{fore}]A[pb{back}]I"
    yield from ["[pb1]A[np]I", "[pb1]A[np][pb]I", "A[pb2]I[pb3]", "[pb2][pb3]A", "[cf2]A[cf]I"]
    yield from ["[cf2]A[pb3][np]I", "[pb4]I[np]I[pb5]", "[pb4]I[pb][np]I", "[cf0]A[pb0]"]


# ---------------------------------------------------------------- filling and wide numbers


def filling_by_words(setting: Setting) -> Strings:
    for alphabet, most in [(["AA", " "], 6), (["AAA", " ", "[nl]"], 5), (["AAAAI", " ", "I"], 4)]:
        for length in range(1, most + 1):
            for word in product(alphabet, repeat=length):
                yield "".join(word)


def filling_among_tags(setting: Setting) -> Strings:
    """Breaks at spaces with tags before, at and after the space."""
    second = setting.fonts()[-1].number
    tags = ["", "[jl2]", "[jl4]", "[jl5]", f"[fo{second}]", "[fo]", "[nl]", "[nl0]", "[nl3]"]
    tags += ["[jp3]", "[jp4]", "[tr1,1,0,0]", "[np]", "[sc0]", "[cf2]", "[fl]", "[hc20]", "I"]
    for before, after in product(tags, tags):
        yield f"AAA{before} {after}AAA"
    for width in range(1, 12):
        for text in ["I I", "I  I", " I", "  I", "A I", "II II I", " ", "  ", "   I"]:
            yield f"[tr1,1,{width},0]{text}"
    for jl in "2345":
        for text in ["AA AA AA", "A A A A A", "AAAA I ", "I AAAA", "AAA  AAA", "AA [nl] AA"]:
            yield f"[jl{jl}]{text}"
            yield f"[jl{jl}][jp3]{text}[jp4]{text}"


def characters_by_number(setting: Setting) -> Strings:
    for font in setting.sign.fonts:
        numbers = [cell.number for cell in font.cells]
        for number in numbers[:40] + numbers[-230:]:
            yield f"[fo{font.number}][hc{number:x}]"
        for number in numbers[::7]:
            for near in (number - 1, number + 1, number % 256):
                yield f"[fo{font.number}]I[hc{near:X}]" if near >= 0 else "I"
    yield from ["A[hc41]A", "[hc5b][[", "[hc5d]]]", "[hc0A]", "[hc41", "[hc41]]", "[hC41][Hc041]"]


def long_strings(setting: Setting) -> Strings:
    """Strings up to 4,096 octets."""
    yield "[np]" * 254 + "I"
    yield "I[np]" * 254 + "I"
    yield "[pb1]" * 819
    yield "[fo1]" + "I" * 1024
    yield "[fo1]" + "I" * 1025
    yield "[fo1]" + "[nl]" * 128
    yield "[fo1]" + "[nl]" * 129
    yield "[fo1]" + "[nl]" * 127 + "I"
    yield "[tr1,1,0,0]" * 371 + "IIII"
    yield "[" + "a" * 4095
    yield "[" + "a" * 4094 + "]"
    yield "[" * 4096
    yield "]" * 4095
    yield "z" * 4096
    yield "[nl" + "0" * 4092 + "]"
    yield "[/fl]" * 819 + "["


# ---------------------------------------------------------------- random strings


def letters_of(font: Font) -> list[str]:
    spelled = []
    for cell in font.cells:
        if cell.number < 127 and chr(cell.number) not in "[]":
            spelled.append(chr(cell.number))
        else:
            spelled.append(f"[hc{cell.number:x}]")
    return spelled + ["[[", "]]"] if font.cell(91) is not None else spelled


def random_tag(setting: Setting, draw: random.Random) -> str:
    number = draw.choice([0, 0, 1, 1, 2, 3, 4, 5, 7])
    width, height = setting.sign.width, setting.sign.height
    x, y = draw.randint(1, max(width // 2, 1)), draw.randint(1, max(height // 2, 1))
    choices = [
        f"nl{number}",
        "nl",
        "nl",
        "np",
        f"jl{draw.randint(2, 5)}",
        f"jp{draw.randint(2, 4)}",
    ]
    choices += ["jl", "jp", "fo", f"fo{draw.choice(setting.sign.fonts).number}", f"sc{number}"]
    choices += ["/sc", f"pt{number}o{draw.randint(0, 9)}", f"pt{number}", f"pto{number}", "fl"]
    choices += [f"flt{number}o{draw.randint(0, 5)}", f"flo{number}t{draw.randint(0, 5)}", "/fl"]
    choices += [f"cf{draw.randint(0, 9)}", f"pb{draw.randint(0, 9)}", "cf", "pb"]
    choices += [f"tr{x},{y},{draw.choice([0, width - x + 1])},{draw.choice([0, height - y + 1])}"]
    choices += [f"tr{draw.randint(0, width)},{y},{draw.randint(0, width)},{number}"]
    return f"[{draw.choice(choices)}]"


def random_rubbish(draw: random.Random) -> str:
    choices = ["[", "]", "[]", "[x]", "[jl9]", "[np1]", "[fo77]", "z", "[hc]", "[nl999]", "\xff"]
    return draw.choice(choices)


def random_part(setting: Setting, draw: random.Random, letters: Sequence[str]) -> str:
    kind = draw.random()
    if kind < 0.55:
        return draw.choice(letters)
    if kind < 0.65:
        return " "
    if kind < 0.985:
        return random_tag(setting, draw)
    return random_rubbish(draw)


def random_strings(setting: Setting) -> Strings:
    """At random, some of them as they come, some with most offending parts left out."""
    draw = random.Random(f"strings of {setting.name}")
    letters = [letter for font in setting.fonts() for letter in letters_of(font)[:30]]
    letters += letters_of(setting.font) * 3
    for k in range(60 if setting.name in ("gantry", "pinhole") else 220):
        string = ""
        for _ in range(draw.randint(1, 14 if k % 2 else 9)):
            part = random_part(setting, draw, letters)
            text = Text(setting.sign, setting.sign.defaults, (string + part).encode("latin-1"))
            if k % 2 == 0 or text.verdict().accepted or draw.random() < 0.08:
                string += part
        yield string


def cut_strings(setting: Setting) -> Strings:
    """Every prefix of some long strings: a refusal stands for every continuation."""
    draw = random.Random(f"prefixes on {setting.name}")
    for _ in range(3):
        string = "".join(random_part(setting, draw, ["A", "I", "AI"]) for _ in range(12))
        for end in range(len(string) + 1):
            yield string[:end]


Family = Callable[[Setting], Strings]

FAMILIES: list[tuple[str, Sequence[str], Family]] = [
    ("octet", ["corridor", "archive"], every_octet),
    ("bracket", ["corridor"], brackets_and_octets),
    ("body", ["harbour"], one_octet_bodies),
    ("brackets", ["corridor"], words_of_brackets),
    ("broken", ["corridor", "orchard"], broken_tags),
    ("table", ["corridor", "mosaic"], table_of_tags),
    ("case", ["mosaic"], names_in_any_case),
    ("unknown", ["harbour"], unknown_names),
    ("effect", ALL, effects_of_tags),
    ("pair", ["corridor", "orchard"], pairs_of_tags),
    ("absent", SMALL, absent_values),
    ("error", ["corridor", "orchard", "pinhole"], errors),
    ("errors", ["harbour"], pairs_of_errors),
    ("both", ALL, two_errors_of_one_item),
    ("width", ["corridor", "harbour", "mill", "archive", "pinhole"], widths),
    ("height", ALL, heights),
    ("rectangle", ALL, rectangles),
    ("fitting", ["corridor", "harbour", "mill", "archive"], sizes_of_rectangles),
    ("areas", ["corridor", "harbour", "orchard", "archive", "gantry"], several_rectangles),
    ("line", ["corridor", "harbour", "mosaic"], parts_of_a_line),
    ("page", ["corridor", "harbour", "orchard", "mosaic"], parts_of_a_page),
    ("spacing", ["harbour", "mill", "orchard", "archive", "mosaic", "gantry"], spacings),
    ("order", ["corridor", "mosaic"], orders),
    ("pages", ALL, numbers_of_pages),
    ("time", ["corridor", "harbour", "archive", "mosaic"], page_times),
    ("flash", ["corridor", "harbour", "orchard"], flashes),
    ("colour", ["corridor", "harbour", "mosaic"], colours),
    ("words", ["mill", "mosaic"], filling_by_words),
    ("filling", ["orchard", "mosaic"], filling_among_tags),
    ("number", ["archive", "mosaic", "corridor"], characters_by_number),
    ("long", ["gantry"], long_strings),
    ("random", ALL, random_strings),
    ("prefix", ["harbour", "orchard", "mosaic"], cut_strings),
]
