"""Makes the sign files of the conformance cases in the folder `signs`.

The pictures of the cells are drawn by a generator with a fixed seed, with the first and the
last bit lit, so that a cell that stands at a wrong place shows.  Those of the largest sign are
solid but for one corner, so that its pictures have short run-length texts.
"""

from __future__ import annotations

import random
from dataclasses import dataclass, field
from pathlib import Path

FOLDER = Path(__file__).parent / "signs"


@dataclass(frozen=True)
class FontPlan:
    """A font: its numbers, and the width of each of its cells."""

    number: int
    height: int
    char_spacing: int
    line_spacing: int
    widths: dict[int, int]
    version: int = 0
    blank: tuple[int, ...] = (32,)


@dataclass(frozen=True)
class SignPlan:
    name: str
    about: str
    head: dict[str, str | int | bool]
    defaults: tuple[int, int, int, int, int, int, int, int, int]
    fonts: list[FontPlan]
    permanent: list[tuple[str, int]] = field(default_factory=list)
    solid: bool = False


DEFAULT_NAMES = "font line page page_on page_off flash_on flash_off fore back".split()


def letters(text: str, width: int) -> dict[int, int]:
    return {ord(letter): width for letter in text}


def bits_of(plan: SignPlan, font: FontPlan, number: int, width: int) -> str:
    """A picture of height times width bits and spare bits of 0, as hexadecimal text."""
    size = font.height * width
    if number in font.blank:
        value = 0
    elif plan.solid:
        value = (1 << size) - 1 - (1 << (size - 1) if size > 4 else 0)
    else:
        draw = random.Random(f"{plan.name} {font.number} {number}")
        value = draw.getrandbits(size) | 1 | 1 << (size - 1)
    octets = (size + 7) // 8
    return (value << (8 * octets - size)).to_bytes(octets, "big").hex()


def toml_of(plan: SignPlan) -> str:
    lines = [f"# {plan.about}"]
    for key, value in plan.head.items():
        text = f'"{value}"' if isinstance(value, str) else str(value).lower()
        lines.append(f"{key} = {text}")
    lines += ["", "[defaults]"]
    lines += [f"{name} = {value}" for name, value in zip(DEFAULT_NAMES, plan.defaults)]
    for font in plan.fonts:
        lines += ["", "[[font]]", f"number = {font.number}"]
        if font.version:
            lines.append(f"version = {font.version}")
        lines += [f"height = {font.height}", f"char_spacing = {font.char_spacing}"]
        lines += [f"line_spacing = {font.line_spacing}", "cell = ["]
        for number, width in sorted(font.widths.items()):
            bits = bits_of(plan, font, number, width)
            lines.append(f'  {{ number = {number}, width = {width}, bits = "{bits}" }},')
        lines.append("]")
    for multi, priority in plan.permanent:
        lines += ["", "[[permanent]]", f'multi = "{multi}"', f"priority = {priority}"]
    return "\n".join(lines) + "\n"


def head(
    width: int,
    height: int,
    scheme: str,
    max_pages: int,
    store: tuple[int, int, int],
    **more: str | bool,
) -> dict[str, str | int | bool]:
    """The keys of a sign file before its tables; the store has slots, bytes, max_string."""
    slots, octets, max_string = store
    keys: dict[str, str | int | bool] = {"width": width, "height": height, "scheme": scheme}
    keys |= {"max_pages": max_pages, "slots": slots, "bytes": octets, "max_string": max_string}
    return keys | more


SMALL = letters(" ", 2) | letters("ABCDEFGH0123", 3) | letters("IJ", 1) | letters("[]-", 2)
TALL = letters(" ", 3) | letters("ABCDEGMW", 4) | letters("I", 2) | letters("[", 3)

CORRIDOR = SignPlan(
    "corridor",
    "Monochrome, one font, no filling: the plainest sign.",
    head(24, 13, "monochrome", 3, (2, 40, 64)),
    (1, 3, 3, 30, 0, 5, 5, 1, 0),
    [FontPlan(1, 5, 1, 1, SMALL | letters("W", 5), version=0x1A2B)],
    [("A[nl]B", 5), ("AAAAAAAAA", 1)],
)

HARBOUR = SignPlan(
    "harbour",
    "Classic colours, three fonts of heights 3, 5 and 7, beacons and pixel service.",
    head(30, 17, "classic", 4, (3, 200, 200), beacons=True, pixel_service=True),
    (5, 2, 2, 10, 5, 3, 4, 9, 0),
    [
        FontPlan(2, 3, 1, 1, SMALL),
        FontPlan(5, 5, 2, 2, SMALL, version=0x1A2B),
        FontPlan(9, 7, 3, 5, TALL, version=0xFFFF),
    ],
    [("[cf1]AB[np]BA", 255)],
)

MILL = SignPlan(
    "mill",
    "Monochrome, lines filled by words; the second font has no space.",
    head(16, 13, "monochrome", 2, (2, 60, 80), line_fill="words"),
    (1, 3, 3, 20, 10, 1, 2, 1, 0),
    [
        FontPlan(1, 3, 1, 1, SMALL),
        FontPlan(2, 4, 2, 4, letters("ABC", 4) | letters("I", 1)),
    ],
    [("AA AA", 3)],
)

ORCHARD = SignPlan(
    "orchard",
    "Classic colours, lines filled by words; the spaces have lit pixels, three fonts.",
    head(26, 15, "classic", 3, (3, 300, 250), line_fill="words", pixel_service=True),
    (1, 2, 2, 15, 5, 4, 6, 3, 4),
    [
        FontPlan(1, 3, 1, 1, SMALL, blank=()),
        FontPlan(2, 5, 0, 2, SMALL | letters("M", 12), blank=()),
        FontPlan(4, 2, 2, 0, letters(" ", 1) | letters("ABI", 2), version=7),
    ],
    [("A B C", 9)],
)

ARCHIVE = SignPlan(
    "archive",
    "Classic colours, characters by wide numbers; the second font has 255 cells.",
    head(18, 12, "classic", 5, (2, 120, 120), beacons=True),
    (1, 4, 4, 7, 3, 2, 3, 6, 1),
    [
        FontPlan(1, 4, 1, 2, SMALL | {n: 3 for n in (255, 256, 257, 1000, 20013, 65534, 65535)}),
        FontPlan(7, 6, 2, 1, {1 + 257 * k: 1 + k % 5 for k in range(255)}),
    ],
    [("[hc4e2d]", 100)],
)

PINHOLE = SignPlan(
    "pinhole",
    "One pixel: the smallest sign, with the smallest store.",
    head(1, 1, "monochrome", 1, (1, 0, 1)),
    (1, 2, 2, 0, 0, 0, 0, 1, 0),
    [FontPlan(1, 1, 0, 0, letters("I ", 1)), FontPlan(255, 1, 255, 255, letters("I", 1))],
)

HEIGHTS = [1, 2, 3, 5, 7, 8, 9, 11, 14, 16, 24, 32, 40, 48, 64]

GANTRY = SignPlan(
    "gantry",
    "The largest sign: 1,024 by 128 pixels, 255 pages, 16 fonts up to 64 pixels high.",
    head(1024, 128, "classic", 255, (4, 1000000, 4096), beacons=True, pixel_service=True),
    (14, 3, 3, 255, 255, 255, 255, 7, 5),
    [
        FontPlan(h, h, h // 8, h // 4, letters("I", 1) | letters("AB ", h), version=h)
        for h in HEIGHTS
    ]
    + [FontPlan(255, 64, 255, 255, letters("AB", 64))],
    solid=True,
)

MOSAIC = SignPlan(
    "mosaic",
    "Classic colours, filling by words, wide numbers, full lines at the bottom, odd defaults.",
    head(21, 14, "classic", 3, (2, 100, 100), line_fill="words", beacons=True),
    (3, 5, 4, 0, 0, 0, 0, 2, 7),
    [
        FontPlan(3, 3, 2, 2, SMALL | {n: 4 for n in (300, 8195, 65535)}),
        FontPlan(200, 4, 0, 5, letters("ABC", 3) | letters(" ", 5) | {8195: 2}, version=0xABCD),
    ],
    [("[hc2003] A", 2), ("", 255)],
)

SIGNS = [CORRIDOR, HARBOUR, MILL, ORCHARD, ARCHIVE, PINHOLE, GANTRY, MOSAIC]


def main() -> None:
    FOLDER.mkdir(exist_ok=True)
    for plan in SIGNS:
        (FOLDER / f"{plan.name}.toml").write_text(toml_of(plan))


if __name__ == "__main__":
    main()
