"""Fonts and their cells."""
from slips.file import BITS, CELLS, COLOURS, FILE, GROUPS, LIGHTS, NONE, Rows, classic

ROWS: Rows = {
    "the characters of a font are shown": [
        (
            "",
            "",
            1,
            0,
            [
                "character 32, width 1",
                ".",
                ".",
                ".",
                "character 65 A, width 3",
                ".#.",
                "###",
                "#.#",
                "character 73 I, width 1",
                "#",
                "#",
                "#",
            ],
        ),
        ("", "", 2, 0, [NONE]),
    ],
    "a font may have no characters": [
        (
            CELLS,
            "cell = []",
            1,
            1,
            [
                "refused 1 A",
                "warning: line 24: font 1, cell: no characters; text begins in this font",
                "font 1: no characters",
            ],
        ),
    ],
    "a number may be looked for by its name": [
        (
            "line = 3",
            "line = 'centre'",
            None,
            1,
            ['line 10: [defaults] line: "centre"; its number is 3'],
        ),
        ("page = 3", "page = 'top'", None, 1, ['line 11: [defaults] page: "top"; its number is 2']),
        (
            "page = 3",
            "page = 'center'",
            None,
            1,
            ['line 11: [defaults] page: "center"; it should be ' + GROUPS],
        ),
        (
            FILE,
            classic("fore = 1", "fore = 'amber'"),
            None,
            1,
            ['line 16: [defaults] fore: "amber"; its number is 9'],
        ),
        (
            FILE,
            classic("back = 0", "back = true"),
            None,
            1,
            ["line 17: [defaults] back: found: boolean; it should be " + COLOURS],
        ),
        (
            FILE,
            classic("back = 0", "back = 'dark'"),
            None,
            1,
            ['line 17: [defaults] back: "dark"; it should be ' + COLOURS],
        ),
    ],
    "the pixels of a sign of one colour are lit or dark": [
        (
            "fore = 1",
            "fore = 'lit'",
            None,
            1,
            ['line 16: [defaults] fore: "lit"; its number is 1'],
        ),
        (
            "back = 0",
            "back = 'dark'",
            None,
            1,
            ['line 17: [defaults] back: "dark"; its number is 0'],
        ),
        (
            "fore = 1",
            "fore = 'amber'",
            None,
            1,
            ['line 16: [defaults] fore: "amber"; it should be ' + LIGHTS],
        ),
        (
            "back = 0",
            "back = true",
            None,
            1,
            ["line 17: [defaults] back: found: boolean; it should be " + LIGHTS],
        ),
        ("back = 0\n", "", None, 1, ["line 8: [defaults] back: missing; it should be " + LIGHTS]),
    ],
    "the digits of a cell are told as its pixels need them": [
        (
            "'5e80'",
            "'010111101'",
            None,
            1,
            [
                (
                    "line 26: font 1, cell 65, bits: a binary digit for each pixel; in hexadecimal"
                    ' it is "5e80"'
                ),
            ],
        ),
        ("'5e80'", "0x5e80", None, 1, ["line 26: font 1, cell 65, bits: found: integer; " + BITS]),
        ("'5e80'", "'0x5e80'", None, 1, ['line 26: font 1, cell 65, bits: "0x5e80"; ' + BITS]),
        ("'5e80'", "'5e 80'", None, 1, ['line 26: font 1, cell 65, bits: "5e 80"; ' + BITS]),
        (
            "'5e80'",
            "'5e8000'",
            None,
            1,
            ["line 26: font 1, cell 65, bits: has 6 hexadecimal digits, and 3 by 3 pixels need 4"],
        ),
        (
            "'5e80'",
            "''",
            None,
            1,
            ["line 26: font 1, cell 65, bits: has 0 hexadecimal digits, and 3 by 3 pixels need 4"],
        ),
        (
            CELLS,
            (
                "[[font.cell]]\nnumber = 32\nwidth = 1\nbits = '00'\n[[font.cell]]\nnumber ="
                " 65\nwidth = 3\nbits = '5e'\n"
            ),
            None,
            1,
            ["line 31: font 1, cell 65, bits: has 2 hexadecimal digits, and 3 by 3 pixels need 4"],
        ),
        (
            CELLS,
            "[[cell]]\nnumber = 65\nwidth = 3\nbits = '5e80'\n",
            2,
            1,
            [
                "refused 1 A",
                "warning: line 24: cell: not known here; it belongs in [[font]]",
                "warning: line 18: font 1, cell: no characters; text begins in this font",
                NONE,
            ],
        ),
    ],
    "rows of pixels that each begin an octet are told": [
        (
            "'5e80'",
            "'40e0a0'",
            None,
            1,
            [
                (
                    "line 26: font 1, cell 65, bits: has 6 hexadecimal digits, as if each row began"
                    " an octet; with no gap 3 by 3 pixels need 4"
                )
            ],
        ),
        (
            "'5e80'",
            "'40e0a1'",
            None,
            1,
            [
                (
                    "line 26: font 1, cell 65, bits: has 6 hexadecimal digits, and 3 by 3 pixels"
                    " need 4"
                )
            ],
        ),
    ],
}
