"""Values: their kinds and ranges, and the places of faults."""
from slips.file import BITS, COLOURS, EMPTY, FILE, GROUPS, LIGHTS, LINES, Rows, SCHEME, classic

ROWS: Rows = {
    "text of the file stays on its line": [
        (
            "'monochrome'",
            '"a\\nb\\u001b[1m~ "',
            None,
            1,
            ['line 3: scheme: "a?b?[1m~ "; ' + SCHEME],
        ),
        (
            "'monochrome'",
            "'0123456789abcdefghij0123456789abcdefghij'",
            None,
            1,
            ['line 3: scheme: "0123456789abcdefghij0123456789abcdefghij"; ' + SCHEME],
        ),
        (
            "'5e80'",
            "'0123456789abcdefghij0123456789abcdefghijk'",
            None,
            1,
            [
                (
                    'line 26: font 1, cell 65, bits: "0123456789abcdefghij0123456789abcdefghij'
                    ' .."; ' + BITS
                ),
            ],
        ),
        (
            "slots = 1",
            '"slo\\u007fts" = 1',
            None,
            1,
            [
                "line 1: slots: missing; it should be a whole number from 1 to 1000",
                "warning: line 1: slo?ts: not known; the nearest key is slots",
            ],
        ),
    ],
    "each fault is told by its place": [
        (
            "width = 12\n",
            "",
            None,
            1,
            ["line 1: width: missing; it should be a whole number from 1 to 1024"],
        ),
        (
            "width = 12",
            "width = 1025",
            None,
            1,
            ["line 1: width: 1025; it should be a whole number from 1 to 1024"],
        ),
        (
            "height = 7",
            "height = '7'",
            None,
            1,
            ["line 2: height: found: string; it should be a whole number from 1 to 128"],
        ),
        ("'monochrome'", "'Classic'", None, 1, ['line 3: scheme: "Classic"; ' + SCHEME]),
        (
            "max_pages = 2",
            "max_pages = 0",
            None,
            1,
            ["line 4: max_pages: 0; it should be a whole number from 1 to 255"],
        ),
        (
            "slots = 1",
            "slots = 1\nbeacons = 1",
            None,
            1,
            ["line 6: beacons: found: integer; it should be true or false"],
        ),
        (
            "max_string = 64",
            "max_string = 0",
            None,
            1,
            ["line 7: max_string: 0; it should be a whole number from 1 to 4096"],
        ),
        ("line = 3", "line = 6", None, 1, ["line 10: [defaults] line: 6; it should be " + LINES]),
        (
            "fore = 1",
            "fore = 10",
            None,
            1,
            ["line 16: [defaults] fore: 10; it should be " + LIGHTS],
        ),
        (
            FILE,
            classic("fore = 1", "fore = 10"),
            None,
            1,
            ["line 16: [defaults] fore: 10; it should be " + COLOURS],
        ),
        ("font = 1", "font = 2", None, 1, ["line 9: [defaults] font: no font has the number 2"]),
        (
            "char_spacing = 1\n",
            "",
            None,
            1,
            ["line 18: font 1, char_spacing: missing; it should be a whole number from 0 to 255"],
        ),
        (
            "'5e80'",
            "'5e8'",
            None,
            1,
            ["line 26: font 1, cell 65, bits: has 3 hexadecimal digits, and 3 by 3 pixels need 4"],
        ),
        (
            "'5e80'",
            "'5e'",
            None,
            1,
            ["line 26: font 1, cell 65, bits: has 2 hexadecimal digits, and 3 by 3 pixels need 4"],
        ),
        (
            "'5e80'",
            "'5e81'",
            None,
            1,
            [
                (
                    "line 26: font 1, cell 65, bits: a bit after the last pixel is 1; the last 7"
                    " must be 0"
                ),
            ],
        ),
        (
            "number = 73",
            "number = 65",
            None,
            1,
            ["line 27: font 1, cell 65, number: the numbers must rise, and the one before is 65"],
        ),
        (
            "number = 65",
            "number = 0",
            None,
            1,
            [
                "line 26: font 1, cell 0, number: 0; it should be a whole number from 1 to 65535",
                "line 26: font 1, cell 0, number: the numbers must rise, and the one before is 32",
            ],
        ),
        (
            "number = 1\n",
            "number = 0\n",
            None,
            1,
            ["line 19: font 0, number: 0; it should be a whole number from 1 to 255"],
        ),
        (
            "[[font]]",
            "[[fonts]]",
            None,
            1,
            [
                "line 1: font: there must be 1 to 16 fonts, each under [[font]]",
                "warning: line 18: fonts: not known; the nearest key is font",
            ],
        ),
        (
            "number = 73,",
            "",
            None,
            1,
            [
                (
                    "line 27: font 1, cell at place 3, number: missing; it should be a whole"
                    " number from 1 to 65535"
                ),
            ],
        ),
        (
            "multi = 'A'",
            "multi = 'A'\nbeacon = 2",
            None,
            1,
            ["line 31: permanent message 1, beacon: 2; it should be a whole number from 0 to 1"],
        ),
        (
            "height = 3",
            "height = 65",
            None,
            1,
            ["line 21: font 1, height: 65; it should be a whole number from 1 to 64"],
        ),
        (
            "[defaults]",
            "[default]",
            None,
            1,
            [
                "line 1: defaults: missing; it should be a table, under [defaults]",
                "warning: line 8: default: not known; the nearest key is defaults",
            ],
        ),
    ],
    "each other key has its kind and its range": [
        (
            "max_string = 64",
            "max_string = 64\npixel_service = 'yes'",
            None,
            1,
            ["line 8: pixel_service: found: string; it should be true or false"],
        ),
        (
            "max_string = 64",
            "max_string = 64\nline_fill = 'word'",
            None,
            1,
            ['line 8: line_fill: "word"; it should be "none" or "words"'],
        ),
        (
            "slots = 1",
            "slots = 1001",
            None,
            1,
            ["line 5: slots: 1001; it should be a whole number from 1 to 1000"],
        ),
        (
            "bytes = 64",
            "bytes = 1000001",
            None,
            1,
            ["line 6: bytes: 1000001; it should be a whole number from 0 to 1000000"],
        ),
        (
            "bytes = 64",
            "bytes = 64.0",
            None,
            1,
            ["line 6: bytes: found: float; it should be a whole number from 0 to 1000000"],
        ),
        (
            "page_on = 30",
            "page_on = 256",
            None,
            1,
            ["line 12: [defaults] page_on: 256; it should be a whole number from 0 to 255"],
        ),
        (
            "page_off = 0",
            "page_off = -1",
            None,
            1,
            ["line 13: [defaults] page_off: -1; it should be a whole number from 0 to 255"],
        ),
        (
            "flash_on = 5",
            "flash_on = '5'",
            None,
            1,
            [
                (
                    "line 14: [defaults] flash_on: found: string; it should be a whole number from"
                    " 0 to 255"
                ),
            ],
        ),
        (
            "flash_off = 6\n",
            "",
            None,
            1,
            ["line 8: [defaults] flash_off: missing; it should be a whole number from 0 to 255"],
        ),
        (
            "version = 6699",
            "version = '1A2B'",
            None,
            1,
            [
                (
                    "line 20: font 1, version: found: string; it should be a whole number from 0"
                    " to 65535"
                ),
            ],
        ),
        (
            "line_spacing = 2",
            "line_spacing = 256",
            None,
            1,
            ["line 23: font 1, line_spacing: 256; it should be a whole number from 0 to 255"],
        ),
        (
            "width = 3,",
            "width = 65,",
            None,
            1,
            ["line 26: font 1, cell 65, width: 65; it should be a whole number from 1 to 64"],
        ),
        (", bits = 'e0'", "", None, 1, ["line 27: font 1, cell 73, bits: missing; " + BITS]),
        (
            "multi = 'A'",
            "",
            None,
            1,
            ["line 29: permanent message 1, multi: missing; it should be a text"],
        ),
        (
            "multi = 'A'",
            "multi = 65",
            None,
            1,
            ["line 30: permanent message 1, multi: found: integer; it should be a text"],
        ),
        (
            "multi = 'A'",
            "multi = 'A'\npriority = 0",
            None,
            1,
            [
                (
                    "line 31: permanent message 1, priority: 0; it should be a whole number from 1"
                    " to 255"
                ),
            ],
        ),
        (
            "multi = 'A'",
            "multi = 'A'\npixel = 2",
            None,
            1,
            ["line 31: permanent message 1, pixel: 2; it should be a whole number from 0 to 1"],
        ),
        (
            "[[permanent]]",
            "[permanent]",
            None,
            1,
            ["line 29: permanent: one table; each stands under [[permanent]], with two brackets"],
        ),
        (
            "[[permanent]]",
            "[[font]]\nnumber = 1\nheight = 3\nchar_spacing = 1\nline_spacing = 1\n[[permanent]]",
            None,
            1,
            [
                "line 30: font 1, number: the numbers must rise, and the one before is 1",
                "warning: line 29: " + EMPTY,
            ],
        ),
    ],
    "a value of another kind is told by what should stand there": [
        (
            "number = 65",
            "number = 'A'",
            None,
            1,
            [
                (
                    "line 26: font 1, cell at place 2, number: found: string; it should be a whole"
                    " number from 1 to 65535"
                ),
            ],
        ),
        (
            "width = 3,",
            "width = '3',",
            None,
            1,
            [
                (
                    "line 26: font 1, cell 65, width: found: string; it should be a whole number"
                    " from 1 to 64"
                ),
            ],
        ),
        (
            "height = 7",
            "height = 7.0",
            None,
            1,
            ["line 2: height: found: float; it should be a whole number from 1 to 128"],
        ),
        (
            "fore = 1",
            "fore = 'Red'",
            None,
            1,
            ['line 16: [defaults] fore: "Red"; it should be ' + LIGHTS],
        ),
        (
            "fore = 1",
            "fore = [255, 0, 0]",
            None,
            1,
            ["line 16: [defaults] fore: found: array; it should be " + LIGHTS],
        ),
        (
            "font = 1",
            "font = '1'",
            None,
            1,
            ["line 9: [defaults] font: found: string; it should be a whole number from 1 to 255"],
        ),
        (
            "multi = 'A'",
            "multi = 'A'\nbeacon = true",
            None,
            1,
            [
                (
                    "line 31: permanent message 1, beacon: found: boolean; it should be a whole"
                    " number from 0 to 1"
                ),
            ],
        ),
        (
            "multi = 'A'",
            "multi = 'A'\npriority = 'high'",
            None,
            1,
            [
                (
                    "line 31: permanent message 1, priority: found: string; it should be a whole"
                    " number from 1 to 255"
                ),
            ],
        ),
        (
            "multi = 'A'",
            "multi = ['A', 'I']",
            None,
            1,
            ["line 30: permanent message 1, multi: found: array; it should be a text"],
        ),
        (
            "slots = 1",
            "slots = 1\npixel_service = 0",
            None,
            1,
            ["line 6: pixel_service: found: integer; it should be true or false"],
        ),
        (
            "slots = 1",
            "slots = 0",
            None,
            1,
            ["line 5: slots: 0; it should be a whole number from 1 to 1000"],
        ),
        (
            "max_string = 64",
            "max_string = 5000",
            None,
            1,
            [
                "line 7: max_string: 5000; it should be a whole number from 1 to 4096",
                (
                    "warning: line 6: bytes: 64; a message may have 5000 octets, and one with so"
                    " many is never stored"
                ),
            ],
        ),
        ("page = 3", "page = 5", None, 1, ["line 11: [defaults] page: 5; it should be " + GROUPS]),
        (
            "char_spacing = 1",
            "char_spacing = -1",
            None,
            1,
            ["line 22: font 1, char_spacing: -1; it should be a whole number from 0 to 255"],
        ),
        (
            "multi = 'A'",
            "multi = '" + "A" * 65 + "'",
            None,
            1,
            ["line 30: permanent message 1, multi: has 65 octets; max_string is 64"],
        ),
        ("'monochrome'", "'classic '", None, 1, ['line 3: scheme: "classic "; ' + SCHEME]),
        (
            "[[font]]",
            "[[font]]\nnumber = 2\nheight = 3\nchar_spacing = 1\nline_spacing = 1\n[[font]]",
            None,
            1,
            ["line 24: font 1, number: the numbers must rise, and the one before is 2"],
        ),
        (
            FILE,
            "permanent = ['A']\n" + FILE.replace("[[permanent]]\nmulti = 'A'\n", "", 1),
            None,
            1,
            ["line 1: permanent: found: string at place 1; it should be an array of tables"],
        ),
    ],
}
