"""Permanent messages, and what a sign takes that its maker may not have meant."""
from slips.file import NONE, Rows, UNSEEN

ROWS: Rows = {
    "a permanent message is judged on the sign of the file": [
        (
            "multi = 'A'",
            "multi = 'AAAA'",
            2,
            1,
            [
                "refused 1 AAAA",
                NONE,
            ],
        ),
        (
            "multi = 'A'",
            "multi = 'A'\n[[permanent]]\nmulti = 'A[cb3]'\n[[permanent]]\nmulti = 'B'",
            2,
            1,
            [
                "refused 2 A[cb3]",
                "refused 3 B",
                NONE,
            ],
        ),
        (
            "multi = 'A'",
            "multi = 'A[np]I[np]A'",
            2,
            1,
            [
                "refused 1 A[np]I[np]A",
                NONE,
            ],
        ),
        (
            "width = 12",
            "width = 2",
            2,
            1,
            [
                "refused 1 A",
                NONE,
            ],
        ),
        (
            "multi = 'A'",
            "multi = 'A[fo2]A'",
            2,
            1,
            [
                "refused 1 A[fo2]A",
                NONE,
            ],
        ),
    ],
    "what the maker may not have meant is a warning": [
        (
            "multi = 'A'",
            "multi = 'A'\nbeacon = 1",
            2,
            0,
            [
                (
                    "warning: line 31: permanent message 1, beacon: asks for beacons, and the sign"
                    " has none"
                ),
                NONE,
            ],
        ),
        (
            "multi = 'A'",
            "multi = 'A'\npixel = 1",
            2,
            0,
            [
                (
                    "warning: line 31: permanent message 1, pixel: asks for pixel service, and the"
                    " sign has none"
                ),
                NONE,
            ],
        ),
        (
            "back = 0",
            "back = 9",
            2,
            0,
            [
                "warning: line 16: [defaults] fore: " + UNSEEN,
                NONE,
            ],
        ),
        (
            "fore = 1",
            "fore = 0",
            2,
            0,
            [
                "warning: line 16: [defaults] fore: " + UNSEEN,
                NONE,
            ],
        ),
        (
            "bytes = 64",
            "bytes = 63",
            2,
            0,
            [
                (
                    "warning: line 6: bytes: 63; a message may have 64 octets, and one with so"
                    " many is never stored"
                ),
                NONE,
            ],
        ),
        (
            "height = 7\n",
            "height = 7\ncharacters = 5\n",
            2,
            0,
            [
                "warning: line 3: characters: not known; its key is cell in [[font]]",
                NONE,
            ],
        ),
        (
            "height = 3",
            "height = 3\nspacing = 1",
            2,
            0,
            [
                "warning: line 22: font 1, spacing: not known; its key is char_spacing",
                NONE,
            ],
        ),
        (
            "[defaults]",
            'note = """\n%%\n"""\n[defaults]',
            2,
            1,
            [
                "line 9: the mark %% ends the sign file for signctl; a host's library reads on",
                "warning: line 8: note: not known",
            ],
        ),
        (
            "[defaults]",
            "#" + "a" * 8300 + "\n[defaults]",
            2,
            1,
            ["line 8: signctl takes no line with more than 8300 octets; a host's library does"],
        ),
        ("[defaults]", "#" + "a" * 8299 + "\n[defaults]", 2, 0, [NONE]),
    ],
    "what the sign takes, and nobody can mean, is a warning": [
        (
            "  { number = 32, width = 1, bits = '00' },\n",
            "",
            2,
            0,
            [
                (
                    "warning: line 24: font 1, cell: no character 32, the space; text begins in"
                    " this font"
                ),
                NONE,
            ],
        ),
        (
            "height = 7",
            "height = 2",
            2,
            1,
            [
                "refused 1 A",
                (
                    "warning: line 21: font 1, height: 3; the sign has 2 rows, and text begins in"
                    " this font"
                ),
                NONE,
            ],
        ),
        (
            "flash_on = 5\nflash_off = 6",
            "flash_on = 0\nflash_off = 0",
            2,
            0,
            [
                (
                    "warning: line 14: [defaults] flash_on: 0, as flash_off is: text that has no"
                    " other times doesn't flash"
                ),
                NONE,
            ],
        ),
        (
            "page_on = 30",
            "page_on = 0",
            2,
            0,
            [
                (
                    "warning: line 12: [defaults] page_on: 0; a page that has no other time isn't"
                    " shown, unless all times of its message are 0"
                ),
                NONE,
            ],
        ),
        (
            "multi = 'A'",
            "multi = 'A'\n[[permanent]]\nmulti = 'I'\n[[permanent]]\nmulti = 'A'",
            2,
            0,
            [
                "warning: line 34: permanent message 3, multi: the same as permanent message 1",
                NONE,
            ],
        ),
        ("slots = 1\n", "slots = 1\npixel_service = true\n", 2, 0, [NONE]),
        (
            "multi = 'A'",
            "multi = 'A\\nI'",
            2,
            1,
            [
                "refused 1 A\\nI",
                (
                    "warning: line 30: permanent message 1, multi: has a line feed, \\n, which is"
                    " [nl] in MULTI"
                ),
                NONE,
            ],
        ),
    ],
}
