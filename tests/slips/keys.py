"""Keys and tables: names that nobody knows, and places where they belong."""
from slips.file import BITS, CELLS, EMPTY, FILE, LIGHTS, LINES, NONE, Rows, SCHEME, moved

ROWS: Rows = {
    "a key that is not known is a warning": [
        (
            "slots",
            "becons = true\nslots",
            2,
            0,
            [
                "warning: line 5: becons: not known; the nearest key is beacons",
                NONE,
            ],
        ),
    ],
    "a key of another name is told by its own table": [
        (
            "height = 3",
            "rows = 3",
            None,
            1,
            [
                "line 18: font 1, height: missing; it should be a whole number from 1 to 64",
                "warning: line 21: font 1, rows: not known; its key is height",
            ],
        ),
        (
            "char_spacing = 1",
            "spacing = 1",
            None,
            1,
            [
                "line 18: font 1, char_spacing: missing; it should be a whole number from 0 to 255",
                "warning: line 22: font 1, spacing: not known; its key is char_spacing",
            ],
        ),
        (
            "line = 3",
            "justification_line = 3",
            None,
            1,
            [
                "line 8: [defaults] line: missing; it should be " + LINES,
                "warning: line 10: [defaults] justification_line: not known; its key is line",
            ],
        ),
        (
            "[[permanent]]",
            "[[message]]",
            2,
            0,
            ["warning: line 29: message: not known; its key is permanent", NONE],
        ),
    ],
    "a key is told where it stands, and where it belongs": [
        (
            FILE,
            moved("slots = 1\n", "multi = 'A'\n"),
            None,
            1,
            ["line 30: permanent message 1, slots: belongs before the first table"],
        ),
        (
            FILE,
            moved("slots = 1\n", "[defaults]\n"),
            None,
            1,
            ["line 8: [defaults] slots: belongs before the first table"],
        ),
        (
            FILE,
            moved("slots = 1\n", "[[font]]\n"),
            None,
            1,
            ["line 18: font 1, slots: belongs before the first table"],
        ),
        (
            "multi = 'A'",
            "multi = 'A'\nbeacons = true",
            2,
            0,
            [
                (
                    "warning: line 31: permanent message 1, beacons: not known here; it belongs"
                    " before the first table"
                ),
                NONE,
            ],
        ),
        (
            "height = 7\n",
            "height = 7\npriority = 7\n",
            2,
            0,
            [
                "warning: line 3: priority: not known here; it belongs in [[permanent]]",
                NONE,
            ],
        ),
        (
            FILE,
            "line = 3\n" + FILE.replace("line = 3\n", "", 1),
            None,
            1,
            [
                "line 9: [defaults] line: missing; it should be " + LINES,
                "warning: line 1: line: not known here; it belongs in [defaults]",
            ],
        ),
        (
            "width = 12",
            "[sign]\nwidth = 12",
            None,
            1,
            [
                "line 1: width: missing; it should be a whole number from 1 to 1024",
                "line 1: height: missing; it should be a whole number from 1 to 128",
                "line 1: scheme: missing; " + SCHEME,
                "line 1: max_pages: missing; it should be a whole number from 1 to 255",
                "line 1: slots: missing; it should be a whole number from 1 to 1000",
                "line 1: bytes: missing; it should be a whole number from 0 to 1000000",
                "line 1: max_string: missing; it should be a whole number from 1 to 4096",
                "warning: line 1: sign: not known; its keys belong before the first table",
            ],
        ),
        (
            "height = 3",
            "height = 3\nwidth = 5",
            2,
            0,
            [
                "warning: line 22: font 1, width: not known here; it belongs in a cell of a font",
                NONE,
            ],
        ),
        (
            "multi = 'A'",
            "multi = 'A'\nnumber = 1",
            2,
            0,
            [
                (
                    "warning: line 31: permanent message 1, number: not known; permanent messages"
                    " are numbered as they stand, from 1"
                ),
                NONE,
            ],
        ),
        (
            "multi = 'A'",
            "text = 'A'",
            None,
            1,
            [
                "line 29: permanent message 1, multi: missing; it should be a text",
                "warning: line 30: permanent message 1, text: not known; its key is multi",
            ],
        ),
    ],
    "for a name of NTCIP 1203 its key is told": [
        (
            "width = 12",
            "vmsSignWidthPixels = 12",
            None,
            1,
            [
                "line 1: width: missing; it should be a whole number from 1 to 1024",
                "warning: line 1: vmsSignWidthPixels: not known; its key is width",
            ],
        ),
        (
            "height = 3",
            "fontheight = 3",
            None,
            1,
            [
                "line 18: font 1, height: missing; it should be a whole number from 1 to 64",
                "warning: line 21: font 1, fontheight: not known; its key is height",
            ],
        ),
        (
            "height = 7\n",
            "height = 7\ndefaultFont = 1\n",
            2,
            0,
            [
                "warning: line 3: defaultFont: not known; its key is font in [defaults]",
                NONE,
            ],
        ),
        (
            "page_on = 30",
            "defaultPageOnTime = 30",
            None,
            1,
            [
                "line 8: [defaults] page_on: missing; it should be a whole number from 0 to 255",
                "warning: line 12: [defaults] defaultPageOnTime: not known; its key is page_on",
            ],
        ),
        (
            "bits = 'e0'",
            "characterBitmap = 'e0'",
            None,
            1,
            [
                "line 27: font 1, cell 73, bits: missing; " + BITS,
                "warning: line 27: font 1, cell 73, characterBitmap: not known; its key is bits",
            ],
        ),
        (
            "multi = 'A'",
            "multi = 'A'\ndmsMessageRunTimePriority = 2",
            2,
            0,
            [
                (
                    "warning: line 31: permanent message 1, dmsMessageRunTimePriority: not known;"
                    " its key is priority"
                ),
                NONE,
            ],
        ),
    ],
    "for a name that is nearly a key the key is told": [
        (
            "width = 12",
            "Width = 12",
            None,
            1,
            [
                "line 1: width: missing; it should be a whole number from 1 to 1024",
                "warning: line 1: Width: not known; the nearest key is width",
            ],
        ),
        (
            "max_pages = 2",
            "max-pages = 2",
            None,
            1,
            [
                "line 1: max_pages: missing; it should be a whole number from 1 to 255",
                "warning: line 4: max-pages: not known; the nearest key is max_pages",
            ],
        ),
        (
            "char_spacing = 1",
            "chr_spacing = 1",
            None,
            1,
            [
                "line 18: font 1, char_spacing: missing; it should be a whole number from 0 to 255",
                "warning: line 22: font 1, chr_spacing: not known; the nearest key is char_spacing",
            ],
        ),
        (
            "fore = 1",
            "foreground = 1",
            None,
            1,
            [
                "line 8: [defaults] fore: missing; it should be " + LIGHTS,
                "warning: line 16: [defaults] foreground: not known; its key is fore",
            ],
        ),
    ],
    "a table is told where a name with dots leads to it": [
        (
            "[[font]]",
            "[font.1]",
            None,
            1,
            ["line 18: font: one table; each stands under [[font]], with two brackets"],
        ),
        (
            "[[font]]",
            "[[font.main]]",
            None,
            1,
            ["line 18: font: one table; each stands under [[font]], with two brackets"],
        ),
        (
            "[[permanent]]",
            "[permanent.1]",
            None,
            1,
            [
                (
                    "line 29: permanent: one table; each stands under [[permanent]], with two"
                    " brackets"
                )
            ],
        ),
        (
            CELLS,
            "[font.cell.A]\nwidth = 3\nbits = '5e80'",
            None,
            1,
            [
                "line 24: font 1, cell: found: table; it should be an array of tables",
                "warning: line 24: " + EMPTY,
            ],
        ),
        (
            CELLS,
            "cell.A = '5e80'",
            None,
            1,
            [
                "line 24: font 1, cell: found: table; it should be an array of tables",
                "warning: line 24: " + EMPTY,
            ],
        ),
        (
            "line = 3",
            "defaults.line = 3",
            None,
            1,
            [
                "line 8: [defaults] line: missing; it should be " + LINES,
                (
                    "warning: line 10: [defaults] defaults: not known here; it belongs before the"
                    " first table"
                ),
            ],
        ),
        (
            "max_pages = 2",
            "max.pages = 2",
            None,
            1,
            [
                "line 1: max_pages: missing; it should be a whole number from 1 to 255",
                "warning: line 4: max: not known",
            ],
        ),
    ],
    "for a usual name of a thing its key is told": [
        (
            "width = 12",
            "width_pixels = 12",
            None,
            1,
            [
                "line 1: width: missing; it should be a whole number from 1 to 1024",
                "warning: line 1: width_pixels: not known; its key is width",
            ],
        ),
        (
            "scheme = ",
            "colour = ",
            None,
            1,
            [
                "line 1: scheme: missing; " + SCHEME,
                "warning: line 3: colour: not known; its key is scheme",
            ],
        ),
        (
            "max_pages = 2",
            "pages = 2",
            None,
            1,
            [
                "line 1: max_pages: missing; it should be a whole number from 1 to 255",
                "warning: line 4: pages: not known; its key is max_pages",
            ],
        ),
        (
            "slots = 1",
            "max_messages = 1",
            None,
            1,
            [
                "line 1: slots: missing; it should be a whole number from 1 to 1000",
                "warning: line 5: max_messages: not known; its key is slots",
            ],
        ),
        (
            "bytes = 64",
            "dmsFreeChangeableMemory = 64",
            None,
            1,
            [
                "line 1: bytes: missing; it should be a whole number from 0 to 1000000",
                "warning: line 6: dmsFreeChangeableMemory: not known; its key is bytes",
            ],
        ),
        (
            "max_string = 64",
            "max_length = 64",
            None,
            1,
            [
                "line 1: max_string: missing; it should be a whole number from 1 to 4096",
                "warning: line 7: max_length: not known; its key is max_string",
            ],
        ),
        (
            "font = 1",
            "default_font = 1",
            None,
            1,
            [
                "line 8: [defaults] font: missing; it should be a whole number from 1 to 255",
                "warning: line 9: [defaults] default_font: not known; its key is font",
            ],
        ),
        (
            "line = 3",
            "halign = 3",
            None,
            1,
            [
                "line 8: [defaults] line: missing; it should be " + LINES,
                "warning: line 10: [defaults] halign: not known; its key is line",
            ],
        ),
        (
            "page_on = 30",
            "on_time = 30",
            None,
            1,
            [
                "line 8: [defaults] page_on: missing; it should be a whole number from 0 to 255",
                "warning: line 12: [defaults] on_time: not known; its key is page_on",
            ],
        ),
        (
            "fore = 1",
            "color = 1",
            None,
            1,
            [
                "line 8: [defaults] fore: missing; it should be " + LIGHTS,
                "warning: line 16: [defaults] color: not known; its key is fore",
            ],
        ),
        (
            "number = 1\n",
            "id = 1\n",
            None,
            1,
            [
                (
                    "line 18: font at place 1, number: missing; it should be a whole number from 1"
                    " to 255"
                ),
                "warning: line 19: font at place 1, id: not known; its key is number",
            ],
        ),
        (
            "char_spacing = 1",
            "letter_spacing = 1",
            None,
            1,
            [
                (
                    "line 18: font 1, char_spacing: missing; it should be a whole number from 0 to"
                    " 255"
                ),
                "warning: line 22: font 1, letter_spacing: not known; its key is char_spacing",
            ],
        ),
        (
            "line_spacing = 2",
            "leading = 2",
            None,
            1,
            [
                (
                    "line 18: font 1, line_spacing: missing; it should be a whole number from 0 to"
                    " 255"
                ),
                "warning: line 23: font 1, leading: not known; its key is line_spacing",
            ],
        ),
        (
            "multi = 'A'",
            "content = 'A'",
            None,
            1,
            [
                "line 29: permanent message 1, multi: missing; it should be a text",
                "warning: line 30: permanent message 1, content: not known; its key is multi",
            ],
        ),
        (
            "multi = 'A'",
            "multi = 'A'\nprio = 5",
            2,
            0,
            ["warning: line 31: permanent message 1, prio: not known; its key is priority", NONE],
        ),
        (
            "multi = 'A'",
            "multi = 'A'\nid = 1",
            2,
            0,
            [
                (
                    "warning: line 31: permanent message 1, id: not known; permanent messages are"
                    " numbered as they stand, from 1"
                ),
                NONE,
            ],
        ),
    ],
    "an entry of an array that is no table is told by its place": [
        (
            "{ number = 65, width = 3, bits = '5e80' }",
            "[65, 3, '5e80']",
            None,
            1,
            ["line 24: font 1, cell: found: array at place 2; it should be an array of tables"],
        ),
        (
            "{ number = 65, width = 3, bits = '5e80' }",
            "'A'",
            None,
            1,
            ["line 24: font 1, cell: found: string at place 2; it should be an array of tables"],
        ),
        (
            "{ number = 65, width = 3, bits = '5e80' }",
            "65",
            None,
            1,
            [
                (
                    "line 24: font 1, cell: found: integer at place 2; it should be an array of"
                    " tables"
                )
            ],
        ),
    ],
}
