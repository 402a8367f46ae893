"""The sign file in which slips are made, and what is said of several slips."""
import re
from typing import Optional

# The text that is changed, what stands in its place, the font that is asked for or None, the exit
# status, and what is told.
Row = tuple[str, str, Optional[int], int, list[str]]
Rows = dict[str, list[Row]]

# A sign with one font of an `A` and an `I`.
FILE = """\
width = 12
height = 7
scheme = 'monochrome'
max_pages = 2
slots = 1
bytes = 64
max_string = 64
[defaults]
font = 1
line = 3
page = 3
page_on = 30
page_off = 0
flash_on = 5
flash_off = 6
fore = 1
back = 0
[[font]]
number = 1
version = 6699
height = 3
char_spacing = 1
line_spacing = 2
cell = [
  { number = 32, width = 1, bits = '00' },
  { number = 65, width = 3, bits = '5e80' },
  { number = 73, width = 1, bits = 'e0' },
]
[[permanent]]
multi = 'A'
"""

# The cells of its font.
CELLS = """\
cell = [
  { number = 32, width = 1, bits = '00' },
  { number = 65, width = 3, bits = '5e80' },
  { number = 73, width = 1, bits = 'e0' },
]"""

# What should stand there.
BITS = "it should be a text of hexadecimal digits, two for each octet"
SCHEME = 'it should be "monochrome" or "classic"'
LINES = "2 (left), 3 (centre), 4 (right) or 5 (full)"
GROUPS = "2 (top), 3 (middle) or 4 (bottom)"
COLOURS = (
    "0 (black), 1 (red), 2 (yellow), 3 (green), 4 (cyan), 5 (blue), 6 (magenta), 7 (white),"
    " 8 (orange) or 9 (amber)"
)
LIGHTS = "0 (dark) or 1 to 9 (lit)"
NAMES = re.findall(r"\((\w+)\)", COLOURS)
# What is told of a font that isn't there, in place of all that the file describes.
NONE = "font 2: the sign has no such font"
DEEP = "nested too deep; at most 16 brackets may be open at once, and a name may have 4 parts"
EMPTY = "font 1, cell: no characters; text begins in this font"
ANEW = "each key has a line of its own"
FOREIGN = "a sign that isn't ASCII, as a wide space or a dash, stands in texts alone"
CONTROL = "a control character stands here; no sign file has one"
MERGED = "no key; a merge left this mark, and the lines of both files"
ZERO = "no value; a number has no 0 before its other digits, and a text stands between quotes"
ALONE = "no value; a number stands alone, and a text between quotes"
HEXADECIMAL = "no value; a number in hexadecimal digits begins with 0x"
EQUALS = "one = stands between a key and its value"
BRACES = "no value; keys with their values stand between { and }"
BEGUN = "no key; a line begins with a key, with [ or with #"
OPENED = "no bracket is open that this one closes"
QUOTED = 'a text with \' stands between " and "'
UNSEEN = "looks as the background does: text in the default colours can't be seen"


def moved(piece: str, behind: str) -> str:
    """The file with one of its lines after another one."""
    return FILE.replace(piece, "", 1).replace(behind, behind + piece, 1)


def classic(old: str, new: str) -> str:
    """The file with the classic colours, and this text in place of another."""
    return FILE.replace("'monochrome'", "'classic'", 1).replace(old, new, 1)
