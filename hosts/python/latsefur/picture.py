"""Pictures: the colour of each pixel, or which pixels have one colour."""
from __future__ import annotations

from dataclasses import dataclass, field
from pathlib import Path
from typing import TYPE_CHECKING, Any, Optional, SupportsIndex

from .drawing import MOST_SCALE, lines_of, palette_of, png_of
from .library import PathLike
from .values import number_of

if TYPE_CHECKING:
    import numpy

# The points side by side for a pixel in a file, as `signctl picture` has them, and the most points
# of a line that a notebook is shown.
SCALE = 8
MOST_SHOWN = 1200

COLOURS = ("black", "red", "yellow", "green", "cyan", "blue", "magenta", "white", "orange", "amber")


@dataclass(frozen=True)
class Picture:
    """The colour of every pixel.

    `octets` has an octet for each pixel, 0 to 9, row by row from the top and each row from the left; 0 is black or dark, and on a sign of
    one colour a lit pixel is 1. `COLOURS` names them. `bytes(picture)` is `octets`.

    `classic` says whether it is drawn in the ten colours; else all that is lit is amber. A
    simulated sign doesn't tell, and its pictures are drawn in the ten. Pictures of the same pixels
    are equal.
    """

    width: int
    height: int
    octets: bytes
    classic: bool = field(default=True, compare=False)

    def __bytes__(self) -> bytes:
        return self.octets

    def colour(self, row: int, column: int) -> int:
        """The colour of a pixel, 0 to 9. Rows and columns count from 0. Raises `ValueError` for a pixel outside the sign."""
        return self.octets[number_of("row", row, self.height - 1) * self.width + number_of("column", column, self.width - 1)]

    def rows(self) -> list[bytes]:
        """The rows from the top, an octet a pixel."""
        return [self.octets[begin:begin + self.width] for begin in range(0, len(self.octets), self.width)]

    def array(self) -> numpy.ndarray[Any, Any]:
        """The colours as a NumPy array of octets, with the shape (height, width). Raises `ImportError` where NumPy isn't there."""
        import numpy

        return numpy.frombuffer(self.octets, numpy.uint8).reshape(self.height, self.width)

    def __array__(self, dtype: Any = None, copy: Optional[bool] = None) -> numpy.ndarray[Any, Any]:
        """The same for `numpy.asarray(picture)`, in another type if one is named.

        Raises `ValueError` if that takes a copy and `copy` is false."""
        held = self.array()
        given = held.astype(held.dtype if dtype is None else dtype, copy=bool(copy))
        if copy is False and given is not held:
            raise ValueError(f"a picture as {given.dtype} is a copy")
        return given

    def rgb(self, scale: SupportsIndex = 1) -> bytes:
        """Red, green and blue of each point as it shines, three octets each, line by line from the
        top and from the left.

        A pixel is a square with `scale` points side by side, 1 to 16. Below 4 all of them are its
        dot; from there on the dot is round, on dark. So `signctl picture --scale` draws it too.
        """
        palette = palette_of(self.classic)
        lines = lines_of(self.rows(), scale_of(scale))
        return b"".join(palette[number] for line in lines for number in line)

    def png(self, scale: SupportsIndex = SCALE) -> bytes:
        """The points of `rgb` as a file in PNG."""
        return png_of(lines_of(self.rows(), scale_of(scale)), palette_of(self.classic))

    def save(self, path: PathLike, scale: SupportsIndex = SCALE) -> None:
        """Writes the file in PNG. Raises `ValueError` if its name doesn't end in `.png`, and
        `OSError` if it can't be written."""
        if Path(path).suffix.lower() != ".png":
            raise ValueError(f"{path} doesn't end in .png, and no other kind is written")
        Path(path).write_bytes(self.png(scale))

    def _repr_png_(self) -> bytes:
        """What a notebook shows of a picture."""
        return self.png(max(1, min(SCALE, MOST_SHOWN // self.width)))

    def __str__(self) -> str:
        """The rows as lines, with a digit for each pixel."""
        return "\n".join("".join(map(str, row)) for row in self.rows())


def scale_of(scale: SupportsIndex) -> int:
    """A scale. Raises `ValueError` if it isn't 1 to 16."""
    number = number_of("scale", scale, MOST_SCALE)
    if number == 0:
        raise ValueError(f"scale is 0, and may be 1 to {MOST_SCALE}")
    return number


@dataclass(frozen=True)
class Plane:
    """Which pixels have one colour.

    `octets` has (width + 7) // 8 octets for each row, from the top. The leftmost pixel is the highest bit of the first octet of its row, and
    a bit is 1 if its pixel has the colour. Spare bits at the end of a row are 0.
    """

    width: int
    height: int
    octets: bytes

    def __bytes__(self) -> bytes:
        return self.octets

    def lit(self, row: int, column: int) -> bool:
        """Whether a pixel has the colour. Rows and columns count from 0. Raises `ValueError` for a pixel outside the sign."""
        at = number_of("row", row, self.height - 1) * stride_of(self.width) + number_of("column", column, self.width - 1) // 8
        return bool(self.octets[at] >> (7 - column % 8) & 1)

    def rows(self) -> list[str]:
        """The rows from the top, with `#` for a pixel of the colour and `.` for any other, as `signctl show` draws them."""
        stride = stride_of(self.width)
        signs = {ord("0"): ".", ord("1"): "#"}
        parts = [self.octets[stride * row:stride * (row + 1)] for row in range(self.height)]
        return ["".join(f"{octet:08b}" for octet in part)[:self.width].translate(signs) for part in parts]

    def array(self) -> numpy.ndarray[Any, Any]:
        """The pixels as a NumPy array of truth values, with the shape (height, width). Raises `ImportError` where NumPy isn't there."""
        import numpy

        bits = numpy.unpackbits(numpy.frombuffer(self.octets, numpy.uint8))
        return bits.reshape(self.height, 8 * stride_of(self.width))[:, :self.width].astype(bool)

    def __str__(self) -> str:
        """The rows as lines."""
        return "\n".join(self.rows())


def stride_of(width: int) -> int:
    """How many octets a row of a plane has."""
    return (width + 7) // 8


@dataclass(frozen=True)
class Shown:
    """A page that is shown: its number, from 0, and its phase, the tenths of a second since it began."""

    page: int
    phase: int

    def __str__(self) -> str:
        return f"page {self.page} phase {self.phase}"
