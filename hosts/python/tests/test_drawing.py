"""Pictures as points, as files in PNG and as arrays: what is written is read by other rules."""
from __future__ import annotations

import contextlib
import struct
import subprocess
import sys
import tempfile
import unittest
import zlib
from pathlib import Path
from types import SimpleNamespace
from typing import Any, cast
from unittest import mock

from latsefur import COLOURS, Controller, Picture, Sign

from tests.places import PROGRAM, SIGNS, needs_program

# A text in colours, on a sign of that scheme; and one that a sign of one colour shows in it.
TEXTS = [("full-matrix.toml", "[cf1]RED[cf3]GREEN[nl][cf9]12"), ("portable.toml", "[cf2]ROAD")]


def chunks(file: bytes) -> dict[bytes, bytes]:
    """The parts of a file in PNG by their names, each of which has its check sum."""
    assert file[:8] == b"\x89PNG\r\n\x1a\n"
    at, parts = 8, {}
    while at < len(file):
        (length,) = struct.unpack_from(">I", file, at)
        kind, octets = file[at + 4 : at + 8], file[at + 8 : at + 8 + length]
        (check,) = struct.unpack_from(">I", file, at + 8 + length)
        assert check == zlib.crc32(kind + octets)
        parts[kind], at = octets, at + 12 + length
    assert list(parts) == [b"IHDR", b"PLTE", b"IDAT", b"IEND"]
    return parts


def points(file: bytes) -> tuple[int, int, bytes]:
    """How many points a line of a file in PNG has, how many lines there are, and the red, green and
    blue of each point."""
    parts = chunks(file)
    width, height, *kind = struct.unpack(">IIBBBBB", parts[b"IHDR"])
    assert kind == [8, 3, 0, 0, 0]
    told = zlib.decompress(parts[b"IDAT"])
    lines = [told[begin : begin + width + 1] for begin in range(0, len(told), width + 1)]
    assert len(lines) == height and all(line[0] == 0 for line in lines)
    shares = [parts[b"PLTE"][3 * number : 3 * number + 3] for number in range(11)]
    return width, height, b"".join(shares[number] for line in lines for number in line[1:])


class Points(unittest.TestCase):
    def test_each_pixel_as_it_shines(self) -> None:
        colours = Picture(len(COLOURS), 1, bytes(range(len(COLOURS))))
        shares = [tuple(colours.rgb()[begin : begin + 3]) for begin in range(0, 30, 3)]
        self.assertEqual((shares[0], shares[9]), ((40, 40, 40), (255, 176, 0)))
        self.assertEqual(len(set(shares)), 10)
        amber = Picture(2, 1, bytes([0, 1]), classic=False)
        self.assertEqual(amber.rgb(), bytes([40, 40, 40, 255, 176, 0]))
        self.assertEqual(amber, Picture(2, 1, bytes([0, 1])))

    def test_dots(self) -> None:
        """The dot of a pixel fills its square below four points; from there on it is round."""
        one = Picture(1, 1, bytes([9]))
        for scale in (1, 2, 3):
            self.assertEqual(one.rgb(scale), bytes([255, 176, 0]) * scale**2)
        lit = [one.rgb(4)[3 * place] == 255 for place in range(16)]
        drawn = ["".join(".#"[it] for it in lit[begin : begin + 4]) for begin in range(0, 16, 4)]
        self.assertEqual(drawn, [".##.", "####", "####", ".##."])
        for scale in (0, 17, -1):
            self.assertRaises(ValueError, one.rgb, scale)
            self.assertRaises(ValueError, one.png, scale)
        self.assertRaises(TypeError, one.png, 1.5)

    def test_the_scheme_is_the_sign_s(self) -> None:
        for name, text in TEXTS:
            sign = Sign.from_file(SIGNS / name)
            pictures = [sign.colours(text), *sign.pages(text)]
            with Controller(sign) as controller:
                pictures += [controller.colours_of_page(text, 0), controller.colours().picture]
            self.assertEqual({it.classic for it in pictures}, {sign.classic})

    @needs_program
    def test_points_of_signctl(self) -> None:
        """The points are those that `signctl picture` draws."""
        for name, text in TEXTS:
            picture = Sign.from_file(SIGNS / name).colours(text)
            for scale in (1, 3, 4, 5, 8, 16):
                words = [PROGRAM, "picture", "--sign", SIGNS / name, "--scale", str(scale)]
                ran = subprocess.run(words, input=f"{text}\n".encode(), capture_output=True)
                head = f"P6\n{scale * picture.width} {scale * picture.height}\n255\n".encode()
                self.assertEqual(ran.stdout, head + picture.rgb(scale))


class Files(unittest.TestCase):
    def test_png(self) -> None:
        for name, text in TEXTS:
            picture = Sign.from_file(SIGNS / name).colours(text)
            for scale in (1, 8):
                size = scale * picture.width, scale * picture.height
                self.assertEqual(points(picture.png(scale)), (*size, picture.rgb(scale)))
            self.assertEqual(picture._repr_png_(), picture.png(8))
        self.assertEqual(points(Picture(1024, 1, bytes(1024))._repr_png_())[:2], (1024, 1))

    def test_a_file_is_saved(self) -> None:
        picture = Picture(2, 1, bytes([0, 9]))
        with tempfile.TemporaryDirectory() as folder:
            for name in ("x.png", "X.PNG"):
                picture.save(Path(folder, name), 4)
                self.assertEqual(Path(folder, name).read_bytes(), picture.png(4))
            picture.save(f"{folder}/y.png")
            self.assertEqual(Path(folder, "y.png").read_bytes(), picture.png())
            for name in ("x.gif", "x", "png"):
                self.assertRaises(ValueError, picture.save, Path(folder, name))
                self.assertFalse(Path(folder, name).exists())
            self.assertRaises(OSError, picture.save, Path(folder, "none", "x.png"))


class Held:
    """What stands in for an array of NumPy, where that isn't installed."""

    def __init__(self, octets: bytes, dtype: str) -> None:
        self.octets, self.dtype, self.shape = octets, dtype, (len(octets),)

    def reshape(self, *shape: int) -> Held:
        self.shape = shape
        return self

    def astype(self, dtype: str, copy: bool) -> Held:
        return Held(self.octets, dtype) if copy or dtype != self.dtype else self


class Arrays(unittest.TestCase):
    def test_what_numpy_is_handed(self) -> None:
        picture = Picture(3, 2, bytes([0, 1, 2, 9, 8, 7]))
        numpy = SimpleNamespace(frombuffer=Held, uint8="octets")
        with mock.patch.dict(sys.modules, {"numpy": numpy}):  # type: ignore[dict-item]
            held: Any = picture.__array__()
            self.assertEqual((held.octets, held.dtype, held.shape), (picture.octets, "octets", (2, 3)))
            for words, dtype in (("octets", False), "octets"), (("other", None), "other"), (("other", True), "other"):
                self.assertEqual(cast(Any, picture.__array__(*words)).dtype, dtype)
            self.assertRaises(ValueError, picture.__array__, "other", False)

    def test_numpy_takes_a_picture(self) -> None:
        picture = Picture(2, 2, bytes([0, 1, 2, 9]))
        try:
            import numpy
        except ImportError:
            self.assertRaises(ImportError, picture.__array__)
            self.skipTest("NumPy isn't there")
        self.assertEqual(numpy.asarray(picture).tolist(), [[0, 1], [2, 9]])
        self.assertEqual(numpy.asarray(picture, float).dtype, numpy.dtype(float))
        own = numpy.array(picture)
        own[0, 0] = 7
        self.assertEqual(picture.colour(0, 0), 0)
        self.assertRaises(ValueError, picture.__array__, float, False)
        with contextlib.suppress(ValueError):  # what NumPy hands out of a picture can't be written
            numpy.asarray(picture)[0, 0] = 7
        self.assertEqual(picture.octets, bytes([0, 1, 2, 9]))


if __name__ == "__main__":
    unittest.main()
