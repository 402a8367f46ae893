#!/usr/bin/env python3
"""Drives the controller of a sign by a script: a host in Python that holds a controller, by the package `latsefur`.

    control.py SIGN_FILE

A script is lines on standard input, as docs/formats.md describes them, and each has the reply that `signctl run` writes. The status is 1
after a line that is none of a script, 2 if there is no controller, and 3 if two answers of the library don't agree.

Time passes as for a display driver that sleeps until what is shown may change.
"""
import sys

from latsefur import Controller, LatsefurError, TextRefused, Ticked, script


def hold(agrees, what):
    """Ends the host if two answers don't agree."""
    if not agrees:
        print(f"control: {what}", file=sys.stderr)
        sys.exit(3)


def lines_of(picture, colour):
    """The pixels of a colour, as a line for each row."""
    return ["".join("#" if pixel == colour else "." for pixel in row) for row in picture.rows()]


def page_of(shown):
    return None if shown is None else shown.page


class Driver(Controller):
    """A controller that holds the answers of the library to each other."""

    def frame(self, colour):
        """A frame, which has the pixels of the colours."""
        frame, display = super().frame(colour), self.colours()
        hold(frame.plane.rows() == lines_of(display.picture, colour), "a frame has other pixels than the colours")
        hold(frame.shown == display.shown, "a frame shows another page than the colours")
        return frame

    def set_multi(self, memory, number, text):
        """Sets a text, which is judged by the defaults in force, and whose first page is drawn in all colours and in one."""
        try:
            plane, picture = self.plane_of_page(text, 0, 1), self.colours_of_page(text, 0)
            hold(self.check(text), "a text is drawn that is refused")
            hold(plane.rows() == lines_of(picture, 1), "the plane of a page has other pixels than its colours")
        except TextRefused:
            hold(not self.check(text), "a text is refused that is accepted")
        return super().set_multi(memory, number, text)

    def tick(self, tenths):
        """Lets time pass, and sleeps up to a tenth before what is shown may change: until then it must stay."""
        left = self.next_change(tenths)
        hold(left <= tenths, "the next change is later than was asked for")
        asleep = max(left - 1, 0)
        if asleep:
            before, told, later = self.colours(), super().tick(asleep), self.colours()
            hold(told == Ticked(), "a duration ended before the next change")
            same = page_of(later.shown) == page_of(before.shown) and later.picture == before.picture
            hold(same, "what is shown changed before the next change")
        return super().tick(tenths - asleep)


def main():
    if len(sys.argv) != 2:
        sys.exit(2)
    try:
        controller = Driver.from_file(sys.argv[1])
    except (LatsefurError, OSError):
        sys.exit(2)
    lines = (line.removesuffix(b"\n").removesuffix(b"\r") for line in sys.stdin.buffer)
    with controller:
        try:
            for reply in script.run(controller, lines):
                print(reply)
        except script.BadLine:
            sys.exit(1)


main()
