"""A simulated sign: its replies as values, what it refuses, and a sign that has ended. It runs `bin/signctl`."""
from __future__ import annotations

import unittest
from typing import Optional

from latsefur import (
    ActivateError, Controller, Defaults, Done, Ended, Memory, NotShown, Shown, Sign, SignStopped, SimulatedSign, Status, Ticked, UnexpectedReply,
    ValidateError, message_crc,
)

from tests.places import PROGRAM, SIGNS, needs_program


def simulated(name: Optional[str] = None) -> SimulatedSign:
    return SimulatedSign(SIGNS / name if name else None, PROGRAM, timeout=None)


@needs_program
class SimulatedSigns(unittest.TestCase):
    def test_a_message_is_stored_shown_and_ended(self) -> None:
        with simulated("portable.toml") as sign:
            self.assertEqual((sign.width, sign.height), (50, 24))
            sign.store(1, "ROAD[np]WORK", priority=3)
            self.assertEqual(sign.message(3, 1).status, Status.MODIFYING)
            self.assertEqual(sign.validate(1).validate_error, ValidateError.NONE)
            self.assertIsNone(sign.next_change())
            sign.show(1, duration=1)
            self.assertEqual(sign.message(Memory.CURRENT_BUFFER, 1).text, b"ROAD[np]WORK")
            self.assertEqual((sign.report().clock, sign.report().remaining, sign.next_change()), (0, 1, 20))
            self.assertEqual(sign.tick(20), Ticked())
            self.assertEqual((sign.frame().shown, sign.next_change()), (None, 2))
            self.assertEqual(sign.tick(2), Ticked())
            self.assertEqual(sign.frame().shown, Shown(page=1, phase=0))
            self.assertEqual(sign.tick(578), Ended())
            self.assertEqual(sign.report().shown_memory, Memory.BLANK)
            sign.clear()
            self.assertEqual(sign.message(3, 1).status, Status.NOT_USED)

    def test_it_answers_as_the_library_does(self) -> None:
        text = "[cf2]ROAD[nl][cf3]WORK"
        sign = Sign.from_file(SIGNS / "full-matrix.toml")
        with simulated("full-matrix.toml") as served:
            served.store(1, text, owner="me")
            served.validate(1)
            served.show(1)
            self.assertEqual(served.colours().picture, sign.colours(text))
            self.assertEqual(served.frame(2).plane, sign.plane(text, 2))
            for any_octets in (text, "A\r", "A\n", b"\0\xff", ""):
                self.assertEqual(served.crc(any_octets), message_crc(any_octets))
                self.assertEqual(served.check(any_octets).error, sign.check(any_octets).error)
            with Controller(sign) as controller:
                self.assertEqual(served.defaults(), controller.defaults())
                controller.restore(served.save())
                self.assertEqual(controller.message(3, 1), served.message(3, 1))
                self.assertEqual(controller.save(), served.save())
            self.assertIsInstance(served.defaults(), Defaults)

    def test_another_reply_is_told(self) -> None:
        with simulated() as sign:
            with self.assertRaises(UnexpectedReply) as raised:
                sign.show(1)
            self.assertEqual(raised.exception.said, f"not shown {int(ActivateError.MESSAGE_STATUS)}")
            self.assertEqual(raised.exception.reply, NotShown(ActivateError.MESSAGE_STATUS))
            with self.assertRaises(UnexpectedReply) as raised:
                sign._expect("tock 1", Done())
            self.assertEqual((raised.exception.said, raised.exception.reply), ("bad line", None))
            with self.assertRaises(UnexpectedReply) as raised:
                sign.store(2, "A")
            self.assertEqual((raised.exception.asked, raised.exception.said), ("request 3 2 6", "refused 2"))
            sign.store(1, "AAAA")
            with self.assertRaises(UnexpectedReply) as raised:
                sign.validate(1)
            self.assertEqual(raised.exception.said, "worked 1 5 5 5 3")
            self.assertEqual([sign.ask(line) for line in ("", "# a comment", "tock 1", "a" * 8301, "tick 1")],
                             ["ok", "ok", "bad line", "too long", "ticked"])
            self.assertRaises(ValueError, sign.ask, "tick 1\ntick 1")

    def test_an_end_is_told(self) -> None:
        with self.assertRaises(SignStopped) as raised:
            simulated("none.toml")
        self.assertIn("status 1", str(raised.exception))
        sign = simulated()
        sign.close()
        sign.close()
        self.assertRaises(SignStopped, sign.report)


if __name__ == "__main__":
    unittest.main()
