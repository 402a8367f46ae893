"""What a controller and a simulated sign have in common, by one set of tests over both."""
from __future__ import annotations

import inspect
import sys
import threading
import unittest
from typing import Any, Callable

from latsefur import (
    ActivateError, Activated, ActivationCode, BadLength, CommandRefused, Controller, Default, DefaultError, Done, EndCode, Ended, LatsefurError,
    Memory, Message, MessageSign, MultiError, NoDefault, NotSet, NotShown, Refused, Reply, Request, Shown, Sign, SimulatedSign, SourceMode,
    StateFault, StateRefused, Status, TableError, Ticked, ValidateError, Worked, message_crc,
)

from tests.places import PROGRAM, SIGNS, needs_program

TEXT = "ROAD[np]WORK"


class Both:
    """The tests, each with a sign of its own."""

    class Tests(unittest.TestCase):
        sign: MessageSign

        def wait(self, number: int) -> None:
            """Has a changeable message wait to be judged."""
            raise NotImplementedError

        def refused(self, call: Callable[..., Any], *words: Any, **named: Any) -> Any:
            """The reply that a call raises."""
            with self.assertRaises(CommandRefused) as raised:
                call(*words, **named)
            return raised.exception.reply

        def test_it_meets_the_protocol(self) -> None:
            self.assertIsInstance(self.sign, MessageSign)
            self.assertEqual((self.sign.width, self.sign.height), (50, 24))

        def test_a_message_is_stored_and_shown(self) -> None:
            sign = self.sign
            sign.store(1, TEXT, owner="me", priority=3)
            self.assertEqual(sign.message(Memory.CHANGEABLE, 1).status, Status.MODIFYING)
            self.assertEqual(sign.validate(1), Worked(1, Status.VALID, ValidateError.NONE, MultiError.NONE, 0))
            sign.show(1, duration=1, priority=9)
            held = sign.message(Memory.CHANGEABLE, 1)
            self.assertEqual((held.text, held.owner, held.priority, held.crc), (TEXT.encode(), b"me", 3, message_crc(TEXT)))
            self.assertEqual(sign.message(Memory.CURRENT_BUFFER, 1).text, TEXT.encode())
            report = sign.report()
            self.assertEqual((report.mode, report.remaining, report.requester), (SourceMode.CENTRAL, 1, 0))
            self.assertEqual((sign.tick(22), sign.frame().shown), (Ticked(), Shown(1, 0)))
            self.assertEqual(sign.colours().picture.rows()[0], bytes(50))
            self.assertEqual((sign.tick(578), sign.report().shown_memory), (Ended(), Memory.BLANK))
            self.assertEqual((sign.clear(), sign.message(3, 1).status), (Done(), Status.NOT_USED))

        def test_those_that_wait_are_judged_before(self) -> None:
            sign = self.sign
            for number in (1, 2, 3):
                sign.store(number, TEXT)
            self.wait(1)
            self.wait(3)
            self.assertEqual(sign.validate(2).number, 2)
            told = [sign.message(Memory.CHANGEABLE, number).status for number in (1, 2, 3)]
            self.assertEqual(told, [Status.VALID, Status.VALID, Status.VALIDATING])
            self.assertEqual(self.refused(sign.validate, 3), Refused(TableError.WRONG_STATE))

        def test_a_message_is_stored_in_one_step(self) -> None:
            """No thread sees the text of one message with the owner of another."""
            sign, mixed, start = self.sign, list[Message](), threading.Barrier(3)
            self.addCleanup(sys.setswitchinterval, sys.getswitchinterval())
            sys.setswitchinterval(1e-6)  # so that threads take turns within a call too
            sign.store(1, "A" * 4, owner="A")

            def write(letter: str) -> None:
                start.wait(10)
                for _ in range(300):
                    sign.store(1, 4 * letter, owner=letter)
                    held = sign.message(Memory.CHANGEABLE, 1)
                    mixed.extend([held] if held.text != 4 * held.owner else [])

            threads = [threading.Thread(target=write, args=(letter,)) for letter in "ABC"]
            for thread in threads:
                thread.start()
            for thread in threads:
                thread.join()
            self.assertEqual(mixed, [])

        def test_the_next_change_is_told(self) -> None:
            sign = self.sign
            self.assertEqual([sign.next_change(most) for most in (0, 7, 2**32 - 1)], [0, 7, 2**32 - 1])
            sign.store(1, TEXT)
            sign.validate(1)
            sign.show(1)
            self.assertEqual([sign.next_change(most) for most in (0, 19, 21)], [0, 19, 20])
            for most in (-1, 2**32):
                self.assertRaises(ValueError, sign.next_change, most)

        def test_a_code_shows_a_message(self) -> None:
            sign = self.sign
            sign.store(2, TEXT)
            sign.validate(2)
            code = ActivationCode(Memory.CHANGEABLE, 2, message_crc(TEXT))
            for given in (code, bytes(code), bytearray(bytes(code)), memoryview(bytes(code))):
                self.assertEqual(sign.activate(given), Activated())
            self.assertEqual(sign.report().requester, 0x7F000001)
            self.assertEqual(self.refused(sign.activate, ActivationCode(3, 2, 0)), NotShown(ActivateError.MESSAGE_CRC))
            for wrong, raised in ((b"", BadLength), (12, TypeError), ("", TypeError), (EndCode(3, 1, 0), TypeError)):
                self.assertRaises(raised, sign.activate, wrong)

        def test_an_end_is_set(self) -> None:
            sign = self.sign
            for number in (1, 2):
                sign.store(number, TEXT)
                sign.validate(number)
            self.assertEqual(sign.set_end(EndCode(Memory.CHANGEABLE, 2, message_crc(TEXT))), Done())
            for wrong, raised in ((b"", BadLength), (5, TypeError), ("", TypeError), (ActivationCode(3, 1, 0), TypeError)):
                self.assertRaises(raised, sign.set_end, wrong)
            sign.show(1, duration=1)
            self.assertEqual((sign.tick(600), sign.report().shown_number), (Ended(), 2))

        def test_a_default_is_set(self) -> None:
            sign = self.sign
            self.assertEqual(sign.set_default(Default.PAGE_ON, 10), Done())
            self.assertEqual(sign.defaults().page_on, 10)
            self.assertEqual(self.refused(sign.set_default, Default.FONT, 9), NotSet(DefaultError.NO_FONT))
            self.assertRaises(NoDefault, sign.set_default, 0, 1)
            self.assertRaises(ValueError, sign.set_default, Default.FONT, 256)

        def test_a_text_is_judged(self) -> None:
            verdict = self.sign.check("CONGESTION")
            self.assertEqual((verdict.error, verdict.at), (MultiError.TEXT_TOO_BIG, 8))
            self.assertEqual([self.sign.check(text).pages for text in (TEXT, b"", bytearray(b"A"))], [2, 1, 1])

        def test_a_text_has_any_octets(self) -> None:
            for text in ("A\r", "A\nB", b"A\0\xff", "\r\n"):
                self.assertEqual(self.sign.check(text).error, MultiError.CHARACTER_NOT_DEFINED)

        def test_what_is_saved_is_restored(self) -> None:
            sign = self.sign
            sign.store(1, TEXT, owner="me")
            sign.validate(1)
            sign.set_default(Default.PAGE_ON, 10)
            sign.show(1, duration=1)
            sign.tick(22)
            saved = sign.save()
            held, told = sign.message(Memory.CHANGEABLE, 1), (sign.report(), sign.defaults(), sign.frame())
            sign.tick(578)
            sign.clear()
            self.assertNotEqual(sign.save(), saved)
            with self.assertRaises(StateRefused) as raised:
                sign.restore(saved[:-1])
            self.assertEqual(raised.exception.why, StateFault.LENGTH)
            self.assertEqual(sign.message(Memory.CHANGEABLE, 1).status, Status.NOT_USED)
            sign.restore(saved)
            self.assertEqual((sign.save(), sign.message(Memory.CHANGEABLE, 1)), (saved, held))
            self.assertEqual((sign.report(), sign.defaults(), sign.frame()), told)
            self.assertRaises(TypeError, sign.restore, 5)

        def test_refusals_are_raised(self) -> None:
            sign = self.sign
            self.assertEqual(self.refused(sign.message, 3, 60000), Refused(TableError.NUMBER))
            self.assertEqual(self.refused(sign.store, 60000, TEXT), Refused(TableError.NUMBER))
            self.assertEqual(self.refused(sign.store, 1, TEXT, priority=0), Refused(TableError.BAD_VALUE))
            for words in ({"text": 1000 * TEXT}, {"text": TEXT, "owner": 1000 * TEXT}, {"text": "", "owner": bytes(128)}):
                self.assertEqual(self.refused(sign.store, 1, **words), Refused(TableError.TOO_LONG))
            self.assertEqual(self.refused(sign.show, 2), NotShown(ActivateError.MESSAGE_STATUS))
            self.assertEqual(self.refused(sign.show, 60000), Refused(TableError.NUMBER))
            self.assertEqual(self.refused(sign.validate, 2), Refused(TableError.WRONG_STATE))
            sign.store(1, "CONGESTION")
            judged = self.refused(sign.validate, 1)
            self.assertEqual(judged, Worked(1, Status.ERROR, ValidateError.SYNTAX_MULTI, MultiError.TEXT_TOO_BIG, 8))

        def test_numbers_and_kinds_are_held_to_their_fields(self) -> None:
            sign = self.sign
            for call in (
                lambda: sign.store(1, TEXT, beacon=256), lambda: sign.store(65536, TEXT), lambda: sign.validate(-1), lambda: sign.tick(2**32),
                lambda: sign.message(256, 1), lambda: sign.show(1, duration=65536), lambda: sign.frame(256),
            ):
                self.assertRaises(ValueError, call)
            self.assertRaises(TypeError, sign.store, 1, 5)
            self.assertEqual(sign.message(3, 1).status, Status.NOT_USED)

        def test_it_is_closed(self) -> None:
            with self.sign as sign:
                self.assertIs(sign, self.sign)
            sign.close()
            self.assertRaises(LatsefurError, sign.report)
            self.assertRaises(LatsefurError, sign.store, 1, TEXT)


class ByController(Both.Tests):
    sign: Controller

    def setUp(self) -> None:
        self.sign = Controller(Sign.from_file(SIGNS / "portable.toml"), strict=True)
        self.addCleanup(self.sign.close)

    def wait(self, number: int) -> None:
        self.sign.request(Memory.CHANGEABLE, number, Request.VALIDATE)

    def test_what_is_not_strict_gives_refusals_as_values(self) -> None:
        with Controller(Sign.from_file(SIGNS / "portable.toml")) as sign:
            replies: list[Reply] = [sign.set_default(Default.FONT, 9), sign.activate(ActivationCode(3, 1, 0))]
            self.assertEqual(replies, [NotSet(DefaultError.NO_FONT), NotShown(ActivateError.MESSAGE_STATUS)])
            self.assertEqual(self.refused(sign.store, 60000, TEXT), Refused(TableError.NUMBER))
            self.assertEqual(self.refused(sign.show, 2), NotShown(ActivateError.MESSAGE_STATUS))
            self.assertEqual(self.refused(sign.validate, 2), Refused(TableError.WRONG_STATE))


@needs_program
class BySimulatedSign(Both.Tests):
    sign: SimulatedSign

    def setUp(self) -> None:
        self.sign = SimulatedSign(SIGNS / "portable.toml", PROGRAM, timeout=None)
        self.addCleanup(self.sign.close)

    def wait(self, number: int) -> None:
        self.assertEqual(self.sign.ask(f"request {int(Memory.CHANGEABLE)} {number} {int(Request.VALIDATE)}"), "done")


class Protocols(unittest.TestCase):
    """Each call of the protocol has the same arguments on both. Mypy says so too, where it is installed."""

    def test_both_take_its_arguments(self) -> None:
        names = [name for name in vars(MessageSign) if inspect.isfunction(getattr(MessageSign, name)) and not name.startswith("_")]
        self.assertEqual(len(names), 18)
        for name in names:
            for kind in (Controller, SimulatedSign):
                with self.subTest(f"{kind.__name__}.{name}"):
                    wanted, there = (inspect.signature(getattr(holder, name)).parameters for holder in (MessageSign, kind))
                    self.assertEqual(list(wanted), list(there))
                    for argument, own in zip(wanted.values(), there.values()):
                        is_same = own.kind == argument.kind and argument.default in (own.default, argument.empty)
                        self.assertTrue(is_same, f"{own} and not {argument}")


if __name__ == "__main__":
    unittest.main()
