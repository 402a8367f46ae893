"""What the table of examples doesn't ask: errors by name, values, threads, other processes, and how the library is found."""
from __future__ import annotations

import contextlib
import copy
import gc
import io
import json
import os
import pickle
import re
import subprocess
import sys
import tempfile
import threading
import unittest
from concurrent.futures import ProcessPoolExecutor
from pathlib import Path
from unittest import mock

import latsefur
from latsefur import (
    Activated, ActivationCode, Controller, Default, Done, EndCode, Ended, Idle, Memory, MultiError, NotSet, NotShown, Picture, Plane, Refused,
    Request, Shown, Sign, Status, Ticked, Verdict, Worked, message_crc,
)

from latsefur.library import sentence_of
from latsefur.values import SENTENCED, TableError

from tests.places import PROGRAM, SIGNS, TOP, needs_program, sign_with

SAMPLE = (SIGNS / "sample.toml").read_bytes()
A_CODE = ActivationCode(Memory.CHANGEABLE, 1, 0x9A66)


def stored(controller: Controller, text: str) -> None:
    """Stores a text as message 1 of the changeable ones, and has it judged."""
    controller.request(Memory.CHANGEABLE, 1, Request.MODIFY)
    controller.set_multi(Memory.CHANGEABLE, 1, text)
    controller.request(Memory.CHANGEABLE, 1, Request.VALIDATE)
    controller.work()


class Texts(unittest.TestCase):
    def setUp(self) -> None:
        self.sign = Sign(SAMPLE)

    def test_facts(self) -> None:
        sign = Sign.from_file(str(SIGNS / "full-matrix.toml"))
        self.assertEqual((sign.width, sign.height, sign.classic), (144, 48, True))
        self.assertEqual((self.sign.width, self.sign.height, self.sign.max_pages, self.sign.classic), (12, 7, 2, False))
        self.assertEqual(repr(self.sign), "<Sign, 12 by 7 pixels of one colour>")

    def test_verdicts(self) -> None:
        self.assertEqual(self.sign.check("A[np]I"), Verdict(pages=2, cycle=60))
        self.assertEqual(self.sign.check(b"AAAA"), Verdict(error=MultiError.TEXT_TOO_BIG, at=3))
        self.assertTrue(self.sign.check("A"))
        self.assertFalse(self.sign.check("B"))
        self.assertEqual(self.sign.check_all([]), [])
        self.assertEqual(self.sign.check_all(iter(["A", b"\x00", "[[B", ""])), [
            Verdict(pages=1, cycle=30), Verdict(error=MultiError.CHARACTER_NOT_DEFINED), Verdict(error=MultiError.CHARACTER_NOT_DEFINED, at=2),
            Verdict(pages=1, cycle=30),
        ])

    def test_a_character_is_an_octet(self) -> None:
        sign = Sign(SAMPLE.replace(b"number = 93", b"number = 233"))
        self.assertTrue(sign.check("\u00e9"))
        self.assertTrue(sign.check(b"\xe9"))
        with self.assertRaises(latsefur.NotAnOctet) as raised:
            sign.check("\u00e9\u2190")
        self.assertEqual((raised.exception.at, "[hc2190]" in str(raised.exception)), (1, True))
        with self.assertRaises(latsefur.NotAnOctet) as raised:
            sign.check("\U0001f6a7")
        self.assertNotIn("[hc", str(raised.exception))
        for number in (65, 0, True, None, [65], ("A",)):
            self.assertRaises(TypeError, sign.check, number)

    def test_octets_are_taken_as_they_come(self) -> None:
        for kind in (bytes, bytearray, memoryview):
            self.assertEqual(self.sign.check(kind(b"A[np]I")), Verdict(pages=2, cycle=60))
            self.assertEqual(self.sign.check_all([kind(b"A")]), [Verdict(pages=1, cycle=30)])
            self.assertEqual((message_crc(kind(b"A")), Sign(kind(SAMPLE)).octets), (0x9A66, SAMPLE))

    def test_a_number_is_no_sign_file(self) -> None:
        """`bytes(5)` would be five octets of zero."""
        for number in (5, 0, "height = 7", [1, 2], None):
            self.assertRaises(TypeError, Sign, number)

    def test_a_lone_text_is_not_several(self) -> None:
        for text in ("ABC", b"ABC", bytearray(b"ABC"), memoryview(b"ABC"), ""):
            self.assertRaises(TypeError, self.sign.check_all, text)
            with contextlib.suppress(ImportError):
                self.assertRaises(TypeError, self.sign.check_array, text)
        self.assertEqual(list(map(bool, self.sign.check_all(("A", "B", "A")))), [True, False, True])

    def test_pictures(self) -> None:
        first, second = self.sign.pages("A[np]I")
        self.assertEqual(second, self.sign.colours("A[np]I", 30))
        self.assertEqual(str(second), "\n".join(["0" * 12] * 2 + ["000001000000"] * 3 + ["0" * 12] * 2))
        self.assertEqual([first.colour(3, column) for column in range(3, 8)], [0, 1, 1, 1, 0])
        self.assertEqual((len(bytes(first)), first.rows()[3]), (84, bytes([0] * 4 + [1] * 3 + [0] * 5)))
        plane = self.sign.plane("A[np]I", 1, 30)
        self.assertEqual(plane.rows()[2], ".....#......")
        self.assertEqual([plane.lit(2, column) for column in (4, 5, 6)], [False, True, False])
        self.assertEqual(self.sign.shown("A[np]I", 31), Shown(page=1, phase=1))
        self.assertIsNone(self.sign.shown("[pt10o5]A[np]A", 12))
        for call in (first.colour, plane.lit):
            for place in ((7, 0), (0, 12), (-1, 0)):
                self.assertRaises(ValueError, call, *place)

    def test_arrays(self) -> None:
        picture, plane = self.sign.colours("A"), self.sign.plane("A")
        try:
            array = picture.array()
        except ImportError:
            self.assertRaises(ImportError, plane.array)
            self.skipTest("NumPy isn't there")
        self.assertEqual((array.shape, array.tobytes()), ((7, 12), bytes(picture)))
        self.assertTrue((plane.array() == (array == 1)).all())

    def test_arrays_of_verdicts(self) -> None:
        try:
            import numpy
        except ImportError:
            self.assertRaises(ImportError, self.sign.check_array, ["A"])
            self.skipTest("NumPy isn't there")
        texts = ["A[np]I", b"AAAA", "", "[[B"]
        told = self.sign.check_array(texts)
        self.assertEqual(told["refused"].tolist(), [0, 1, 0, 1])
        for verdict, record in zip(self.sign.check_all(texts), told):
            known = verdict.pages, verdict.cycle, int(verdict.error or 0), verdict.at
            self.assertEqual(known, tuple(int(record[name]) for name in ("pages", "cycle", "error", "at")))
        self.assertEqual((len(self.sign.check_array([])), numpy.count_nonzero(told["refused"])), (0, 2))

    def test_it_says_why(self) -> None:
        told = self.sign.explain("AAAA")
        self.assertEqual((told["outcome"], told["code"], told["name"], told["octet"]), ("refused", 5, "textTooBig", 3))
        self.assertEqual([page.get("picture") for page in self.sign.explain("A[np]I")["pages"]], [None, None])
        self.assertEqual(self.sign.explain("A[np]I", pictures=True)["pages"][0]["picture"].count("\n"), 7)
        self.assertEqual(self.sign.explain("A" * 4097)["outcome"], "too long")
        large = Sign.from_file(SIGNS / "full-matrix.toml")
        self.assertGreater(len(str(large.explain("A[np]B", pictures=True))), 4096)

    def test_numbers_have_sentences(self) -> None:
        reasons = [reason for kind in SENTENCED for reason in kind]
        told = {repr(reason): reason.sentence for reason in reasons}
        self.assertEqual(TableError.MEMORY_TYPE.sentence, "there is no such memory type")
        self.assertEqual(MultiError.TEXT_TOO_BIG.sentence, "the text is too big for the sign")
        self.assertEqual(MultiError.GRAPHIC_ID.sentence, "graphic id")
        self.assertEqual(sentence_of(7, 12), str(latsefur.NoFont()))
        self.assertTrue(all(words and len(words) <= 64 and words[-1] != "." for words in told.values()))
        self.assertEqual([sentence_of(kind, 200) for kind in range(9)], [None] * 9)
        for reason in reasons:
            self.assertEqual((str(reason), f"{reason}", "%s" % reason), (reason.sentence,) * 3)
            self.assertEqual((f"{reason:d}", f"{reason:>3}", "%d" % reason), (str(reason.value), str(reason.value).rjust(3), str(reason.value)))

    def test_numbers_have_words_without_a_library(self) -> None:
        with mock.patch.dict(os.environ, {"LATSEFUR_LIBRARY": "/nowhere/liblatsefur.so"}):
            self.assertEqual((str(TableError.MEMORY_TYPE), MultiError.TEXT_TOO_BIG.sentence), ("memory type", "text too big"))
            self.assertEqual(str(latsefur.StateRefused(latsefur.StateFault.CHECKSUM)), "the saved octets aren't taken: checksum")

    def test_a_refusal_says_why(self) -> None:
        judged = Worked(1, Status.ERROR, latsefur.ValidateError.SYNTAX_MULTI, MultiError.TEXT_TOO_BIG, 3)
        asked = Worked(1, Status.ERROR, latsefur.ValidateError.BEACONS, MultiError.NONE, 0)
        self.assertEqual((judged.why, asked.why), (MultiError.TEXT_TOO_BIG, latsefur.ValidateError.BEACONS))
        for fault, said in (
            (latsefur.CommandRefused(judged), "the sign replies 'worked 1 5 5 5 3': the text is too big for the sign"),
            (latsefur.CommandRefused(Idle()), "the sign replies 'idle'"),
            (latsefur.UnexpectedReply("work", str(judged)), "'work' is answered 'worked 1 5 5 5 3': the text is too big for the sign"),
            (latsefur.UnexpectedReply("default font 9", "refused 10"), "'default font 9' is answered 'refused 10': the sign has no such font"),
            (latsefur.UnexpectedReply("tock", "bad line"), "'tock' is answered 'bad line'"),
            (latsefur.StateRefused(latsefur.StateFault.CHECKSUM), "the saved octets aren't taken: their CRC-32 isn't theirs"),
        ):
            self.assertEqual(str(fault), said)

    def test_films(self) -> None:
        film = self.sign.film("A[np]I", 2)
        self.assertEqual((film[:6], film[-1:], film[6:10]), (b"GIF89a", b";", bytes((24, 0, 14, 0))))
        self.assertNotEqual(self.sign.film("A[np]I", 2, seconds=1), film)
        self.assertGreater(len(Sign.from_file(SIGNS / "full-matrix.toml").film("[cf1]A[np][cf2]B", 16)), 1000)
        self.assertRaises(latsefur.TextRefused, self.sign.film, "AAAA")
        many, text = Sign(SAMPLE.replace(b"max_pages = 2", b"max_pages = 20")), "[pt255o255]" + "A[np]" * 12 + "A"
        self.assertRaises(latsefur.LongFilm, many.film, text)
        self.assertEqual(many.film(text, 1, seconds=1)[:6], b"GIF89a")
        for side, seconds in ((0, None), (17, None), (1, 0), (1, 601)):
            self.assertRaises(ValueError, self.sign.film, "A", side, seconds)

    @needs_program
    def test_it_says_what_the_program_says(self) -> None:
        for name in ("portable.toml", "full-matrix.toml"):
            sign, words = Sign.from_file(SIGNS / name), ["--sign", str(SIGNS / name)]
            for text in ("ROAD[nl]WORK[np]AHEAD", "A[zz]", "CONGESTION AHEAD", "", "[fl]A[/fl]"):
                asked = [str(PROGRAM), "explain", "--format", "json", "--pages", *words, "-m", text]
                said = subprocess.run(asked, stdout=subprocess.PIPE, check=False).stdout
                self.assertEqual(sign.explain(text, pictures=True), json.loads(said))
                if sign.check(text):
                    drawn = subprocess.run(
                        [str(PROGRAM), "picture", "--all", "--gif", *words], input=text.encode() + b"\n", stdout=subprocess.PIPE, check=True
                    )
                    self.assertEqual(sign.film(text), drawn.stdout)

    def test_errors(self) -> None:
        for call in (self.sign.shown, self.sign.colours, self.sign.plane, self.sign.pages):
            self.assertRaises(latsefur.TextRefused, call, "B")
        self.assertRaises(latsefur.NoPage, self.sign.colours_of_page, "A", 1)
        self.assertRaises(latsefur.NoPage, self.sign.plane_of_page, "A", 255)
        self.assertRaises(latsefur.NoSignFile, Sign, b"")
        self.assertRaises(latsefur.SignFault, Sign, sign_with(SIGNS / "sample.toml", "width = 0").encode())
        self.assertRaises(FileNotFoundError, Sign.from_file, SIGNS / "none.toml")
        for clock in (-1, 2**64):
            self.assertRaises(ValueError, self.sign.shown, "A", clock)
        self.assertRaises(ValueError, self.sign.plane, "A", 256)
        self.assertRaises(TypeError, self.sign.shown, "A", 1.5)
        self.assertTrue(all(issubclass(known, latsefur.LatsefurError) for known in latsefur.errors.NAMED.values()))
        self.assertEqual(str(latsefur.errors.named(99)), "the library has no outcome 99")

    def test_a_sign_is_a_value(self) -> None:
        same = pickle.loads(pickle.dumps(self.sign))
        self.assertEqual((same, hash(same)), (self.sign, hash(self.sign)))
        self.assertEqual(copy.deepcopy(self.sign), self.sign)
        self.assertNotEqual(self.sign, Sign.from_file(SIGNS / "portable.toml"))
        self.assertNotEqual(self.sign, SAMPLE)
        self.assertIsInstance(pickle.loads(pickle.dumps(self.sign.colours("A"))), Picture)
        self.assertIsInstance(copy.copy(self.sign.plane("A")), Plane)

    def test_other_processes(self) -> None:
        with ProcessPoolExecutor(2) as pool:
            self.assertEqual(list(map(str, pool.map(self.sign.check, ["A", "B"]))), ["ok 1", "error 7 0"])
            with self.assertRaises(latsefur.NotAnOctet) as raised:
                pool.submit(self.sign.check, "A\u2190").result(60)
            self.assertEqual((raised.exception.text, raised.exception.at), ("A\u2190", 1))

    def test_threads(self) -> None:
        wanted = self.sign.colours("A[np]I", 30)
        wrong: list[Picture] = []

        def look() -> None:
            wrong.extend(got for got in (self.sign.colours("A[np]I", 30) for _ in range(100)) if got != wanted)

        threads = [threading.Thread(target=look) for _ in range(4)]
        for thread in threads:
            thread.start()
        for thread in threads:
            thread.join()
        self.assertEqual(wrong, [])


class Controllers(unittest.TestCase):
    def test_replies_are_values(self) -> None:
        with Controller(Sign(SAMPLE)) as controller:
            self.assertEqual(controller.sign.width, 12)
            self.assertEqual(controller.work(), Idle())
            self.assertEqual(controller.set_multi(3, 1, "A"), Refused(latsefur.TableError.WRONG_STATE))
            stored(controller, "A")
            self.assertEqual(controller.message(3, 1), latsefur.Message(3, 1, Status.VALID, 1, 0, 0, 0x9A66, b"", b"A"))
            with self.assertRaises(latsefur.CommandRefused) as raised:
                controller.message(3, 2)
            self.assertEqual(raised.exception.reply, Refused(latsefur.TableError.NUMBER))
            self.assertEqual(controller.activate(ActivationCode(3, 1, 0)), NotShown(latsefur.ActivateError.MESSAGE_CRC))
            self.assertEqual(controller.set_end(EndCode(Memory.BLANK, 1, 0)), Done())
            self.assertEqual(controller.activate(ActivationCode(3, 1, message_crc("A"), duration=1)), Activated())
            self.assertEqual((controller.tick(599), controller.tick(1)), (Ticked(), Ended()))
            self.assertEqual(controller.set_default(Default.FONT, 9), NotSet(latsefur.DefaultError.NO_FONT))
            self.assertEqual(controller.defaults().page_on, 30)
            report = controller.report()
            self.assertEqual((report.mode, report.used, report.free), (latsefur.SourceMode.END_DURATION, 1, 3))
            self.assertGreater(controller.frame().plane.width, 0)
            self.assertGreater(controller.steps(), 0)
            controller.request(3, 1, Request.MODIFY)
            controller.set_multi(3, 1, "B")
            controller.request(3, 1, Request.VALIDATE)
            self.assertEqual(controller.work(), Worked(1, Status.ERROR, latsefur.ValidateError.SYNTAX_MULTI, MultiError.CHARACTER_NOT_DEFINED, 0))

    def test_a_refusal_is_false(self) -> None:
        with Controller(Sign(SAMPLE)) as controller:
            self.assertFalse(controller.activate(A_CODE))
            self.assertFalse(controller.set_multi(3, 1, "A"))
            self.assertFalse(controller.set_default(Default.FONT, 9))
            self.assertTrue(controller.request(3, 1, Request.MODIFY))
            self.assertTrue(all((Done(), Idle(), Activated(), Ticked(), Ended(), controller.tick(1), controller.work())))
            for reply in (Refused(latsefur.TableError.NUMBER), NotShown(latsefur.ActivateError.PRIORITY), NotSet(latsefur.DefaultError.NO_FONT)):
                self.assertIsInstance(reply, latsefur.Refusal)
                self.assertIs(bool(reply), False)

    def test_a_strict_controller_raises_refusals(self) -> None:
        with Controller.from_file(SIGNS / "sample.toml", strict=True) as controller:
            for reply, call in (
                (NotShown(latsefur.ActivateError.MESSAGE_STATUS), lambda: controller.activate(A_CODE)),
                (Refused(latsefur.TableError.WRONG_STATE), lambda: controller.set_multi(3, 1, "A")),
                (Refused(latsefur.TableError.WRONG_STATE), lambda: controller.set_owner(3, 1, "me")),
                (Refused(latsefur.TableError.NUMBER), lambda: controller.request(3, 2, Request.MODIFY)),
                (Refused(latsefur.TableError.WRONG_STATE), lambda: controller.set_priority(3, 1, 2)),
                (NotSet(latsefur.DefaultError.NO_FONT), lambda: controller.set_default(Default.FONT, 9)),
            ):
                with self.assertRaises(latsefur.CommandRefused) as raised:
                    call()
                self.assertEqual(raised.exception.reply, reply)
                self.assertEqual(str(raised.exception), f"the sign replies '{reply}': {reply.why.sentence}")
            stored(controller, "A")
            self.assertEqual((controller.activate(A_CODE), controller.tick(1), controller.work()), (Activated(), Ticked(), Idle()))
            self.assertEqual([str(reply) for reply in latsefur.script.run(controller, ["row 3 2", "multi 3 1 A", "work"])],
                             ["refused 2", "refused 4", "idle"])

    def test_codes(self) -> None:
        self.assertEqual(bytes(A_CODE).hex(), "ffffff0300019a667f000001")
        self.assertEqual(bytes(EndCode(2, 1, 0xAB77)).hex(), "020001ab77")
        self.assertEqual((message_crc(b""), message_crc("AAAA")), (0x0F47, 0x6DB5))
        self.assertRaises(ValueError, bytes, ActivationCode(3, 65536, 0))

    def test_errors(self) -> None:
        controller = Controller.from_file(SIGNS / "sample.toml")
        self.assertRaises(latsefur.BadLength, controller.activate, b"")
        self.assertRaises(latsefur.BadLength, controller.set_end, b"123456")
        self.assertRaises(latsefur.NoDefault, controller.set_default, 0, 0)
        for call, words in ((controller.request, (3, 65536, 6)), (controller.request, (256, 1, 6)), (controller.set_beacon, (3, 1, 256))):
            self.assertRaises(ValueError, call, *words)
        self.assertRaises(ValueError, controller.tick, 2**32)
        before = controller.report()
        for code in (5, 12, 0, "12 characters", None, [0] * 12, EndCode(3, 1, 0)):
            self.assertRaises(TypeError, controller.activate, code)
        for code in (5, 12, 0, "5 ch.", None, [0] * 5, A_CODE):
            self.assertRaises(TypeError, controller.set_end, code)
        self.assertRaises(TypeError, controller.set_multi, 3, 1, 5)
        self.assertEqual(controller.report(), before)
        self.assertRaises(TypeError, copy.copy, controller)
        self.assertRaises(TypeError, copy.deepcopy, controller)
        self.assertRaises(TypeError, pickle.dumps, controller)
        controller.close()
        controller.close()
        self.assertRaises(latsefur.NoController, controller.report)
        self.assertRaises(latsefur.NoController, controller.work)
        self.assertRaises(latsefur.TableFault, Controller, Sign(sign_with(SIGNS / "sample.toml", "slots = 0").encode()))

    def test_the_end_of_the_object_frees(self) -> None:
        controller = Controller(Sign(SAMPLE))
        free = controller._free
        self.assertTrue(free.alive)
        del controller
        gc.collect()
        self.assertFalse(free.alive)

    def test_what_it_holds(self) -> None:
        with Controller(Sign(SAMPLE)) as controller:
            if controller.sign.library.version < 2:
                self.assertRaises(latsefur.WrongLibrary, controller.colours)
                self.skipTest("the library has version 1")
            stored(controller, "A[np]I")
            self.assertEqual(controller.table(), latsefur.Table(bytes=4, slots=1, max_string=64, permanents=1))
            self.assertEqual(controller.font(1), latsefur.Font(6699, 1, 3, 1, 1))
            self.assertRaises(latsefur.NoFont, controller.font, 9)
            controller.set_default(Default.PAGE_ON, 10)
            self.assertEqual(controller.check("A[np]I"), Verdict(pages=2, cycle=20))
            self.assertFalse(controller.check("B"))
            sign = controller.sign
            self.assertEqual(controller.colours_of_page("A[np]I", 1), sign.colours("A[np]I", 30))
            self.assertEqual(controller.plane_of_page("A[np]I", 1), sign.plane("A[np]I", 1, 30))
            self.assertRaises(latsefur.NoPage, controller.plane_of_page, "A", 1)
            stored(controller, "A")
            controller.activate(ActivationCode(3, 1, message_crc("A"), duration=1))
            self.assertEqual(controller.colours(), latsefur.Display(Shown(0, 0), sign.colours("A")))
            self.assertEqual((controller.next_change(), controller.next_change(7)), (600, 7))

    def test_a_state_is_restored(self) -> None:
        """A controller that takes what another has saved answers as that one would, and refuses anything else."""
        sign = Sign(SAMPLE)
        with Controller(sign) as controller, Controller(sign) as other:
            if sign.library.version < 3:
                self.assertRaises(latsefur.WrongLibrary, controller.save)
                self.skipTest("the library is older than version 3")
            stored(controller, "A")
            crc, permanent = controller.message(Memory.CHANGEABLE, 1).crc, controller.message(Memory.PERMANENT, 1).crc
            self.assertTrue(controller.set_end(EndCode(Memory.PERMANENT, 1, permanent)))
            self.assertTrue(controller.activate(ActivationCode(Memory.CHANGEABLE, 1, crc, duration=1)))
            controller.tick(37)
            saved, revision = controller.save(), controller.revision()
            controller.tick(1)
            self.assertEqual(controller.revision(), revision)
            self.assertNotEqual(controller.save(), saved)
            other.restore(saved)
            controller.restore(bytearray(saved))
            self.assertEqual(controller.revision(), revision + 1)
            for held in (controller, other):
                self.assertEqual(held.save(), saved)
                self.assertEqual(held.end(), EndCode(Memory.PERMANENT, 1, permanent))
                self.assertEqual(held.report().remaining, 1)
            for tenths in (1, 500, 100):
                self.assertEqual(str(controller.tick(tenths)), str(other.tick(tenths)))
                self.assertEqual((controller.frame(), controller.report()), (other.frame(), other.report()))
            kept = other.save()
            spoiled = saved[:-1] + bytes([saved[-1] ^ 1])
            for broken, why in ((saved[:-1], "LENGTH"), (b"", "LENGTH"), (b"\2" + saved[1:], "VERSION"), (spoiled, "CHECKSUM")):
                with self.assertRaises(latsefur.StateRefused) as refused:
                    other.restore(broken)
                self.assertEqual(refused.exception.why, latsefur.StateFault[why])
                self.assertEqual(other.save(), kept)
            self.assertRaises(TypeError, other.restore, "saved")
        self.assertRaises(latsefur.NoController, other.save)

    def test_threads(self) -> None:
        with Controller(Sign(SAMPLE)) as controller:
            stored(controller, "A")
            controller.activate(A_CODE)

            def pass_time() -> None:
                for _ in range(500):
                    controller.tick(1)
                    controller.frame()

            threads = [threading.Thread(target=pass_time) for _ in range(4)]
            for thread in threads:
                thread.start()
            for thread in threads:
                thread.join()
            self.assertEqual(controller.report().clock, 2000)

    def test_codes_are_taken_as_octets_too(self) -> None:
        with Controller(Sign(SAMPLE)) as controller:
            stored(controller, "A")
            for kind in (bytes, bytearray, memoryview):
                self.assertEqual(controller.activate(kind(bytes(A_CODE))), Activated())
                self.assertEqual(controller.set_end(kind(bytes(EndCode(Memory.BLANK, 1, 0)))), Done())

    def test_a_lone_text_is_no_script(self) -> None:
        """Its characters would be lines, and those of `##` comments."""
        with Controller(Sign(SAMPLE)) as controller:
            for text in ("##", "", "work", b"work", bytearray(b"work"), memoryview(b"work")):
                self.assertRaises(TypeError, list, latsefur.script.run(controller, text))

    def test_bad_lines(self) -> None:
        for line in ("tick", "tick x", "nothing", "work ", "activate 00", "frame 256", "owner 3 1 4", "default none 1", "request 3 1"):
            with Controller(Sign(SAMPLE)) as controller, self.subTest(line):
                replies = latsefur.script.run(controller, ["# a note", "", "work", line])
                self.assertEqual(str(next(replies)), "idle")
                with self.assertRaises(latsefur.script.BadLine) as raised:
                    next(replies)
                self.assertEqual(raised.exception.number, 4)


class Libraries(unittest.TestCase):
    def test_it_is_found(self) -> None:
        path = latsefur.load().path
        self.assertIs(latsefur.load(path), latsefur.load())
        self.assertIs(Sign(SAMPLE, library=path).library, latsefur.load())
        self.assertIs(Sign(SAMPLE, library=latsefur.load(path)).library, latsefur.load())
        self.assertEqual(pickle.loads(pickle.dumps(Sign(SAMPLE, str(path)))).library.path, path)
        with mock.patch.dict(os.environ, {"LATSEFUR_LIBRARY": str(path)}):
            self.assertIs(latsefur.load(), latsefur.load(path))

    def test_it_is_missing_or_wrong(self) -> None:
        with mock.patch.dict(os.environ, {"LATSEFUR_LIBRARY": "/nowhere/liblatsefur.so"}):
            self.assertRaises(latsefur.LibraryNotFound, Sign, SAMPLE)
        with tempfile.TemporaryDirectory() as folder:
            text = Path(folder, "liblatsefur.so")
            text.write_text("no library")
            self.assertRaises(latsefur.WrongLibrary, latsefur.load, text)
        python = next((path for path in map(Path, re.findall(r"/\S*libm\.so\S*", Path("/proc/self/maps").read_text()))), None)
        if python:
            self.assertRaises(latsefur.WrongLibrary, latsefur.load, python)

    @needs_program
    def test_the_programs_of_the_readme(self) -> None:
        readme = (TOP / "hosts/python/README.md").read_text()
        subprocess.run([PROGRAM, "--help"], stdout=subprocess.DEVNULL, check=True)
        programs = re.findall(r"\n\n((?:    .*\n|\n(?=    ))+)", readme)
        written = []
        for program in programs:
            code = "".join(line[4:] if line.strip() else line for line in program.splitlines(keepends=True))
            if code.startswith("from latsefur"):
                told = io.StringIO()
                program_named = mock.patch.dict(os.environ, {"LATSEFUR_SIGNCTL": str(PROGRAM)})
                with contextlib.redirect_stdout(told), moved(TOP), program_named:
                    exec(code, {})
                written.append(told.getvalue().splitlines())
        self.assertEqual(written, [
            ["ok 1", "error 5 8"], ["worked 1 4 2 2 0", "ticked 1 ended"], ["the sign replies 'not shown 4': the message isn't valid"],
            ["1 20 ticked page 1 phase 0"],
        ])
        for line in (line for lines in written for line in lines):
            self.assertIn(f"`{line}`", readme)

    def test_the_header(self) -> None:
        """The calls are those that the header declares, and so are the numbers of the outcomes."""
        header = (TOP / "hosts/latsefur.h").read_text()
        declared = set(re.findall(r"^(?:uint8_t|uint16_t|uint32_t|void) latsefur_(\w+)\(", header, re.M))
        known = {*latsefur.library.EXPORTS, *latsefur.library.OTHERS}
        self.assertEqual(known - declared, set())
        self.assertEqual(declared - known - {*latsefur.library.LATER, "held_sign"}, set())
        written = re.findall(r"LATSEFUR_(\w+) = (\d+),? +/\* (?!.*REPLY)", header)
        numbers = {int(number): name for name, number in written if not name.startswith(("REPLY", "WHY"))}
        for number, name in numbers.items():
            if number > 1:
                kind = latsefur.errors.NAMED[number].__name__.lower()
                self.assertIn(name.replace("_", "").lower(), {kind, kind.removeprefix("text")})

    def test_it_needs_no_other_package(self) -> None:
        asked = [sys.executable, "-S", "-c", "import latsefur, sys; print('numpy' in sys.modules)"]
        ran = subprocess.run(asked, cwd=TOP / "hosts/python", capture_output=True, text=True)
        self.assertEqual((ran.stdout, ran.stderr), ("False\n", ""))


@contextlib.contextmanager
def moved(folder: Path):  # type: ignore[no-untyped-def]
    before = os.getcwd()
    os.chdir(folder)
    try:
        yield
    finally:
        os.chdir(before)


if __name__ == "__main__":
    unittest.main()
