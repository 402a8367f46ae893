"""Each error of the package goes to another process as it is: it is pickled and copied, with what it says and has."""
from __future__ import annotations

import copy
import pickle
import unittest
from http import HTTPStatus
from importlib import import_module
from pkgutil import walk_packages

import latsefur
from latsefur import (
    ActivateError, BadLine, CommandRefused, LatsefurError, NotAnOctet, NotShown, StateFault, StateRefused, UnexpectedReply
)
from latsefur.preview.server import Refused

# The errors that are made of something else than what they say.
MADE: dict[type[Exception], Exception] = {
    NotAnOctet: NotAnOctet("A\u2190B", 1), UnexpectedReply: UnexpectedReply("request 3 2 6", "refused 2"), BadLine: BadLine(4),
    CommandRefused: CommandRefused(NotShown(ActivateError.PRIORITY)), StateRefused: StateRefused(StateFault.CHECKSUM),
    Refused: Refused(HTTPStatus.CONFLICT, "what it says"),
}


def errors() -> list[type[Exception]]:
    """The errors of all modules of the package."""
    found = [it.name for it in walk_packages(latsefur.__path__, "latsefur.")]
    # the library lies among the modules of an installed package, and is none
    names = [name for name in found if name != "latsefur.liblatsefur"]
    known = [value for name in names for value in vars(import_module(name)).values() if isinstance(value, type)]
    own = {kind for kind in known if issubclass(kind, Exception) and kind.__module__ in names}
    return sorted(own, key=lambda kind: kind.__name__)


class Errors(unittest.TestCase):
    def test_each_is_pickled_and_copied(self) -> None:
        kinds = errors()
        self.assertGreater(len(kinds), 23)
        for kind in kinds:
            with self.subTest(kind.__name__):
                fault = MADE.get(kind) or kind("what it says")
                for number in range(pickle.HIGHEST_PROTOCOL + 1):
                    self.same(fault, pickle.loads(pickle.dumps(fault, number)))
                self.same(fault, copy.copy(fault))
                self.same(fault, copy.deepcopy(fault))

    def same(self, fault: Exception, other: Exception) -> None:
        self.assertIsNot(fault, other)
        self.assertEqual((type(fault), str(fault), vars(fault)), (type(other), str(other), vars(other)))

    def test_each_has_a_name_and_a_base_in_the_package(self) -> None:
        """Those of the page in the browser don't leave it."""
        for kind in errors():
            if not kind.__module__.startswith("latsefur.preview"):
                self.assertIs(getattr(latsefur, kind.__name__), kind)
                self.assertIn(kind.__name__, latsefur.__all__)
                self.assertTrue(issubclass(kind, LatsefurError), kind)

    def test_a_reply_that_is_not_known_is_told(self) -> None:
        """A later program may answer numbers that this package has no names for."""
        for said in ("refused 99", "refused 9", "refused 1 2", "not shown 99", "worked 1 4", "worked 1 9 2 2 0", "worked", "what?"):
            fault = UnexpectedReply("request 3 1 6", said)
            self.assertEqual((fault.reply, fault.said), (None, said))
            self.assertIn(repr(said), str(fault))


if __name__ == "__main__":
    unittest.main()
