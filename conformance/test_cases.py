"""The form of the conformance cases, on the smallest sign, and the reach of their families."""

from __future__ import annotations

import re
import unittest

from answers import SecondReading, differences, fill, run_lengths
from cases import script_cases, string_cases, written
from cases_strings import bodies_of_table
from rules import OWN, STANDARD
from second_multi import TAG_TABLE, meaning, read_items


class Cases(unittest.TestCase):
    def test_run_lengths(self) -> None:
        self.assertEqual(run_lengths([0, 0, 0, 1, 9, 9]), "3ab2j")
        self.assertEqual(run_lengths([]), "")

    def test_cases_of_the_smallest_sign(self) -> None:
        cases = [case for _, case in zip(range(150), string_cases("pinhole"))]
        cases += [case for _, case in zip(range(50), script_cases("pinhole"))]
        answered = list(fill(SecondReading(), map(written, cases)))
        self.assertEqual([case["id"] for case in answered], [case["id"] for case in cases])
        self.assertEqual(len({case["id"] for case in cases}), len(cases))
        for case in answered:
            self.assertTrue("replies" in case or ("error" in case) != ("pages" in case))
            self.assertTrue(STANDARD.keys() >= set(case["standard"]))
            self.assertTrue(OWN.keys() >= set(case["own"]))
            self.assertEqual("clocks" in case, "pages" in case)
            for frame in case.get("frames", []):
                self.assertTrue(re.fullmatch(r"[0-9]*[ab]", frame.get("pixels", "a")))

    def test_a_changed_answer_is_a_difference(self) -> None:
        case = {"id": "x", "error": [5, 0]}
        self.assertEqual(differences(case, case), [])
        self.assertEqual(differences(case, case | {"error": [5, 1]}), ["error"])
        self.assertEqual(differences(case, {"id": "x", "pages": 1}), ["error", "pages"])

    def test_every_tag_has_values_and_faults(self) -> None:
        kinds: dict[bytes, set[str]] = {form.name: set() for form in TAG_TABLE}
        for body in bodies_of_table():
            items, _ = read_items(f"[{body}]".encode("latin-1"))
            for name, found in kinds.items():
                if items and body[: len(name)].lower().encode("latin-1") == name:
                    found.add(meaning(items[0]).kind)
        for name, found in kinds.items():
            self.assertIn("bad value", found, name)
            self.assertGreater(len(found), 1, name)


if __name__ == "__main__":
    unittest.main()
