"""The page's server: its answers are those of the library, and it answers nothing else."""

from __future__ import annotations

import contextlib
import io
import json
import re
import shutil
import subprocess
import tempfile
import threading
import unittest
from http.client import HTTPConnection
from pathlib import Path
from typing import Any, Iterator, Optional
from unittest import mock

from latsefur import MultiError, NoMemory, Sign, preview
from latsefur.preview.answers import Answers, default_font, name_of, written
from latsefur.preview.reasons import Reasons
from latsefur.preview.server import ADDRESS, FILES, MOST_BODY, OneSign, Page, Server, hosts_of
from latsefur.preview.tags import font_at
from latsefur.preview.templates import templates

from tests.places import SIGNS, sign_with

SIGN = Sign.from_file(SIGNS / "sample.toml")
JSON = {"Content-Type": "application/json"}
PREVIEW = Path(preview.__file__).parent
SCRIPTS = ("state.js", "panels.js", "helps.js", "page.js")


def page_of(*names: str) -> Page:
    """The page of these signs of signs/."""
    signs = {name: Sign.from_file(SIGNS / f"{name}.toml") for name in names}
    return Page(
        [OneSign(name, Answers(sign), Reasons(sign)) for name, sign in signs.items()],
        templates(),
    )


@contextlib.contextmanager
def served(page: Page) -> Iterator[str]:
    """The address at which a page is served for a while."""
    server = Server(page)
    threading.Thread(target=server.serve_forever, daemon=True).start()
    try:
        yield server.url
    finally:
        server.shutdown()
        server.server_close()


class Served(unittest.TestCase):
    server: Server

    @classmethod
    def setUpClass(cls) -> None:
        page = Page([OneSign("sample", Answers(SIGN), Reasons(SIGN))], ["A", "B", "A[np]I"])
        cls.server = Server(page)
        threading.Thread(target=cls.server.serve_forever, daemon=True).start()

    @classmethod
    def tearDownClass(cls) -> None:
        cls.server.shutdown()
        cls.server.server_close()

    def ask(
        self, method: str, path: str, body: Optional[bytes] = None, **headers: str
    ) -> tuple[int, dict[str, str], bytes]:
        named = {name.replace("_", "-"): value for name, value in headers.items()}
        connection = HTTPConnection(ADDRESS, self.server.server_port, timeout=20)
        try:
            connection.request(method, path, body, named)
            reply = connection.getresponse()
            return reply.status, dict(reply.getheaders()), reply.read()
        finally:
            connection.close()

    def told(self, path: str, **asked: Any) -> Any:
        status, _, octets = self.ask("POST", path, json.dumps(asked).encode(), **JSON)
        self.assertEqual(status, 200, octets)
        return json.loads(octets)

    def message(self, text: str, view: Any = None, **words: int) -> Any:
        return self.told(
            "/judge", text=text, view=view, **{"caret": 0, "begin": 0, "tenths": 1, **words}
        )

    def test_its_files_and_no_other(self) -> None:
        for path, (name, kind) in FILES.items():
            status, headers, octets = self.ask("GET", path)
            self.assertEqual((status, headers["Content-Type"]), (200, kind))
            self.assertEqual(octets, self.server.files[name])
            self.assertIn("default-src 'none'", headers["Content-Security-Policy"])
        for path in (
            "/page.html",
            "/server.py",
            "/../pyproject.toml",
            "//etc/passwd",
            "/?",
            "/%2e",
        ):
            self.assertEqual(self.ask("GET", path)[0], 404, path)
        self.assertEqual(self.ask("POST", "/other", b"{}", **JSON)[0], 404)
        self.assertEqual(self.ask("PUT", "/", b"")[0], 501)

    def test_one_host_and_one_origin(self) -> None:
        self.assertEqual(self.server.server_address[0], "127.0.0.1")
        own = f"localhost:{self.server.server_port}"
        self.assertEqual(self.ask("GET", "/sign", Host=own)[0], 200)
        for host in ("example.org", f"example.org:{self.server.server_port}", "127.0.0.1", ""):
            self.assertEqual(self.ask("GET", "/sign", Host=host)[0], 403, host)
        body = b'{"font":1}'
        self.assertEqual(self.ask("POST", "/font", body, **JSON, Origin=f"http://{own}")[0], 200)
        for origin in ("http://example.org", "null", f"https://{own}", "http://127.0.0.1"):
            status = self.ask("POST", "/font", body, **JSON, Origin=origin)[0]
            self.assertEqual(status, 403, origin)

    def test_a_browser_leaves_out_port_80(self) -> None:
        own = self.server.server_port
        self.assertEqual(hosts_of(own), [f"127.0.0.1:{own}", f"localhost:{own}"])
        self.assertEqual(hosts_of(80), ["127.0.0.1:80", "localhost:80", "127.0.0.1", "localhost"])

    def test_a_page_that_goes_away_is_no_fault(self) -> None:
        for fault, is_told in ((ConnectionResetError(), False), (ValueError("x"), True)):
            with contextlib.redirect_stderr(io.StringIO()) as said:
                try:
                    raise fault
                except (ConnectionError, ValueError):
                    self.server.handle_error(None, (ADDRESS, 1))
            self.assertEqual(bool(said.getvalue()), is_told)

    def test_sizes_and_kinds(self) -> None:
        for headers in ({}, {"Content-Type": "text/plain"}, {**JSON, "Transfer-Encoding": "x"}):
            self.assertEqual(self.ask("POST", "/font", b'{"font":1}', **headers)[0], 415)
        self.assertEqual(self.ask("POST", "/font", bytes(MOST_BODY + 1), **JSON)[0], 413)
        self.assertEqual(self.ask("POST", "/font", b"", **JSON, Content_Length="9" * 40)[0], 413)
        self.assertEqual(self.ask("POST", "/font", b"", **JSON, Content_Length="-1")[0], 411)
        bodies = [b"", b"[]", b"{", b"\xff", b"[" * 20000, b'{"font":-1}', b'{"font":256}']
        for body in [*bodies, b'{"font":true}', b'{"font":1.5}', b'{"font":"1"}', b"{}"]:
            self.assertEqual(self.ask("POST", "/font", body, **JSON)[0], 400, body)
        for asked in (
            {"text": 1},
            {"view": "x"},
            {"caret": -1},
            {"begin": 2**53},
            {"tenths": -1},
        ):
            body = {"text": "A", "view": None, "caret": 0, "begin": 0, "tenths": 1, **asked}
            status = self.ask("POST", "/judge", json.dumps(body).encode(), **JSON)[0]
            self.assertEqual(status, 400, asked)

    def test_verdicts(self) -> None:
        for text in ("A", "B", "A[np]I", "AAAA", "[[B", "", "\xe9", "A\n", "[nl"):
            told, verdict = self.message(text), SIGN.check(text)
            if verdict.error is None:
                known = {"accepted": True, "pages": verdict.pages, "cycle": verdict.cycle}
            else:
                code = int(verdict.error)
                known = {"accepted": False, "code": code, "at": verdict.at}
            self.assertEqual({name: told.get(name) for name in known}, known, text)
        self.assertEqual(self.message("AAAA")["name"], "textTooBig")
        told = self.message("\U0001f6a7\u2190")
        self.assertEqual((told["accepted"], told["at"]), (False, 0))
        self.assertEqual(self.message("A\u2190")["at"], 1)
        self.assertEqual(self.message("A" * 4097)["name"], "too long")

    def test_what_more_text_can_mend(self) -> None:
        for text in ("[", "[n", "A[nl", "A[np]A[", "[hc41", "]", "A]", "[[A]", "[F", "[/", "[tr1,"):
            self.assertTrue(self.message(text)["unfinished"], text)
        # No name that the sign takes begins so.
        for text in ("[x", "[nx", "[c1", "[ ", "[m", "[cb", "[\xe9"):
            self.assertFalse(self.message(text)["unfinished"], text)
        for text in ("[x]", "[]", "A]B", "[n[", "B[", "AAAA[", "]]]A", "A[np]A[np]A[", "\u2190["):
            self.assertFalse(self.message(text).get("unfinished"), text)
        # From key to key of a message that is accepted in the end, nothing else is refused.
        whole = "A[nl][fl]A[/fl]"
        for length in range(len(whole) + 1):
            told = self.message(whole[:length])
            self.assertTrue(told["accepted"] or told["unfinished"], whole[:length])

    def test_what_plays(self) -> None:
        for text in ("A[np]I", "[pt3o2]A[np][fl]I[/fl]", "[fl]A[/fl]"):
            for begin in (0, 7):
                told = self.message(text, begin=begin, tenths=90)
                frames = {time: (page, place) for time, page, place in told["frames"]}
                self.assertEqual(told["until"], begin + 90)
                page = place = None
                for time in range(begin, begin + 90):
                    page, place = frames.get(time, (page, place))
                    shown, picture = SIGN.shown(text, time), SIGN.colours(text, time)
                    self.assertEqual(page, shown.page if shown else None)
                    self.assertEqual(told["pictures"][place], "".join(map(str, picture.octets)))
        self.assertEqual(self.message("A", begin=2**53 - 1)["until"], 2**53)

    def test_pages(self) -> None:
        text = "A[np][fl]I[/fl]"
        for view, page in ((0, 0), (1, 1), (9, 1)):
            told = self.message(text, view, begin=6)
            picture = SIGN.colours_of_page(text, page, 6)
            self.assertEqual((told["page"], told["frames"][0][1]), (page, page))
            self.assertEqual(told["pictures"], ["".join(map(str, picture.octets))])
        places = [
            self.message(text, "caret", caret=caret)["page"] for caret in range(len(text) + 1)
        ]
        self.assertEqual(places, [0] * 5 + [1] * 11)

    def test_the_sign(self) -> None:
        facts = json.loads(self.ask("GET", "/sign")[2])
        self.assertEqual(facts["stamp"], self.message("A")["stamp"])
        self.assertNotEqual(facts["stamp"], Answers(Sign(SIGN.octets + b"\n")).stamp)
        self.assertEqual((facts["width"], facts["height"], facts["pages"]), (12, 7, 2))
        self.assertEqual((facts["fonts"], facts["font"], facts["others"]), ([1, 2], 1, []))
        offered = {known["text"]: known["picture"] for known in facts["templates"]}
        drawn = {
            text: "".join(map(str, SIGN.colours(text).octets)) for text in ("A", "A[np]I")
        }
        self.assertEqual(offered, drawn)
        characters = self.told("/font", font=1)["characters"]
        self.assertEqual([known["number"] for known in characters], [32, 65, 73, 91, 93])
        spelled = [known["text"] for known in characters]
        self.assertEqual(spelled, [" ", "A", "I", "[hc5b]", "[hc5d]"])
        self.assertEqual(characters[1]["rows"], ["010", "111", "101"])
        for known in characters:
            self.assertTrue(SIGN.check(known["text"]))
        for font in (0, 3, 255):
            self.assertEqual(self.told("/font", font=font)["characters"], [])

    def test_words_and_films(self) -> None:
        status, headers, octets = self.ask("POST", "/gif", b'{"text":"A[np]I"}', **JSON)
        self.assertEqual((status, headers["Content-Type"]), (200, "image/gif"))
        self.assertEqual(octets, SIGN.film("A[np]I", self.server.page.scale()))
        for text in ("B", "A\nA", "\u2190", "A" * 4097):
            body = json.dumps({"text": text}).encode()
            status, _, octets = self.ask("POST", "/gif", body, **JSON)
            self.assertEqual(status, 409)
            self.assertTrue(json.loads(octets)["said"])
        self.assertIsNone(self.message("\u2190")["words"])
        for text in ("B", "A\nA", "A\r", "A" * 4097):
            self.assertTrue(self.message(text)["words"]["reason"])
        words = self.message("B")["words"]
        self.assertEqual(words["reason"], SIGN.explain("B")["reason"])
        self.assertEqual(self.message("A")["words"], {"reason": "", "warnings": [], "fixes": []})
        self.assertEqual(self.message("B", begin=3)["words"], words)

    def test_fixes(self) -> None:
        """They are those of the library, and the sign takes each of them."""
        for text in ("a", "AAAA", "A[x]I", "B"):
            fixes, known = self.message(text)["words"]["fixes"], SIGN.explain(text)["fixes"]
            self.assertEqual(
                fixes, [{key: fix[key] for key in ("text", "edits")} for fix in known], text
            )
            self.assertTrue(all(self.message(fix["text"])["accepted"] for fix in fixes), text)
        self.assertTrue(self.message("a")["words"]["fixes"])

    def test_a_file_in_png(self) -> None:
        text = "A[np][fl]I[/fl]"
        pages = [
            ({"view": None, "begin": 31}, SIGN.colours(text, 31)),
            ({"view": 1, "begin": 6}, SIGN.colours_of_page(text, 1, 6)),
        ]
        for asked, picture in pages:
            body = json.dumps({"text": text, **asked}).encode()
            status, headers, octets = self.ask("POST", "/png", body, **JSON)
            self.assertEqual((status, headers["Content-Type"]), (200, "image/png"))
            self.assertEqual(octets, picture.png(16))
        for asked in ({"text": "B"}, {"text": "\u2190"}, {"text": "A", "view": 1}):
            body = json.dumps({"view": None, "begin": 0, **asked}).encode()
            status, _, octets = self.ask("POST", "/png", body, **JSON)
            self.assertEqual((status, bool(json.loads(octets)["said"])), (409, True), asked)
        self.assertEqual(self.ask("POST", "/png", b'{"text":"A"}', **JSON)[0], 400)

    def test_a_strip_of_pages(self) -> None:
        text = "A[np][fl]I[/fl]"
        drawn = ["".join(map(str, picture.octets)) for picture in SIGN.pages(text)]
        asked = {"text": text, "view": None, "caret": 0, "begin": 0, "tenths": 1}
        self.assertEqual(self.told("/judge", **asked, strip=True)["strip"], drawn)
        self.assertEqual(self.told("/judge", **asked)["strip"], [])
        for other in ("A", "B", "", "\u2190"):
            told = self.told("/judge", **{**asked, "text": other}, strip=True)
            self.assertEqual(told["strip"], [], other)

    def test_small_signs_have_a_limit(self) -> None:
        answers = Answers(SIGN)
        with mock.patch("latsefur.preview.answers.MOST_SMALL", 84):
            self.assertEqual(len(answers.strip("A[np]I", 2)), 1)
            self.assertEqual([bool(it) for it in answers.small(["A", "I"])], [True, False])

    def test_the_font_at_the_caret(self) -> None:
        fonts = [self.message("A[fo2]I[fo]A[fo9]", caret=caret)["font"] for caret in (1, 6, 11, 17)]
        self.assertEqual(fonts, [1, 2, 1, 1])

    def test_names_as_the_standard_writes_them(self) -> None:
        names = [name_of(error) for error in MultiError]
        wanted = "other none unsupportedTag unsupportedTagValue textTooBig fontNotDefined"
        wanted += " characterNotDefined fieldDeviceNotExist fieldDeviceError flashRegionError"
        wanted += " tagConflict tooManyPages fontVersionID graphicID graphicNotDefined"
        self.assertEqual(names, wanted.split())
        self.assertEqual(
            [written(number) for number in (65, 91, 233, 127, 9888)],
            ["A", "[hc5b]", "[hce9]", "[hc7f]", "[hc26a0]"],
        )

    def test_templates(self) -> None:
        with tempfile.TemporaryDirectory() as folder:
            path = Path(folder, "templates")
            path.write_bytes(b"# mine\n\nA[np]I\r\n\xe9\n")
            self.assertEqual(templates(path), ["A[np]I", "\xe9"])
        portable = Sign.from_file(SIGNS / "portable.toml")
        self.assertTrue(any(portable.check_all(templates())))


class Telling(Reasons):
    """Says of each text what it is given to say."""

    def __init__(self, records: dict[bytes, Optional[dict[str, Any]]]) -> None:
        super().__init__(SIGN)
        self.records = records

    def explained(self, text: bytes) -> Optional[dict[str, Any]]:
        return self.records.get(text)


class OneAnswer(unittest.TestCase):
    """A verdict comes with its own words, or with none."""

    def words(self, text: str, record: Optional[dict[str, Any]]) -> Any:
        page = Page([OneSign("sample", Answers(SIGN), Telling({text.encode(): record}))], [])
        asked = {"text": text, "view": None, "caret": 0, "begin": 0, "tenths": 1}
        told = page.judge(asked)
        self.assertEqual(told["accepted"], SIGN.check(text).accepted)
        self.assertEqual(told["stamp"], page.facts()["stamp"])
        return told["words"]

    def test_words_of_the_verdict(self) -> None:
        warnings = [{"octet": 1, "text": "a space"}]
        accepted = {"outcome": "accepted", "pages": [], "warnings": warnings}
        told = {"reason": "", "warnings": warnings, "fixes": []}
        self.assertEqual(self.words("A ", accepted), told)
        edits = [{"from": 1, "to": 2, "text": "A", "octets": None}]
        fixes = [
            {"kind": "other letters", "text": "AA", "octets": None, "edits": edits},
            # What isn't UTF-8 can't be written on the page.
            {"kind": "other letters", "text": None, "octets": "41ff", "edits": edits},
        ]
        refused = {"outcome": "refused", "code": 7, "octet": 1, "reason": "no B", "fixes": fixes}
        told = {"reason": "no B", "warnings": [], "fixes": [{"text": "AA", "edits": edits}]}
        self.assertEqual(self.words("AB", refused), told)

    def test_no_words_of_another_verdict(self) -> None:
        refused = {"outcome": "refused", "code": 7, "octet": 1, "reason": "no B"}
        for other in (
            None,
            {},
            {"outcome": "accepted", "warnings": []},
            {**refused, "octet": 0},
            {**refused, "code": 5},
        ):
            self.assertIsNone(self.words("AB", other), other)
        self.assertIsNone(self.words("A", refused))


class SeveralSigns(unittest.TestCase):
    """Of a text each sign says its own; what helps to write is what all of them take."""

    def test_each_sign_judges(self) -> None:
        page = page_of("full-matrix", "portable")
        asked = {"view": None, "caret": 0, "begin": 30, "tenths": 9}
        for text in ("ROAD[np]WORK", "CONGESTION", "[cf3]A", "[x]", "", "\u2190"):
            told = page.judge({"text": text, **asked})
            own, stamps = {}, []
            for name in ("full-matrix", "portable"):
                alone = page_of(name).judge({"text": text, **asked})
                stamps.append(alone.pop("stamp"))
                own[name] = {key: alone[key] for key in {*alone} - {"font", "strip", "others"}}
            self.assertEqual(told["others"], [own["portable"]], text)
            self.assertEqual({key: told[key] for key in own["full-matrix"]}, own["full-matrix"])
            self.assertEqual(told["stamp"], "-".join(stamps))

    def test_what_all_take(self) -> None:
        matrix, portable, both = (
            page_of(*names).facts()
            for names in (("full-matrix",), ("portable",), ("portable", "full-matrix"))
        )
        for name, key in (("templates", "text"), ("tags", "open")):
            known = [[it[key] for it in facts[name]] for facts in (matrix, portable, both)]
            self.assertEqual(known[2], [it for it in known[1] if it in known[0]])
            self.assertTrue(known[2])
        (other,) = both["others"]
        facts = (other["name"], other["width"], other["height"], other["classic"])
        self.assertEqual(facts, ("full-matrix", 144, 48, True))


class Tags(unittest.TestCase):
    def test_what_a_sign_has(self) -> None:
        groups = {}
        for name in ("full-matrix", "portable", "sample"):
            sign = Sign.from_file(SIGNS / f"{name}.toml")
            tags = Answers(sign).tags()
            self.assertTrue(all(sign.check(tag.message()) for tag in tags))
            groups[name] = {group: [] for group in dict.fromkeys(tag.group for tag in tags)}
            for tag in tags:
                groups[name][tag.group].append(tag.name)
        self.assertEqual(
            list(groups["full-matrix"]),
            ["", "Colour", "Font", "Justify line", "Justify page", "Page time"],
        )
        self.assertEqual(len(groups["full-matrix"]["Colour"]), 10)
        self.assertEqual(groups["full-matrix"]["Font"], ["font 1", "font 2"])
        self.assertEqual(groups["full-matrix"][""], ["New line", "New page", "Flash"])
        self.assertNotIn("Colour", groups["portable"])
        self.assertNotIn("Font", groups["portable"])
        one = sign_with(SIGNS / "portable.toml", "max_pages = 1")
        names = {tag.name for tag in Answers(Sign(one.encode())).tags()}
        self.assertFalse(names & {"New page", "2 s"})

    def test_the_last_font_before_the_caret(self) -> None:
        text = b"A[[fo2][fo3]B[FO12,ab]C[fo]D"
        found = [font_at(text, caret) for caret in (0, 7, 11, 12, 21, 22, 26, 27, 99)]
        self.assertEqual(found, [None, None, None, 3, 3, 12, 12, None, None])

    def test_the_default_font(self) -> None:
        other = sign_with(SIGNS / "full-matrix.toml", "font = 2 -> font = 1")
        for text, font in (((SIGNS / "full-matrix.toml").read_text(), 2), (other, 1)):
            sign = Sign(text.encode())
            self.assertEqual(default_font(sign, [1, 2]), font)
        # A table that has a fault isn't asked.
        wrong = Sign(sign_with(SIGNS / "sample.toml", "slots = 0").encode())
        self.assertEqual((default_font(wrong, [7]), default_font(wrong, [])), (7, None))


class OnThePage(unittest.TestCase):
    def run_node(self, *words: object) -> None:
        node = shutil.which("node")
        if not node:
            self.skipTest("node isn't there")
        told = list(map(str, (node, *words)))
        ran = subprocess.run(told, capture_output=True, text=True, timeout=120)
        self.assertEqual(ran.returncode, 0, ran.stdout + ran.stderr)

    def test_what_it_says(self) -> None:
        """What the page says while answers are late, out of order or lost: tests/state.js."""
        self.run_node(Path(__file__).with_name("state.js"), PREVIEW / "state.js")

    def test_what_it_does(self) -> None:
        """What its buttons and fields do, with the answers of servers: tests/page.js."""
        with served(page_of("full-matrix")) as one:
            with served(page_of("full-matrix", "portable")) as several:
                self.run_node(Path(__file__).with_name("page.js"), PREVIEW, one, several)

    def test_its_elements(self) -> None:
        """Each element that the page's scripts or another element names is there, once."""
        page = (PREVIEW / "page.html").read_text()
        there = re.findall(r'\bid="([\w-]+)"', page)
        self.assertEqual(len(there), len(set(there)))
        self.assertEqual(tuple(re.findall(r'<script src="(.*?)" defer>', page)), SCRIPTS)
        named = " ".join(re.findall(r'(?:describedby|labelledby|for)="([^"]+)"', page)).split()
        scripts = "".join((PREVIEW / name).read_text() for name in SCRIPTS)
        used = re.findall(r'\bbyId\("([\w-]+)"\)', scripts)
        self.assertTrue(named and used)
        self.assertLessEqual({*named, *used}, set(there))


# What stands on what, by the names of their colours in page.css, and the least contrast of each: of
# text 4.5, and of an edge, or of what shows the focus, 3.
TEXTS = {
    "ground": ("text", "quiet", "amber", "wrong", "right"),
    "panel": ("text", "quiet"),
    "button": ("text", "off"),
    "slip": ("text",),
    "sign": ("sign-text", "sign-amber"),
}
EDGES = {"ground": ("edge", "amber"), "panel": ("edge", "amber"), "button": ("amber",)}


class Colours(unittest.TestCase):
    def test_contrast(self) -> None:
        """In light and dark all text has a contrast of at least 4.5, and each edge one of 3."""
        dark, light = schemes((PREVIEW / "page.css").read_text())
        self.assertEqual((len(dark), set(light) - set(dark)), (14, set()))
        for name, colours in (("dark", dark), ("light", {**dark, **light})):
            for table, least in ((TEXTS, 4.5), (EDGES, 3)):
                for ground, texts in table.items():
                    for text in texts:
                        found = contrast(colours[ground], colours[text])
                        self.assertGreaterEqual(found, least, f"{text} on {ground}, {name}")

    def test_the_focus_is_seen(self) -> None:
        style = (PREVIEW / "page.css").read_text()
        self.assertIn(":focus-visible {\n  outline: 2px solid var(--amber);", style)
        self.assertNotRegex(style, r"outline: *(none|0)")


def schemes(style: str) -> list[dict[str, str]]:
    """The colours of a style, for a dark room and for a light one."""
    blocks = re.findall(r":root \{(.*?)\}", style, re.DOTALL)
    return [dict(re.findall(r"--([\w-]+): (#\w+);", block)) for block in blocks]


def contrast(one: str, other: str) -> float:
    """The contrast of two colours, 1 to 21, as the guidelines for accessible pages define it."""
    dim, bright = sorted(map(luminance, (one, other)))
    return (bright + 0.05) / (dim + 0.05)


def luminance(colour: str) -> float:
    """How bright a colour such as #fff or #0b0c0e is, 0 to 1."""
    digits = colour[1:] if len(colour) == 7 else "".join(2 * digit for digit in colour[1:])
    shares = [int(digits[at : at + 2], 16) / 255 for at in (0, 2, 4)]
    red, green, blue = (
        share / 12.92 if share <= 0.03928 else ((share + 0.055) / 1.055) ** 2.4 for share in shares
    )
    return 0.2126 * red + 0.7152 * green + 0.0722 * blue


class Explained(unittest.TestCase):
    def test_an_answer_is_kept_and_a_failure_is_not(self) -> None:
        answers = [NoMemory(), {"outcome": "accepted"}, {"outcome": "refused"}]
        with mock.patch.object(Sign, "explain", side_effect=answers):
            asked = Reasons(SIGN)
            self.assertIsNone(asked.explained(b"A"))
            for _ in range(2):
                self.assertEqual(asked.explained(b"A"), {"outcome": "accepted"})
            self.assertEqual(asked.explained(b"B"), {"outcome": "refused"})


if __name__ == "__main__":
    unittest.main()
