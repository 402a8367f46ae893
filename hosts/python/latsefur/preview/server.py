"""The page's server: on the loopback interface alone, for one origin, with its own files and no other."""
from __future__ import annotations

import json
import sys
from concurrent.futures import ThreadPoolExecutor
from dataclasses import dataclass
from http import HTTPStatus
from http.server import BaseHTTPRequestHandler, ThreadingHTTPServer
from pathlib import Path
from typing import Any, Callable, Optional

from ..errors import (
    LargeFilm,
    LatsefurError,
    LongFilm,
    NoPage,
    NotAnOctet,
    TextRefused,
    TextTooLong,
)
from .answers import Answers, TooLong
from .reasons import Reasons

ADDRESS = "127.0.0.1"

FILES = {
    "/": ("page.html", "text/html; charset=utf-8"),
    "/page.css": ("page.css", "text/css; charset=utf-8"),
    **{
        f"/{name}": (name, "text/javascript; charset=utf-8")
        for name in ("state.js", "panels.js", "helps.js", "page.js")
    },
    "/favicon.svg": ("favicon.svg", "image/svg+xml"),
}

# The octets of the longest question: a message of 4,096 octets with each written as `\u00ff` has 24,576.
MOST_BODY = 32768

# The largest time that a question has: as many tenths of a second as JavaScript counts exactly.
MOST_TIME = 2**53 - 1

HEADERS = {
    "Content-Security-Policy": "default-src 'none'; script-src 'self'; style-src 'self'; img-src 'self'; connect-src 'self';"
    " base-uri 'none'; form-action 'none'; frame-ancestors 'none'",
    "X-Content-Type-Options": "nosniff",
    "Referrer-Policy": "no-referrer",
    "Cross-Origin-Opener-Policy": "same-origin",
    "Cross-Origin-Resource-Policy": "same-origin",
    "Cache-Control": "no-store",
}


class Refused(Exception):
    """A request that isn't answered, with its status."""

    def __init__(self, status: HTTPStatus, said: str) -> None:
        super().__init__(said)
        self.status = status

    def __reduce__(self) -> tuple[type[Refused], tuple[HTTPStatus, str]]:
        return type(self), (self.status, str(self))


@dataclass(frozen=True)
class OneSign:
    """One of the signs that the page shows: its name, what is answered of it, and who is asked why."""

    name: str
    answers: Answers
    reasons: Reasons

    def judge(self, text: str, asked: dict[str, Any]) -> dict[str, Any]:
        """What is told of a text on this sign: what `message` says, and beside it `words`, the
        reason and the warnings of `Sign.explain`. They are `None` if there are none, or if they
        are of another verdict."""
        # It is explained while it is drawn.
        with ThreadPoolExecutor(1) as asking:
            explained = asking.submit(self.explained, text)
            told = self.message(text, asked)
            words = words_of(explained.result(), told)
        return {**told, "words": words}

    def message(self, text: str, asked: dict[str, Any]) -> dict[str, Any]:
        """The verdict on a text and what is shown of it, as `Answers.message` says them. A text that isn't judged is refused by name."""
        view = asked.get("view")
        if view != "caret" and view is not None:
            view = number(asked, "view", 255)
        words = (
            number(asked, "caret", MOST_BODY),
            number(asked, "begin", MOST_TIME),
            number(asked, "tenths", MOST_BODY),
        )
        try:
            return self.answers.message(text, view, *words)
        except NotAnOctet as fault:
            # The browser counts a character above U+FFFF as two.
            at = len(text[: fault.at].encode("utf-16-le", "surrogatepass")) // 2
            return {
                "accepted": False,
                "at": at,
                "said": str(fault).partition("; ")[2] or str(fault),
                "name": "no octet of a message",
            }
        except TooLong as fault:
            return {"accepted": False, "at": None, "said": str(fault), "name": "too long"}

    def explained(self, text: str) -> Optional[dict[str, Any]]:
        """What `Sign.explain` says of a text, or nothing."""
        try:
            octets = text.encode("latin-1")
        except UnicodeEncodeError:
            return None
        return self.reasons.explained(octets)


@dataclass(frozen=True)
class Page:
    """What the page is about: one sign, or several side by side. Characters and files are those of
    the first."""

    signs: list[OneSign]
    templates: list[str]

    @property
    def first(self) -> OneSign:
        """The sign whose characters and files are given."""
        return self.signs[0]

    @property
    def stamp(self) -> str:
        """Tells these signs from others."""
        return "-".join(sign.answers.stamp for sign in self.signs)

    def facts(self) -> dict[str, Any]:
        """The signs, the templates and tags that all of them take, and what is there beside the
        library."""
        first, others = self.first.answers, self.signs[1:]
        verdicts = zip(*(sign.answers.taken(self.templates) for sign in self.signs))
        texts = [text for text, taken in zip(self.templates, verdicts) if all(taken)]
        shared = [set(sign.answers.tags()) for sign in self.signs]
        return {
            "name": self.first.name,
            **first.facts(),
            "stamp": self.stamp,
            "templates": [
                {"text": text, "picture": picture}
                for text, picture in zip(texts, first.small(texts))
            ],
            "tags": [tag.facts() for tag in first.tags() if all(tag in one for one in shared)],
            "others": [{"name": sign.name, **sign.answers.facts()} for sign in others],
        }

    def judge(self, asked: dict[str, Any]) -> dict[str, Any]:
        """All that is told of a text: what `OneSign.judge` says of it on the first sign, the same
        on the `others`, and the `stamp` of these signs. `font` is the font at the caret, and
        `strip`, if it is asked for, has a picture of each page.

        A page that finds another `stamp` than it began with is about signs that aren't served any
        more.
        """
        text, caret = text_of(asked), number(asked, "caret", MOST_BODY)

        def judged(sign: OneSign) -> dict[str, Any]:
            return sign.judge(text, asked)

        with ThreadPoolExecutor(len(self.signs)) as asking:
            told, *others = asking.map(judged, self.signs)
        is_drawn = told["accepted"] and asked.get("strip") is True
        return {
            **told,
            "others": others,
            "stamp": self.stamp,
            "font": self.first.answers.font_at(text, caret),
            "strip": self.first.answers.strip(text, told["pages"]) if is_drawn else [],
        }

    def font(self, asked: dict[str, Any]) -> dict[str, Any]:
        """The characters of a font of the first sign."""
        return {"characters": self.first.answers.font(number(asked, "font", 255))}

    def png(self, asked: dict[str, Any]) -> bytes:
        """A file in PNG: of a page of the first sign at a phase, or of the message at a clock."""
        text, time = text_of(asked), number(asked, "begin", MOST_TIME)
        page = None if asked.get("view") is None else number(asked, "view", 254)
        try:
            return self.first.answers.picture(text, page, time).png(self.scale())
        except (NotAnOctet, NoPage, TextRefused, TextTooLong) as fault:
            raise Refused(HTTPStatus.CONFLICT, str(fault)) from fault

    def gif(self, asked: dict[str, Any]) -> bytes:
        """A file in GIF: the message as it plays on the first sign."""
        try:
            return self.first.answers.sign.film(text_of(asked), self.scale())
        except (NotAnOctet, TextRefused, TextTooLong, LargeFilm, LongFilm) as fault:
            raise Refused(HTTPStatus.CONFLICT, str(fault)) from fault

    def scale(self) -> int:
        """How many points side by side a pixel has in a file."""
        return max(2, min(16, 1200 // self.first.answers.sign.width))


def words_of(record: Optional[dict[str, Any]], told: dict[str, Any]) -> Optional[dict[str, Any]]:
    """The reason, the warnings and the fixes of a record of `Sign.explain`, if its verdict is the one
    that is told. A fix is a text that the sign takes instead, with the edits that lead to it."""
    if record is None:
        return None
    verdict = record.get("outcome") == "accepted", record.get("code"), record.get("octet")
    if verdict != (told["accepted"], told.get("code"), told.get("at")):
        return None
    fixes = [fix for fix in record.get("fixes", []) if fix["text"] is not None]
    return {
        "reason": record.get("reason", ""),
        "warnings": record.get("warnings", []),
        "fixes": [{"text": fix["text"], "edits": fix["edits"]} for fix in fixes],
    }


def text_of(asked: dict[str, Any]) -> str:
    text = asked.get("text")
    if not isinstance(text, str):
        raise Refused(HTTPStatus.BAD_REQUEST, "the text is no string")
    return text


def number(asked: dict[str, Any], name: str, most: int) -> int:
    value = asked.get(name)
    if type(value) is not int or not 0 <= value <= most:
        raise Refused(HTTPStatus.BAD_REQUEST, f"{name} is no number of 0 to {most}")
    return value


class Handler(BaseHTTPRequestHandler):
    """Answers one connection."""

    protocol_version = "HTTP/1.1"
    server_version, sys_version = "latsefur", ""
    timeout = 60
    # A reply leaves in one piece.
    wbufsize = 1 << 16
    disable_nagle_algorithm = True
    server: Server

    def do_GET(self) -> None:
        self.answer(self.get)

    def do_POST(self) -> None:
        self.answer(self.post)

    def answer(self, give: Callable[[], tuple[bytes, str]]) -> None:
        try:
            self.hold_to_own_host()
            octets, kind = give()
            self.reply(HTTPStatus.OK, octets, kind)
        except Refused as fault:
            self.refuse(fault.status, str(fault))
        except (LatsefurError, MemoryError) as fault:
            self.refuse(HTTPStatus.INTERNAL_SERVER_ERROR, str(fault))

    def hold_to_own_host(self) -> None:
        """Refuses a request by another name than the page's own, as one that another site has pointed here, and one from another site."""
        origins = {f"http://{host}" for host in self.server.hosts}
        if self.headers.get_all("Host", []) not in [[host] for host in self.server.hosts]:
            raise Refused(HTTPStatus.FORBIDDEN, "another host is asked")
        if self.headers.get("Origin", next(iter(origins))) not in origins:
            raise Refused(HTTPStatus.FORBIDDEN, "another origin asks")

    def get(self) -> tuple[bytes, str]:
        if self.path == "/sign":
            return self.json(self.server.page.facts())
        if self.path not in FILES:
            raise Refused(HTTPStatus.NOT_FOUND, "no such file")
        name, kind = FILES[self.path]
        return self.server.files[name], kind

    def post(self) -> tuple[bytes, str]:
        asked = self.asked()
        page = self.server.page
        files = {"/gif": (page.gif, "image/gif"), "/png": (page.png, "image/png")}
        if self.path in files:
            draw, kind = files[self.path]
            return draw(asked), kind
        calls = {"/judge": page.judge, "/font": page.font}
        if self.path not in calls:
            raise Refused(HTTPStatus.NOT_FOUND, "no such call")
        return self.json(calls[self.path](asked))

    def asked(self) -> dict[str, Any]:
        """The object that a request has. Another site can't send this kind without asking first, and it is answered nothing."""
        if (
            self.headers.get("Content-Type") != "application/json"
            or "Transfer-Encoding" in self.headers
        ):
            raise Refused(HTTPStatus.UNSUPPORTED_MEDIA_TYPE, "a request has JSON")
        length = self.headers.get("Content-Length", "")
        if not (length.isascii() and length.isdigit()):
            raise Refused(HTTPStatus.LENGTH_REQUIRED, "a request has a length")
        if len(length) > 9 or int(length) > MOST_BODY:
            raise Refused(
                HTTPStatus.REQUEST_ENTITY_TOO_LARGE, f"a request has at most {MOST_BODY} octets"
            )
        try:
            asked = json.loads(self.rfile.read(int(length)))
        except (ValueError, RecursionError) as fault:
            raise Refused(HTTPStatus.BAD_REQUEST, "that is no JSON") from fault
        if not isinstance(asked, dict):
            raise Refused(HTTPStatus.BAD_REQUEST, "that is no object")
        return asked

    @staticmethod
    def json(told: dict[str, Any]) -> tuple[bytes, str]:
        return json.dumps(told, separators=(",", ":")).encode(), "application/json"

    def refuse(self, status: HTTPStatus, said: str) -> None:
        # What a refused request has left unread isn't taken for the next one.
        self.close_connection = True
        self.reply(status, *self.json({"said": said}))

    def reply(self, status: HTTPStatus, octets: bytes, kind: str) -> None:
        self.send_response(status)
        for name, value in {
            **HEADERS,
            "Content-Type": kind,
            "Content-Length": str(len(octets)),
        }.items():
            self.send_header(name, value)
        if self.close_connection:
            self.send_header("Connection", "close")
        self.end_headers()
        self.wfile.write(octets)

    def log_message(self, *_: Any) -> None:
        pass


def hosts_of(port: int) -> list[str]:
    """The names by which the page may be asked for. Browsers leave out port 80."""
    names = (ADDRESS, "localhost")
    return [f"{name}:{port}" for name in names] + (list(names) if port == 80 else [])


class Server(ThreadingHTTPServer):
    """The server of a page. With port 0 the system chooses one."""

    daemon_threads = True

    def __init__(self, page: Page, port: int = 0) -> None:
        self.page = page
        self.files = {
            name: Path(__file__).with_name(name).read_bytes() for name, _ in FILES.values()
        }
        super().__init__((ADDRESS, port), Handler)
        self.hosts = hosts_of(self.server_port)

    def handle_error(self, request: Any, client_address: Any) -> None:
        """Says nothing of a page that goes away before its answer."""
        if not isinstance(sys.exc_info()[1], ConnectionError):
            super().handle_error(request, client_address)

    @property
    def url(self) -> str:
        """The address of the page."""
        return f"http://{ADDRESS}:{self.server_port}/"
