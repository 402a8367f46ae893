"""`python -m latsefur.preview --sign FILE`"""
from __future__ import annotations

import argparse
import sys
import webbrowser
from pathlib import Path
from typing import Optional

from ..errors import LatsefurError
from ..sign import Sign
from .answers import Answers
from .reasons import Reasons
from .server import OneSign, Page, Server
from .templates import templates


def one_sign(file: str, files: list[str], library: Optional[str]) -> OneSign:
    """The sign of a file, which is named without its folder if no other file has that name."""
    sign = Sign.from_file(file, library)
    stems = [Path(other).stem for other in files]
    name = Path(file).stem if stems.count(Path(file).stem) == 1 else file
    return OneSign(name, Answers(sign), Reasons(sign))


def main() -> None:
    parser = argparse.ArgumentParser(
        prog="python -m latsefur.preview",
        description="A page to write messages on, for the browser of this machine.",
    )
    parser.add_argument(
        "--sign",
        required=True,
        action="append",
        metavar="FILE",
        help="the sign file; a second one shows its sign beside the first",
    )
    parser.add_argument("--templates", metavar="FILE", help="messages to begin with, one a line")
    parser.add_argument(
        "--port", type=int, default=0, metavar="N", help="the port, or any that is free"
    )
    parser.add_argument("--open", action="store_true", help="open the page in the browser")
    parser.add_argument("--library", metavar="FILE", help="the shared library")
    words = parser.parse_args()
    if not 0 <= words.port <= 65535:
        parser.error("a port is 0 to 65535")
    try:
        signs = [one_sign(name, words.sign, words.library) for name in words.sign]
        server = Server(Page(signs, templates(words.templates)), words.port)
    except (LatsefurError, OSError) as fault:
        sys.exit(f"latsefur.preview: {fault}")
    print(server.url, flush=True)
    if words.open:
        webbrowser.open(server.url)
    try:
        server.serve_forever()
    except KeyboardInterrupt:
        pass
    finally:
        server.server_close()


if __name__ == "__main__":
    main()
