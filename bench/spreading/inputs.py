#!/usr/bin/env python3
"""Writes messages and signs to spread, always the same ones.

    inputs.py FOLDER MESSAGES SIGNS

`messages` has this many lines, some 29 octets each, of which a sign refuses some; `signs/` this many sign files: the two larger signs of the
repository in other widths and heights.
"""
import random
import re
import sys
from pathlib import Path

TOP = Path(__file__).resolve().parents[2]
WORDS = ["ROAD WRK", "AHEAD", "EXIT 42", "DETOUR", "45 MPH", "MAIN ST", "FOG", "ICE", "12 MIN", "MERGE", "LEFT LANE CLOSED", "USE RTE 9"]
BEFORE = ["", "", "", "[jl2]", "[jp3]", "[pt25o0]", "[fl]", "[fo1]", "[xx]"]


def messages(count):
    choose = random.Random(52)
    for _ in range(count):
        parts = [choose.choice(BEFORE) + choose.choice(WORDS) for _ in range(choose.choice((1, 2, 2, 3)))]
        yield choose.choice(("[nl]", "[np]")).join(parts)


def signs(count):
    for number in range(count):
        text = (TOP / "signs" / f"{('portable', 'full-matrix')[number % 2]}.toml").read_text()
        text = re.sub(r"^width = (\d+)", lambda found: f"width = {int(found[1]) + number // 2 % 30}", text, count=1, flags=re.M)
        yield re.sub(r"^height = (\d+)", lambda found: f"height = {int(found[1]) + number // 60}", text, count=1, flags=re.M)


def write(folder, message_count, sign_count):
    folder = Path(folder)
    (folder / "signs").mkdir(parents=True, exist_ok=True)
    (folder / "messages").write_text("".join(f"{message}\n" for message in messages(message_count)))
    for number, sign in enumerate(signs(sign_count)):
        (folder / "signs" / f"{number:03}.toml").write_text(sign)


if __name__ == "__main__":
    write(sys.argv[1], int(sys.argv[2]), int(sys.argv[3]))
