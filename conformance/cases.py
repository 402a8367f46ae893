"""Makes the inputs of the conformance cases, as lines of JSON on standard output.

    python3 cases.py > inputs.jsonl

Each case names a sign of the folder `signs` and is a string or a script.  It says at which
clocks a string's pages are looked at, and on which of the standard's rules and which of this
project's own choices it rests.  The answers are filled in by `answers.py` from an engine.
"""

from __future__ import annotations

import json
import sys
from pathlib import Path
from typing import Any, Iterator, Sequence

import cases_scripts
import cases_strings
from cases_strings import Setting
from rules import rules_of_script, rules_of_string, split
from second_multi import Text
from second_reading import make_controller

FOLDER = Path(__file__).parent / "signs"
Case = dict[str, Any]

# Families that look at more clocks than the others.
CLOCKED = {"time": 8, "flash": 6, "pages": 5}


def sign_file(name: str) -> bytes:
    return (FOLDER / f"{name}.toml").read_bytes()


def spelled(octets: bytes) -> Case:
    """The octets as text where they are printable ASCII, else as hexadecimal digits."""
    if all(32 <= octet < 127 for octet in octets):
        return {"text": octets.decode()}
    return {"hex": octets.hex()}


def clocks_of_pages(text: Text) -> list[int]:
    """The first tenth of each page that is shown; then those around the ends of its times."""
    times = text.times()
    starts = [sum(on + off for on, off in times[:page]) for page in range(len(times) + 1)]
    if len(times) == 1:
        return [0, starts[1]] if any(item.kind == "pt" for item in text.items) else [0]
    shown = [start for start, (on, _) in zip(starts, times) if on > 0]
    ends = [start + on for start, (on, _) in zip(starts, times)]
    before = [clock - 1 for clock in ends + starts]
    return [0] + shown + ends + before + [4294967295] + starts


def clocks_of_flashes(text: Text) -> list[int]:
    """The tenths around each change of a flashing character on the first page."""
    clocks: list[int] = []
    for index in text.page_items(0):
        flash = text.flash_in_force(index)
        if text.items[index].kind == "character" and flash is not None:
            change = flash.off if flash.off_first else flash.on
            both = flash.on + flash.off
            clocks += [change, change - 1, both - 1, both]
    return clocks


def telling_clocks(text: Text, most: int) -> list[int]:
    """Clocks at which something changes, at most this many."""
    pages, flashes = clocks_of_pages(text), clocks_of_flashes(text)
    found = pages[: text.pages()] + flashes + pages[text.pages() :]
    return sorted([clock for clock in dict.fromkeys(found) if clock >= 0][:most])


def string_cases(name: str) -> Iterator[Case]:
    """The cases with strings on a sign, each string once."""
    sign = make_controller(sign_file(name)).sign
    known: set[str] = set()
    for family, names, make in cases_strings.FAMILIES:
        if name not in names:
            continue
        number = 0
        for string in make(Setting(name, sign)):
            if string in known or len(string) > 4096:
                continue
            known.add(string)
            number += 1
            octets = string.encode("latin-1")
            text = Text(sign, sign.defaults, octets)
            case: Case = {"id": f"{name}-{family}-{number}", "kind": "string", "sign": name}
            case |= spelled(octets)
            if text.verdict().accepted:
                most = 2 if name == "gantry" else CLOCKED.get(family, 3)
                case["clocks"] = telling_clocks(text, most)
            yield with_rules(case, rules_of_string(text, octets))


def script_cases(name: str) -> Iterator[Case]:
    """The cases with scripts on a sign, each script once."""
    known: set[tuple[str, ...]] = set()
    for family, names, make in cases_scripts.FAMILIES:
        if name not in names:
            continue
        number = 0
        for lines in make(make_controller(sign_file(name))):
            if tuple(lines) in known:
                continue
            known.add(tuple(lines))
            number += 1
            case: Case = {"id": f"{name}-script-{family}-{number}", "kind": "script"}
            case |= {"sign": name, "lines": lines}
            yield with_rules(case, rules_of_script(make_controller(sign_file(name)), lines))


def with_rules(case: Case, rules: set[str]) -> Case:
    standard, own = split(rules)
    return case | {"standard": standard, "own": own}


def written(case: Case) -> str:
    return json.dumps(case, separators=(",", ":"), ensure_ascii=True)


def main(names: Sequence[str]) -> None:
    for name in names or cases_strings.ALL:
        for cases in (string_cases(name), script_cases(name)):
            for case in cases:
                print(written(case))


if __name__ == "__main__":
    main(sys.argv[1:])
