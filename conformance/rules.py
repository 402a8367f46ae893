"""The rules that a conformance case rests on: the standard's, and this project's own choices.

A rule is "standard" where the specification restates NTCIP 1203 version 03, and "own" where it
says that the standard leaves a choice or is silent, and the project chose.  An implementer who
chose otherwise leaves out the cases that name that rule.
"""

from __future__ import annotations

import re
from typing import Iterable, Optional, Sequence

from second_control import BadLine, Controller, script_line
from second_multi import (
    BOTTOM,
    CENTRE,
    LEFT,
    MIDDLE,
    RIGHT,
    TOP,
    Item,
    Line,
    Placing,
    Spelled,
    Text,
    Verdict,
    height_of,
    read_items,
    segment_of,
)

STANDARD = {
    "characters": "An octet is the character of its number, drawn with its cell in the font.",
    "doubled-brackets": "Two brackets of one kind spell that bracket as a character.",
    "first-error": "Items are judged from the left; the first that offends gives the error.",
    "unsupported-tag": "A tag that the sign does not support is unsupportedTag (3).",
    "tag-value": "A supported tag with a value that it cannot have is unsupportedTagValue (4).",
    "too-big": "A line or an area that no longer fits is textTooBig (5).",
    "font-not-defined": "A font that the sign has not is fontNotDefined (6).",
    "character-not-defined": "A character without a cell in its font is characterNotDefined (7).",
    "tag-conflict": "Tags that cannot stand together are tagConflict (11).",
    "too-many-pages": "More pages than the sign's limit are tooManyPages (12).",
    "font-version": "A font of another version than asked for is fontVersionID (13).",
    "np": "The new page tag ends a page.",
    "nl": "The new line tag ends a line.",
    "nl-gap": "The new line tag's number is the gap between the two lines in pixels.",
    "jl": "Line justification: left 2, centre 3, right 4, full 5.",
    "jp": "Page justification: top 2, middle 3, bottom 4.",
    "fo": "The font tag sets the font, and without a number the default font.",
    "sc": "Character spacing, until its end tag.",
    "pt": "Page on and off times, in tenths of a second, as in force at the page's end.",
    "fl": "Flashing text, until its end tag.",
    "cf": "The foreground colour.",
    "pb": "The page background covers the page.",
    "tr": "The text rectangle, counted from 1, where 0 reaches to the edge of the sign.",
    "hc": "A character by its hexadecimal number.",
    "layout": "Lines and groups stand as the justifications say, by the fonts' spacings.",
    "spacing-average": "Between two fonts stands the average of both spacings, rounded up.",
    "bottom-of-line": "Characters of fonts of several heights stand on the line's bottom.",
    "full-line": "A full line is spread over the whole width.",
    "message-table": "A changeable message has a status and is changed by requests.",
    "memory": "Texts take memory; free bytes and used messages are told.",
    "message-types": "Memory types: permanent, changeable, currentBuffer, blank.",
    "validate": "A message is validated: beacons, pixel service, syntax of MULTI.",
    "crc": "The CRC-16 of ISO/IEC 3309.",
    "activate": "Activation by a MessageActivationCode with duration, priority and CRC.",
    "activate-priority": "A message is shown if the code's priority reaches the display's.",
    "duration": "A duration in minutes; when it ends the end-duration message is shown.",
    "current-buffer": "currentBuffer is the message that is displayed.",
    "defaults": "The MULTI defaults can be set, and texts judged later go by them.",
}

OWN = {
    "stray-bracket": "A bracket that spells nothing is unsupportedTag at that octet.",
    "error-position": "An error's position is the first octet of its tag or doubled bracket.",
    "digits": "Numbers have 1 to 5 decimal or 1 to 4 hexadecimal digits, zeros may lead.",
    "range": "nl takes 0 to 255 (told from 10 on), sc and fl 0 to 255 (told from 100 on).",
    "flash-one-time": "The flash tag may give one time only, or none, in either order.",
    "absent-value": "A tag without its value sets the default, also after another value.",
    "tags-left-out": "cb, cr, f, g, ms and mv are not supported by this profile.",
    "colours-left-out": "Colours are 0 to 9; a greater one or three numbers are bad values.",
    "groups-in-order": "The page justification must not go back within an area.",
    "segments-in-order": "The line justification must not go back within a line.",
    "full-alone": "Full justification stands alone on its line.",
    "new-line-order": "A new line is never in conflict by its line justification.",
    "counted-lines": "Every line that a new line ended counts, and the last if it has text.",
    "last-gap": "After the last counted line stands no gap, whatever its new line says.",
    "fit-of-parts": "A centred part stands in the middle and must not meet the others.",
    "last-cover": "Each pixel has the colour of the last thing that covers it.",
    "lit-colours": "On a monochrome sign the colours 1 to 9 are all lit.",
    "flash-phase": "Flashing goes by the time since the page's start; two zeros are lit.",
    "page-clock": "Pages are shown in turn by a clock, each on time and then off time.",
    "one-page": "A single page is always shown, whatever its times.",
    "attributes-across-pages": "All attributes but the rectangle stay in force across pages.",
    "rectangle-until-new-page": "The rectangle returns to the whole sign at a new page.",
    "line-fill": "Lines may be filled by words: breaks at spaces, which are dropped.",
    "trailing-space": "A space that is dropped at the end begins another, empty line.",
    "dropped-space-order": "A dropped space counts in the order of justifications.",
    "status-table": "Which request is taken in which status, and that only modifying writes.",
    "refusals": "The reasons to refuse a write, their numbers and their order.",
    "crc-cover": "The message CRC covers text, beacon and pixel service, in this order.",
    "blank-row": "A blank has an empty text, its number as priority, and CRC 0.",
    "blank-crc": "A blank is activated with CRC 0x0000 or 0x0F47.",
    "swapped-crc": "The CRC of an activation is taken in either order of its octets.",
    "activate-errors": "The reasons not to show a message, their numbers and their order.",
    "work-order": "The lowest validating message is judged; beacons, pixel service, syntax.",
    "end-duration": "How the end-duration message is found, checked and shown.",
    "current-buffer-kept": "Activating currentBuffer keeps its message, source and defaults.",
    "registers": "Which errors are kept in the registers, and until when.",
    "memory-types-left-out": "Volatile and schedule memory are not supported.",
    "default-refusals": "The reasons to refuse a default, and their numbers.",
    "script-lines": "What a line of the script language may be; a bad line ends the run.",
}

KIND_RULES = {
    "character": "characters",
    "/sc": "sc",
    "on first": "fl",
    "off first": "fl",
    "/fl": "fl",
    "bad value": "tag-value",
    "unsupported": "unsupported-tag",
}

ERROR_RULES = {
    3: "unsupported-tag",
    4: "tag-value",
    5: "too-big",
    6: "font-not-defined",
    7: "character-not-defined",
    11: "tag-conflict",
    12: "too-many-pages",
    13: "font-version",
}

SETTERS = [("jl",), ("jp",), ("fo",), ("cf",), ("pb",), ("pt",), ("on first", "off first")]


def split(rules: Iterable[str]) -> tuple[list[str], list[str]]:
    """The standard's rules and the own ones, sorted; every name must be known."""
    names = set(rules)
    unknown = names - STANDARD.keys() - OWN.keys()
    assert not unknown, unknown
    return sorted(names & STANDARD.keys()), sorted(names & OWN.keys())


# ---------------------------------------------------------------- strings


def rules_of_body(body: bytes) -> set[str]:
    """Own choices that show in the spelling of a tag."""
    rules: set[str] = set()
    lower = body.lower()
    if re.match(rb"cb|cr|f(?![ol])|g|ms|mv", lower):
        rules.add("tags-left-out")
    found = re.match(rb"(nl|jl|jp|fo|sc|pt|fl|cf|pb|tr|hc)", lower)
    if found is None:
        return rules
    name, rest = found.group(), lower[2:]
    numbers = re.findall(rb"[0-9a-f]+" if name == b"hc" else rb"[0-9]+", rest)
    longest = 4 if name == b"hc" else 5
    if any(len(n) > longest or (len(n) > 1 and n[:1] == b"0") for n in numbers):
        rules.add("digits")
    limit = {b"nl": 9, b"sc": 99, b"fl": 99}.get(name)
    if limit is not None and any(int(n) > limit for n in numbers):
        rules.add("range")
    if name in (b"cf", b"pb") and (b"," in rest or any(int(n) > 9 for n in numbers)):
        rules.add("colours-left-out")
    if name == b"fl" and len(numbers) < 2:
        rules.add("flash-one-time")
    return rules


def rules_of_item(item: Item, spelled: Spelled) -> set[str]:
    rules = {KIND_RULES.get(item.kind, item.kind)}
    if spelled.body:
        rules |= rules_of_body(spelled.body)
        if item.kind == "character":
            rules.add("hc")
    elif spelled.character is not None and chr(spelled.character) in "[]":
        rules.add("doubled-brackets")
    if item.kind == "nl" and item.values[0] is not None:
        rules.add("nl-gap")
    if item.kind == "fo" and item.values[1] is not None:
        rules.add("font-version")
    return rules


def absent_after_value(items: Sequence[Item]) -> bool:
    """Whether a tag leaves a value out after an earlier tag gave one."""
    for kinds in SETTERS:
        given = False
        for item in (item for item in items if item.kind in kinds):
            if given and None in item.values[:2] and item.kind != "fo":
                return True
            if given and item.kind == "fo" and item.values[0] is None:
                return True
            given = given or any(value is not None for value in item.values)
    return False


def rules_of_lines(lines: Sequence[Line]) -> set[str]:
    rules: set[str] = set()
    counted = [line for line in lines if line.counted]
    if any(not line.characters for line in lines):
        rules.add("counted-lines")
    if counted and counted[-1].gap is not None:
        rules.add("last-gap")
    for line in counted:
        fonts = {character.font.number for character in line.characters}
        if len(fonts) > 1:
            rules |= {"spacing-average", "bottom-of-line"}
        left, centre, right = (segment_of(line.characters, j) for j in (LEFT, CENTRE, RIGHT))
        if centre and (left or right):
            rules.add("fit-of-parts")
        if any(character.justification == 5 for character in line.characters):
            rules.add("full-line")
    if len({font.number for line in counted for font in line.fonts}) > 1:
        rules.add("spacing-average")
    return rules


def rules_of_filling(area: Sequence[Placing], lines: Iterable[Line]) -> set[str]:
    """Own choices that show where filling by words dropped spaces."""
    standing = {character.index for line in lines for character in line.characters}
    dropped = [k for k, p in enumerate(area) if p.is_character and p.index not in standing]
    rules = {"line-fill"} if dropped else set()
    if any(k + 1 == len(area) or not area[k + 1].is_character for k in dropped):
        rules.add("trailing-space")
    return rules


def rules_of_area(text: Text, area: Sequence[Placing]) -> set[str]:
    rules = {"layout"}
    groups = text.groups(area)
    if groups is None:
        return rules | {"line-fill"}
    for lines in groups.values():
        rules |= rules_of_lines(lines)
    rules |= rules_of_filling(area, [line for lines in groups.values() for line in lines])
    top, middle, bottom = (height_of(groups[g]) for g in (TOP, MIDDLE, BOTTOM))
    if middle and (top or bottom):
        rules.add("fit-of-parts")
    return rules


def areas_of(text: Text, indices: Sequence[int]) -> list[list[Placing]]:
    """The areas of these placing items, each up to the last of them in it."""
    last: dict[Optional[int], int] = {}
    for index in indices:
        last[text.last_before(index, "np", "tr")] = index
    return [text.area_up_to(index) for index in last.values()]


def rules_of_conflict(text: Text, index: int) -> set[str]:
    area = text.area_up_to(index)
    last = area[-1]
    if any(earlier.group > last.group for earlier in area[:-1]):
        return {"groups-in-order"}
    if last.justification == 5 or any(earlier.justification == 5 for earlier in area[:-1]):
        return {"full-alone", "segments-in-order"}
    return {"segments-in-order"} | ({"dropped-space-order"} if text.sign.words else set())


def rules_of_pages(text: Text) -> set[str]:
    """Rules on pictures and times of an accepted string."""
    rules: set[str] = set()
    kinds = [item.kind for item in text.items]
    pages = text.pages()
    if pages > 1:
        rules.add("page-clock")
        first = text.items[: kinds.index("np")]
        if any(item.kind not in ("character", "nl", "np", "tr") for item in first):
            rules.add("attributes-across-pages")
        if any(item.kind == "tr" for item in first):
            rules.add("rectangle-until-new-page")
    elif "pt" in kinds:
        rules.add("one-page")
    if "on first" in kinds or "off first" in kinds:
        rules.add("flash-phase")
    covers = [k for k, kind in enumerate(kinds) if kind == "pb"]
    drawn = [k for k, kind in enumerate(kinds) if kind == "character"]
    if kinds.count("tr") > 1 or (covers and drawn and drawn[0] < covers[-1]):
        rules.add("last-cover")
    colours = [item.values[0] or 0 for item in text.items if item.kind in ("cf", "pb")]
    if not text.sign.classic and any(colour > 1 for colour in colours):
        rules.add("lit-colours")
    return rules


def rules_of_refusal(
    text: Text, found: Verdict, index: Optional[int], spelled: Sequence[Spelled]
) -> set[str]:
    rules = {"first-error", ERROR_RULES[found.error]}
    if index is None:
        return rules | {"stray-bracket"}
    if len(spelled[index].spelling()) > 1:
        rules.add("error-position")
    if found.error == 11:
        rules |= rules_of_conflict(text, index)
    return rules


def rules_of_string(text: Text, octets: bytes) -> set[str]:
    """The rules that the verdict and the pictures of a string rest on."""
    found = text.verdict()
    spelled, _ = read_items(octets)
    at = [k for k, item in enumerate(text.items) if item.at == found.position]
    refused_at = at[0] if not found.accepted and at else None
    judged = len(text.items) if refused_at is None else refused_at + 1
    rules: set[str] = set()
    for item, spelling in zip(text.items[:judged], spelled):
        rules |= rules_of_item(item, spelling)
    if absent_after_value(text.items[:judged]):
        rules.add("absent-value")
    if found.accepted:
        rules |= rules_of_pages(text)
    else:
        rules |= rules_of_refusal(text, found, refused_at, spelled)
    whole = judged if found.accepted or found.error == 5 or refused_at is None else judged - 1
    placing = [k for k in range(whole) if text.items[k].kind in ("character", "nl")]
    for area in areas_of(text, placing):
        rules |= rules_of_area(text, area)
        if any(not p.is_character and went_back(area, k) for k, p in enumerate(area)):
            rules.add("new-line-order")
    return rules


def went_back(area: Sequence[Placing], k: int) -> bool:
    """Whether the line justification at a new line is less than at the character before it."""
    before = area[k - 1] if k > 0 else None
    if before is None or not before.is_character:
        return False
    return before.justification > area[k].justification


# ---------------------------------------------------------------- scripts

WORD_RULES = {
    "request": {"message-table", "status-table"},
    "multi": {"message-table", "memory"},
    "multix": {"message-table", "memory"},
    "owner": {"message-table", "memory"},
    "priority": {"message-table"},
    "beacon": {"message-table"},
    "pixel": {"message-table"},
    "clear": {"message-table"},
    "work": {"validate", "work-order", "registers"},
    "activate": {"activate", "activate-errors", "registers", "crc", "crc-cover"},
    "end": {"end-duration"},
    "row": {"message-types", "crc", "crc-cover"},
    "report": {"registers", "memory"},
    "default": {"defaults"},
    "defaults": {"defaults"},
    "tick": {"duration"},
    "frame": {"layout", "characters"},
}


def code_rules(word: str, code: str) -> set[str]:
    """Rules on the memory type and CRC in an activation or end-duration code."""
    octets = bytes.fromhex(code)
    memory = octets[3] if word == "activate" else octets[0]
    rules = {"message-types"}
    if memory == 7:
        rules |= {"blank-crc", "blank-row"}
    if memory == 5:
        rules |= {"current-buffer", "current-buffer-kept"}
    if memory in (1, 4, 6):
        rules.add("memory-types-left-out")
    return rules


def rules_of_reply(words: Sequence[str], reply: str) -> set[str]:
    """The rules of one line with the first line of its reply."""
    word = words[0]
    rules = set(WORD_RULES[word])
    if reply.startswith("refused"):
        rules.add("default-refusals" if word == "default" else "refusals")
    if word in ("activate", "end"):
        rules |= code_rules(word, words[1])
    if reply == "not shown 3":
        rules.add("activate-priority")
    if reply == "ended":
        rules |= {"end-duration", "blank-row"}
    if word == "row" and words[1] in ("5", "7"):
        rules.add("blank-row" if words[1] == "7" else "current-buffer")
    if len(words) > 1 and word not in ("tick", "frame") and words[1] in ("1", "4", "6"):
        rules.add("memory-types-left-out")
    return rules


def rules_of_script(controller: Controller, lines: Sequence[str]) -> set[str]:
    """The rules that the replies of a script rest on, and those of the texts that it judges."""
    rules: set[str] = set()
    for line in lines:
        waiting = sorted(n for n, slot in controller.slots.items() if slot.status == 3)
        try:
            replies = script_line(controller, line.encode("latin-1"))
        except BadLine:
            return rules | {"script-lines"}
        if not replies:
            rules.add("script-lines")
            continue
        reply = replies[0].decode()
        rules |= rules_of_reply(line.split(" "), reply)
        if reply.startswith("worked") and waiting:
            slot = controller.slots[waiting[0]]
            text = Text(controller.sign, controller.defaults, slot.multi)
            rules |= rules_of_string(text, slot.multi)
        if line.startswith("activate") and swapped_code(controller, line):
            rules.add("swapped-crc")
    return rules


def swapped_code(controller: Controller, line: str) -> bool:
    """Whether a shown activation gave the CRC with its octets swapped."""
    octets = bytes.fromhex(line.split(" ")[1])
    crc = controller.display.message.crc
    return int.from_bytes(octets[6:8], "little") == crc and crc != int.from_bytes(octets[6:8])
