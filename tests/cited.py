"""The public calls of the code, with their contracts, and what the documents cite of them.

A call is cited by its name, with its crate and its type where what was cited before it has others:
`CRATE::TYPE::CALL`, `TYPE::CALL` or `CALL`. So are clauses of its contract:

- docs/headline.md has them in the points of its parts, and in the last columns of its tables:
  `CALL`, `CALL` (`CLAUSE`, `CLAUSE`). Each of these calls has each clause. Of a law, (`LAW`:
  `FIELD`), they are fields of the record in its file. Any other name there with its type, or with
  its crate, is a call's too.
- docs/proofs.md has them in the last column of its tables of promises, below a heading that names
  the crates: `CALL`, `CALL`: `CLAUSE`, `CLAUSE`. Each of these calls has one of the clauses, and
  each clause is of one of the calls. Names alone are calls, or clauses of the calls before them.

`each call that changes it` stands for the calls that change a value of the type.
"""
from __future__ import annotations

import re
from functools import lru_cache
from pathlib import Path
from typing import Iterator, NamedTuple

from edits import OWNER
from harness import TOP, fail

HEADLINE = TOP / "docs/headline.md"
PROOFS = TOP / "docs/proofs.md"
CRATES = sorted(it.parent.name for it in TOP.glob("crates/*/src"))
PUBLIC = re.compile(r"( *)pub (?:const )?(?:unsafe )?(?:extern \"C\" )?fn (\w+)")
CLAUSE = re.compile(r" *(requires|ensures)\*? ?(\w*) *\{")
EACH = "each call that changes it"
# A name of the headline's page, with the clauses in brackets behind it.
NAME = re.compile(rf"(?:`([\w:]+)`|{EACH})(?: \(([^)]*)\))?(?:, | and )?")
WITH_TYPE = re.compile(r"`(\w+(?:::\w+)+)`")
# What the rows of the page of proofs say.
NAMES = r"`[\w:]+`(?:(?:, | and )`[\w:]+`)*"
PROMISE = re.compile(rf"({NAMES}|{EACH})(?:: ({NAMES}))?")
ROW = re.compile(r"^\| .* \| (.*) \|$", re.MULTILINE)


class Clause(NamedTuple):
    """A clause of a contract, a promise or a premise."""

    is_promise: bool
    name: str
    text: str


class Call(NamedTuple):
    """A public call of a crate, with its type if it is a method."""

    crate: str
    name: str
    path: Path
    changes: bool
    contract: tuple[Clause, ...]

    @property
    def promises(self) -> set[str]:
        """The names of what it ensures."""
        return {it.name for it in self.contract if it.is_promise}


def contract_at(lines: list[str], indent: str) -> tuple[str, tuple[Clause, ...]]:
    """The head of the function that begins with these lines, and its clauses."""
    head, clauses = "", list[Clause]()
    for line in lines:
        if re.fullmatch(rf"{indent}\{{\}}?", line):
            break
        code = line.partition("//")[0]
        if found := CLAUSE.match(code):
            clauses.append(Clause(found[1] == "ensures", found[2], code[found.end() :]))
        elif clauses:
            clauses[-1] = clauses[-1]._replace(text=f"{clauses[-1].text}\n{code}")
        else:
            head += code
            if code.endswith(("{", "{}", ";")):
                break
    return head, tuple(clauses)


@lru_cache(maxsize=None)
def calls_of(crate: str) -> tuple[Call, ...]:
    """The public calls of a crate."""
    calls = list[Call]()
    for path in sorted((TOP / "crates" / crate / "src").rglob("*.rt")):
        lines, owner = path.read_text().splitlines(), ""
        for number, line in enumerate(lines):
            if found := OWNER.match(line):
                owner = found[1]
            if found := PUBLIC.match(line):
                head, contract = contract_at(lines[number:], found[1])
                name = f"{owner}::{found[2]}" if found[1] else found[2]
                calls.append(Call(crate, name, path, "&mut self" in head, contract))
    return tuple(calls)


def named_in(crate: str, name: str) -> list[Call]:
    """The calls of this name in a crate, of any type, and all of a type of this name."""
    return [it for it in calls_of(crate) if f"::{name}::" in f"::{it.name}::"]


def changing(crate: str, owner: str) -> list[Call]:
    """The calls of a crate that change a value of this type, or of any type if it has no name."""
    return [it for it in calls_of(crate) if it.changes and it.name.startswith(owner)]


class Reader:
    """Reads the names of the headline's page, of which each has the crate and the type of the one
    before it, unless it says others. `homes` are the crates of types that are named alone."""

    def __init__(self, homes: dict[str, str]) -> None:
        self.crate, self.owner, self.homes = "", "", homes

    def calls(self, name: str) -> list[Call]:
        """The call of a name. A type is none, but that of the names after it."""
        parts = name.split("::")
        if parts[0] in CRATES:
            self.crate, self.owner = parts.pop(0), ""
        if parts and parts[0][0].isupper():
            self.owner = parts.pop(0)
            if not named_in(self.crate, self.owner):
                self.crate = self.homes.get(self.owner, self.crate)
        for wanted in [f"{self.owner}::{it}" for it in parts] + parts:
            if found := [it for it in calls_of(self.crate) if it.name == wanted]:
                return found
        if parts or not named_in(self.crate, self.owner):
            fail(f"{HEADLINE.name}: {self.crate} has no public call {name}")
        return []

    def segment(self, text: str) -> Iterator[Call]:
        """The calls with whose names a text begins, held to the clauses behind them."""
        at, calls = 0, list[Call]()
        while found := NAME.match(text, at):
            at = found.end()
            calls += self.calls(found[1]) if found[1] else changing(self.crate, f"{self.owner}::")
            if found[2]:
                hold(calls, found[2])
                yield from calls
                calls = []
        yield from calls


def hold(calls: list[Call], words: str) -> None:
    """Holds each of these calls to having each clause that stands in brackets behind them."""
    front, _, behind = words.partition(": ")
    for call in calls:
        if behind.startswith("`"):
            hold_law(call, front.strip("`"), re.findall(r"`(\w+)`", behind))
            continue
        for clause in re.findall(r"`(\w+)`", front):
            if clause not in call.promises:
                fail(f"{HEADLINE.name}: {call.crate}::{call.name} has no clause `{clause}`")


def hold_law(call: Call, law: str, fields: list[str]) -> None:
    """Holds the law of a call to having each of these fields, in its file."""
    path = TOP / "crates" / call.crate / "specs" / f"{law}.antt"
    text = path.read_text() if path.is_file() else ""
    if not any(law in it.text for it in call.contract):
        fail(f"{HEADLINE.name}: {call.crate}::{call.name} doesn't ensure `{law}`")
    for field in fields:
        if not re.search(rf"^ +pub {field} :", text, re.MULTILINE):
            fail(f"{HEADLINE.name}: {call.crate}::{call.name}: `{law}` has no field `{field}`")


def segments_of(line: str) -> list[str]:
    """What may begin with names, of a point or of a row's first and last cells."""
    if line.startswith("| "):
        cells = line.strip("| ").split(" | ")
        return [cells[0], *cells[-1].split("; ")]
    return line[2:].split("; ") if line.startswith("- ") else []


def cited_by_headline() -> set[Call]:
    """The calls that the headline's page cites, held to the clauses that it cites of them."""
    page = HEADLINE.read_text().partition("\n## What isn't covered\n")[0]
    types = re.findall(r"^\| `(\w+)::(\w+)` \|", page, re.MULTILINE)
    reader, calls = Reader({owner: crate for crate, owner in types}), set[Call]()
    # A point goes on in the lines that are indented.
    text = page.partition("\n## Its five parts\n")[2].replace("\n  ", " ")
    for line in text.splitlines():
        for segment in segments_of(line):
            calls.update(reader.segment(segment))
        for name in WITH_TYPE.findall(line):
            calls.update(reader.calls(name))
    return calls


def called(crates: list[str], name: str) -> list[Call]:
    """The calls of these crates that a row of promises names so."""
    each = name == EACH
    return [it for at in crates for it in (changing(at, "") if each else named_in(at, name))]


def hold_promise(crates: list[str], names: list[str], clauses: set[str], known: list[Call]) -> None:
    """Holds names and clauses of a row to the code. A name alone may be a clause of known calls."""
    place = f"of {' or '.join(crates)}"
    calls = {name: called(crates, name) for name in names}
    there = {clause for here in calls.values() for it in here for clause in it.promises}
    for clause in sorted(clauses - there):
        fail(f"{PROOFS.name}: {' and '.join(names)} {place} has no clause `{clause}`")
    for name, here in calls.items():
        having = [len(clauses & it.promises) for it in here]
        least = min(having, default=0) if name == EACH else max(having, default=0)
        if clauses and least < (1 if len(names) > 1 else len(clauses)):
            fail(f"{PROOFS.name}: {name} {place} lacks one of {sorted(clauses)}")
        if not here and not any(name in it.promises for it in known):
            fail(f"{PROOFS.name}: `{name}` is no public call {place}, and no clause of one")


def hold_row(crates: list[str], row: str, before: list[Call]) -> list[Call]:
    """Holds what a row of promises cites to the code. It gives the calls that it names, or those
    before."""
    named = list[Call]()
    for segment in row.split("; "):
        if found := PROMISE.match(segment):
            names = re.findall(r"`([\w:]+)`", found[1]) or [EACH]
            clauses = set(re.findall(r"`([\w:]+)`", found[2] or ""))
            hold_promise(crates, names, clauses, before + named)
            named += [it for name in names for it in called(crates, name)]
    return named or before


def hold_proofs() -> int:
    """Holds the tables of promises to the code, and counts their rows."""
    count = 0
    for section in PROOFS.read_text().split("\n## "):
        crates = [it for it in re.findall(r"`(\w+)`", section.partition("\n")[0]) if it in CRATES]
        before = list[Call]()
        for table in section.split("\n| Promise | Clause |\n")[1:]:
            for row in ROW.findall(table):
                before = hold_row(crates, row, before)
                count += 1
    return count
