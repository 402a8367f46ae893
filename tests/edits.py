"""The must-fail edits: what each guards, and the functions and clauses of the code.

An edit is a wrong body that the prover must refuse, crates/CRATE/must-fail/NAME.edit. Its first
line says what it guards, and `rt` passes over it:

    guards: CRATE::CALL: CLAUSE
    guards: CRATE::CALL: CLAUSE; WHAT ELSE IT SHOWS

CALL is the function that isn't proved with the edit, with its type if it is a method, and CLAUSE
the name of the clause of its contract that the edit breaks, or `ensures` for its one clause without
a name. Where no clause speaks of it, CLAUSE is `what NAME requires`, of a call or a type that the
body makes, or `the invariant of NAME`. Of several edits that guard one clause all but one say what
else they show.
"""
from __future__ import annotations

import re
from functools import lru_cache
from pathlib import Path
from typing import Iterator, NamedTuple

from harness import TOP, fail

GUARDS = re.compile(r"guards: (\w+)::([\w:]+): ([^;]+)(?:; (.+))?")
FUNCTION = re.compile(r"( *)(?:pub(?:\(\w+\))? )?(?:unsafe )?(?:extern \"C\" )?fn (\w+)")
OWNER = re.compile(r"(?:pub(?:\(\w+\))? )?(?:impl|trait)\b.*?(\w+)(?:<[^{]*>)? *(?:\{|where|$)")


class Edit(NamedTuple):
    """An edit: its crate and name, the function and the clause that it guards, and what else it
    shows."""

    crate: str
    name: str
    call: str
    clause: str
    more: str

    @property
    def guard(self) -> str:
        """What it guards, as its line has it."""
        return f"{self.crate}::{self.call}: {self.clause}"


def edit_of(path: Path) -> Edit:
    """The edit of a file."""
    crate, first = path.parts[-3], (path.read_text().splitlines() or [""])[0]
    found = GUARDS.fullmatch(first)
    if not found or found[1] != crate:
        fail(f"{path.relative_to(TOP)} begins with no line `guards: {crate}::CALL: CLAUSE`")
    return Edit(crate, path.stem, found[2], found[3], found[4] or "")


def edits() -> list[Edit]:
    """All edits, by crate and name."""
    return [edit_of(it) for it in sorted(TOP.glob("crates/*/must-fail/*.edit"))]


def function_at(path: Path, line: int) -> str:
    """The function that a line of a file of code stands in, with its type. An attribute is its
    function's first line."""
    lines = path.read_text().splitlines()
    while line < len(lines) and lines[line - 1].lstrip().startswith(("#[", "//")):
        line += 1
    lines = lines[:line]
    for number in range(len(lines) - 1, -1, -1):
        found = FUNCTION.match(lines[number])
        if found:
            indent, name = found.groups()
            owners = [OWNER.match(it) for it in lines[:number]]
            owner = next((it[1] for it in reversed(owners) if it), "") if indent else ""
            return f"{owner}::{name}" if owner else name
    return path.name


def contracts(crate: str) -> Iterator[tuple[str, list[str]]]:
    """Each function of a crate, with the names of what it ensures, "" for a clause without one."""
    for path in sorted((TOP / "crates" / crate / "src").rglob("*.rt")):
        lines = path.read_text().splitlines()
        for number, line in enumerate(lines, 1):
            if FUNCTION.match(line):
                body = next(
                    (
                        it
                        for it in range(number - 1, len(lines))
                        if re.fullmatch(r" *\{\}?|.*[^}] \{|.*;", lines[it])
                    ),
                    len(lines),
                )
                contract = "\n".join(lines[number : body + 1])
                clauses = re.findall(r"\bensures\*? ?(\w*) *\{", contract)
                yield function_at(path, number), clauses


@lru_cache(maxsize=None)
def contracts_of(crate: str) -> dict[str, tuple[str, ...]]:
    """The same by their names. Functions of one name are taken together."""
    found: dict[str, tuple[str, ...]] = {}
    for function, clauses in contracts(crate):
        found[function] = found.get(function, ()) + tuple(clauses)
    return found


def clauses_of(crate: str, function: str) -> tuple[str, ...]:
    """The names of what a function ensures. A method of a trait without a contract of its own has
    that of the trait."""
    found, name = contracts_of(crate), function.split("::")[-1]
    own = found.get(function, ())
    return own or tuple(
        clause
        for other, clauses in found.items()
        if other.endswith(f"::{name}") and function != name
        for clause in clauses
    )
