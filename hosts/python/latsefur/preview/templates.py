"""Messages to begin with. The page shows those that its sign accepts."""
from __future__ import annotations

from pathlib import Path
from typing import Optional

from ..library import PathLike

BUILT_IN = (
    "ROAD WORK[nl]AHEAD",
    "ROAD WORK[nl]NEXT 5 MILES",
    "ROAD[nl]WORK[nl]AHEAD",
    "RIGHT LANE[nl]CLOSED[nl]AHEAD",
    "LEFT LANE[nl]CLOSED[nl]1 MILE",
    "CRASH[nl]AHEAD[np]USE[nl]CAUTION",
    "CRASH AHEAD[nl]2 LEFT LANES[nl]CLOSED",
    "[fl]SLOW[/fl][nl]DOWN",
    "ICE ON[nl]BRIDGE[nl]SLOW DOWN",
    "FOG AHEAD[nl]REDUCE[nl]SPEED",
    "FLOODED[nl]ROAD[nl]TURN BACK",
    "EXIT 12[nl]CLOSED[np]USE[nl]EXIT 14",
    "TRAVEL TIME[nl]AIRPORT 14 MIN",
    "[pt20o0]DELAYS[nl]AHEAD[np][pt20o0]EXPECT[nl]20 MIN",
    "EVENT[nl]TRAFFIC[nl]EXIT 7",
    "AMBER ALERT[np]TUNE[nl]RADIO",
)


def templates(path: Optional[PathLike] = None) -> list[str]:
    """The templates of a file: each line is a message, but an empty one and one that begins with `#`. Without a file those of this module.

    Raises `OSError` if the file can't be read."""
    if path is None:
        return list(BUILT_IN)
    lines = Path(path).read_bytes().decode("latin-1").split("\n")
    return [line.rstrip("\r") for line in lines if line.strip() and not line.startswith("#")]
