"""Why a sign takes or refuses a text, as the library says it."""
from __future__ import annotations

from typing import Any, Optional

from ..errors import LatsefurError
from ..sign import Sign


class Reasons:
    """A sign that is asked why. The last answer is kept: each moment of a message that plays is asked for with its words."""

    def __init__(self, sign: Sign) -> None:
        self.sign = sign
        self.last: Optional[tuple[bytes, dict[str, Any]]] = None

    def explained(self, text: bytes) -> Optional[dict[str, Any]]:
        """What `Sign.explain` says of a text. `None` if it can't be asked: memory is refused, say, or the library is older than this call."""
        known = self.last
        if known and known[0] == text:
            return known[1]
        try:
            record = self.sign.explain(text)
        except (LatsefurError, AttributeError):
            return None
        self.last = text, record
        return record
