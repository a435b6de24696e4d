"""Lines, with what the library makes of their bytes or their JSON."""

from __future__ import annotations

import json
from typing import Any, Optional

from bcs_proved import BytesError, Limits, Registry, TextError

# The members of a line by their names.
Line = dict[str, Any]

_LIMITS = Limits.standard()
# Values with more nodes have no line: five bytes can be two billion nodes.
_PRINTABLE = Limits(nodes=1_000_000)


class Verdicts:
    """Asks the library. Its calls have to agree with one another."""

    def __init__(self, registry: Registry) -> None:
        self._registry = registry

    def of_bytes(self, format: str, data: bytes) -> Optional[Line]:
        """The line for these bytes, or None if they are a value that is too large to be printed."""
        line: Line = {"format": format, "bytes": data.hex()}
        try:
            self._registry.scan(format, data, _LIMITS)
            if not self._is_printable(format, data):
                return None
            text = self._registry.decode_json(format, data, _LIMITS)
        except BytesError as refusal:
            # (a value whose JSON would nest too deep has no place)
            is_refused = refusal.place is not None
            return {**line, "refused": refusal.reason, "place": refusal.place} if is_refused else line
        if self._registry.encode_json(format, text, _LIMITS) != data:
            raise AssertionError(f"{format}: {data.hex()} and {text} aren't the same value")
        return {"format": format, "json": json.loads(text), "bytes": data.hex()}

    def _is_printable(self, format: str, data: bytes) -> bool:
        try:
            self._registry.scan(format, data, _PRINTABLE)
        except BytesError:
            return False
        return True

    def of_text(self, format: str, text: str) -> Line:
        line: Line = {"format": format, "text": text}
        try:
            return {**line, "bytes": self._registry.encode_json(format, text, _LIMITS).hex()}
        except TextError as refusal:
            # The pointer of NotJson is empty. Its line and column may change between versions, so they are left out.
            place = {} if refusal.reason == "NotJson" else {"place": refusal.at}
            return {**line, "refused": refusal.reason, **place}
