"""Limits on what a value may cost."""

from __future__ import annotations

import dataclasses
import operator
from typing import Optional

from .errors import LimitsError

__all__ = ["MOST_NODES", "Limits"]

_MOST_DEPTH = 500
MOST_NODES = 4294967295


@dataclasses.dataclass(frozen=True)
class Limits:
    """How deeply containers may nest, and how many nodes a value may have. Without `nodes`, methods that read
    bytes allow 16 nodes for each byte and 65,536 more, and fewer if the registry has names of more than 64 bytes. Those
    that read Python's values allow 16777216, and the bytes of lists of U8 aren't counted. The other methods allow
    4294967295. Raises LimitsError."""

    depth: int = _MOST_DEPTH
    nodes: Optional[int] = None

    def __post_init__(self) -> None:
        object.__setattr__(self, "depth", operator.index(self.depth))
        if self.nodes is not None:
            object.__setattr__(self, "nodes", operator.index(self.nodes))
        if not 0 <= self.depth <= _MOST_DEPTH:
            raise LimitsError("", message=f"a depth is from 0 to {_MOST_DEPTH}, not {self.depth}")
        if self.nodes is not None and not 0 <= self.nodes <= MOST_NODES:
            raise LimitsError("", message=f"a number of nodes is from 0 to {MOST_NODES}, not {self.nodes}")

    @classmethod
    def standard(cls) -> Limits:
        """The limits of the specification: 500 containers and 4294967295 nodes. Five bytes can have that many nodes,
        which take some gigabytes of memory, so don't use these limits for bytes from strangers."""
        return cls(nodes=MOST_NODES)
