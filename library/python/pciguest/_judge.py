"""Finds out, with the line `host ready`, what is wrong in the registers that firmware left and what is left to
do."""

from __future__ import annotations

import re
from typing import List

from ._driven import DrivenBoard
from ._ending import ENDINGS

#: each kind of finding about the resulting board, and words that only its lines contain
LEFT = {
    "unforwarded": "is not forwarded by",
    "contended": "address conflict",
    "unreached": "a configuration cycle",
    "closed": "decode is disabled",
    "outside": "is outside the apertures",
    "prefetched": "as prefetchable",
    "primary": "Primary Bus Number is",
}
#: kinds of findings about lines, which begin with the kind; a transient may have gone by the end
TRANSIENTS = ["moved", "ones", "reset", "overlap", "status"]
KINDS = [*LEFT, *ENDINGS, "sizing", "room", *TRANSIENTS]


def kind_of(finding: str) -> str:
    kind = finding.partition(":")[0]
    return kind if kind in KINDS else next(kind for kind, words in LEFT.items() if words in finding)


def findings(board: DrivenBoard) -> List[str]:
    """Everything that is wrong in the registers or left to do, one line each. Changes nothing on the board."""
    return board.ready_text().splitlines()[:-1]


def same_problem(finding: str) -> str:
    """The part of a finding that identifies the problem, without addresses and numbers."""
    return re.sub(r"0x[0-9a-f]+|a configuration cycle to .*|Primary Bus Number is .*", "", finding)
