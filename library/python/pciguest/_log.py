"""The lines of firmware in a file, each with its number and its reply, and before it what the firmware had printed
on its standard error by then."""

from __future__ import annotations

from itertools import zip_longest
from pathlib import Path
from typing import Iterator

from ._firmware_run import Run


def lines_of(run: Run) -> Iterator[str]:
    width = len(str(len(run.lines)))
    for count, (line, reply) in enumerate(zip_longest(run.lines, run.replies), 1):
        yield from printed(run, count)
        first, *more = (reply or "").splitlines() or [""]
        yield f"{count:{width}} {line} -> {first}" if reply is not None else f"{count:{width}} {line}"
        yield from (f"{'':{width}}   {each}" for each in more)
    yield from printed(run, len(run.lines) + 1)


def printed(run: Run, count: int) -> Iterator[str]:
    """The lines that were printed before a line, or after the last one."""
    return (f"# {each}" for each in run.printed.get(count, "").splitlines())


def write(file: str, name: str, run: Run) -> None:
    Path(file).write_text("".join(f"{line}\n" for line in [f"# on {name}", *lines_of(run)]))
