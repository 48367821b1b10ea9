"""Files that are next to this module in the repository, in the tarball, where that was installed, and in
Debian's packages; and the standard output of the module's programs."""

from __future__ import annotations

import os
import sys
from pathlib import Path
from typing import Callable


def find(repository: str, installed: str) -> Path:
    """The path of a file or directory, from its name in the repository and its name below share/pciguest. In
    the repository and in the tarball, this module is three and two directories below the top; in Debian's
    packages, it is in dist-packages."""
    here = Path(__file__).resolve().parents
    tops = [here[3] / repository, here[2] / installed, here[min(4, len(here) - 1)] / "share/pciguest" / installed]
    for top in tops:
        if top.exists():
            return top
    raise FileNotFoundError(f"{installed} of pciguest stands in none of {', '.join(map(str, tops))}")


def told_whole(main: Callable[[], int]) -> int:
    """Runs a program and returns its status, which is 2 if its whole output can't be written, as in a pipe to
    `head`."""
    try:
        status = main()
        sys.stdout.flush()
        return status
    except BrokenPipeError:
        os.dup2(os.open(os.devnull, os.O_WRONLY), sys.stdout.fileno())
        print("standard output was closed before all was told", file=sys.stderr)
        return 2
