"""A prompt for the machine of a board file: python3 -m pciguest board.toml"""

from __future__ import annotations

import argparse
import os
import sys
from pathlib import Path
from typing import Optional

from . import BoardRefusal, Refusal
from ._prompt import Prompt


def history() -> Path:
    """The file in which the prompt keeps its history."""
    state = os.environ.get("XDG_STATE_HOME") or Path.home() / ".local" / "state"
    return Path(state) / "pciguest" / "history"


def edit_lines(prompt: Prompt) -> None:
    """Turns on editing, completion and history, if this Python supports them."""
    try:
        import atexit
        import readline
    except ImportError:
        return

    def complete(word: str, nth: int) -> Optional[str]:
        found = prompt.words(readline.get_line_buffer()[: readline.get_begidx()], word)
        return found[nth] if nth < len(found) else None

    def keep() -> None:
        try:
            history().parent.mkdir(parents=True, exist_ok=True)
            readline.write_history_file(str(history()))
        except OSError:
            pass

    readline.set_completer(complete)
    readline.set_completer_delims(" \t=")
    readline.parse_and_bind("tab: complete")
    try:
        readline.read_history_file(str(history()))
    except OSError:
        pass
    readline.set_history_length(1000)
    atexit.register(keep)


def main() -> int:
    """Runs the prompt on standard input."""
    words = argparse.ArgumentParser(prog="python3 -m pciguest", description=__doc__)
    words.add_argument("board", metavar="BOARD")
    board = words.parse_args().board
    try:
        prompt = Prompt(Path(board).read_bytes(), board, print)
    except BoardRefusal as refusal:
        print(refusal.text, end="", file=sys.stderr)
        return 1
    except (OSError, Refusal) as error:
        print(f"pciguest: {error}", file=sys.stderr)
        return 1
    shown = "pciguest> " if sys.stdin.isatty() else ""
    if shown:
        print(f"{board}: {prompt.machine.count()} functions, guests {' '.join(prompt.guests) or 'none'}. 'help' lists the commands.")
        edit_lines(prompt)
    try:
        while prompt.run(input(shown)):
            pass
    except (EOFError, KeyboardInterrupt):
        if shown:
            print()
    return 0


if __name__ == "__main__":
    sys.exit(main())
