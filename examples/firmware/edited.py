#!/usr/bin/env python3
"""Writes a file of an example with one mistake: edited.py mistakes/MISTAKE.edit > COPY"""
import sys
from pathlib import Path


def edited(edit):
    """The text of the file that an edit names, in the directory above the edit's, with one change. The old text occurs once."""
    said = dict(line.split(": ", 1) for line in Path(edit).read_text().splitlines())
    text = (Path(edit).resolve().parents[1] / said["file"]).read_text()
    if text.count(said["old"]) != 1:
        sys.exit(f"{edit}: its text is not there once")
    return text.replace(said["old"], said["new"])


if __name__ == "__main__":
    sys.stdout.write(edited(sys.argv[1]))
