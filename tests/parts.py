#!/usr/bin/env python3
"""Runs parts one after the other, and tells at the end how long each took, and all together.

    tests/parts.py COMMAND.. [ COMMAND.. ] ..
    tests/parts.py --outside TARGET..

Each COMMAND is a line for bash, and after the first that fails none begins. Those between brackets run side by side, and
what each writes is shown once it has ended, or as it comes where it is parts itself. A command's last line 'N passed, M
failed' is counted, or else that it ended well. Lines 'skipped: WHAT (WHY)' right above it are told at the
end too; with CI=true such a line fails where it names a package of Debian, as 'skipped: the crates (no cargo: apt-get install
cargo)'. With --outside each part is a target of make: all are made, whether or not others fail, but for those of which
tests/needs says what is missing here. The last line is 'N passed, M failed'."""
import os
import re
import subprocess
import sys
import threading
import time
from concurrent.futures import ThreadPoolExecutor

COUNTS = re.compile(r"(?:.*: )?(\d+) passed, (\d+) failed")
SKIPPED = "skipped: "
SHOWING = threading.Lock()
# the letters of a command by which it is named at the end
LONG = 60


def in_words(seconds):
    seconds = int(seconds + 0.5)
    return f"{seconds // 60:3} min {seconds % 60:2} s"


def failing(skipped):
    """How many of these skips fail: where CI is true, those that a package of Debian would have avoided."""
    return sum("apt-get install" in it for it in skipped) if os.environ.get("CI") == "true" else 0


def run(name, command, is_beside=False):
    """Runs a part, and returns what is told of it at the end, how many passed and failed, and what was skipped. What it writes is
    shown as it comes, or once it has ended where others run beside it."""
    began, last, kept, skipped = time.monotonic(), "", [], []
    show = kept.append if is_beside else lambda text: print(text, end="", flush=True)
    show(f"== {name}\n")
    how = {"stdout": subprocess.PIPE, "stderr": subprocess.STDOUT, "text": True, "errors": "replace"}
    with subprocess.Popen(["bash", "-eu", "-o", "pipefail", "-c", command], **how) as ran:
        for line in ran.stdout:
            show(line)
            last = line.strip() or last
            if line.startswith(SKIPPED):
                skipped.append(line[len(SKIPPED):].strip())
            elif not COUNTS.fullmatch(last):
                skipped.clear()
    with SHOWING:
        print("".join(kept), end="", flush=True)
    counts = COUNTS.fullmatch(last)
    passed, failed = map(int, counts.groups()) if counts else (int(not ran.returncode), 0)
    failed = failed or int(ran.returncode != 0)
    if not command.startswith("tests/parts.py "):
        failed, skipped = failed + failing(skipped), [f"{name}: {it}" for it in skipped]
    name = name if len(name) <= LONG else f"{name[:LONG]} .."
    return f"{in_words(time.monotonic() - began)}  {name}: {passed} passed, {failed} failed", passed, failed, skipped


def run_in_turn(words):
    """Runs commands in turn up to the first that fails, those between brackets side by side."""
    rows = []
    while words and not any(failed for _, _, failed, _ in rows):
        end = words.index("]") if words[0] == "[" else 0
        group, words = words[1:end] or words[:1], words[end + 1:]
        with ThreadPoolExecutor(len(group)) as pool:
            rows += pool.map(lambda it: run(it, it, len(group) > 1 and not it.startswith("tests/parts.py ")), group)
    return rows


def run_outside(target):
    """Makes a target that stands outside the gate."""
    needs = subprocess.run(["tests/needs", target], stdout=subprocess.PIPE, stderr=subprocess.STDOUT, text=True)
    if needs.returncode == 1:
        return f"{'':12}  make {target}: skipped: {'; '.join(needs.stdout.strip().splitlines())}", 0, 0, []
    return run(f"make {target}", f"make --no-print-directory {target}")


def main(words):
    began = time.monotonic()
    rows = [run_outside(it) for it in words[1:]] if words[:1] == ["--outside"] else run_in_turn(words)
    print("== how long each part took", *(it[0] for it in rows), f"{in_words(time.monotonic() - began)}  in all", sep="\n")
    passed, failed = (sum(it[at] for it in rows) for at in (1, 2))
    print("".join(f"{SKIPPED}{it}\n" for row in rows for it in row[3]), end="")
    print(f"{passed} passed, {failed} failed")
    return int(failed > 0)


if __name__ == "__main__":
    try:
        sys.exit(main(sys.argv[1:]))
    except KeyboardInterrupt:
        sys.exit(130)
