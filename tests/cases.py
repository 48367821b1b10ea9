#!/usr/bin/env python3
"""What the program is asked, and what it has to answer: the demo, the files of tests/rows, the boards and scripts of
`boards`, and the sessions and audits of the examples, with what stands beside them. tests/audit_json.py makes of an
audit's lines what `audit --json` writes.

    tests/cases.py PROGRAM [LONE_ANSWERS]

asks all of that of a program. LONE_ANSWERS, the program of the crate test_lone_guest, is asked the scripts of those rows
whose board has a file of guests beside it. The last line is 'N passed, M failed'. tests/program.sh asks the proved
program so, `make fuzz` the lone guests too, and tests/quick.py a program that was only compiled.

In boards/expected.txt, and in boards/refused for the boards that are refused, a section begins with '== BOARD' (its
report, of which tests/report_json.py makes what `list --json` writes), '== check BOARD' or '== check --all BOARD', either with ' with excerpts' after it (on a terminal), '== SCRIPT over BOARD'
or '== SCRIPT over BOARD at reset' (firmware's lines), and ends with a line 'fault N WORDS' where the program does.

In tests/rows a section begins with '== run BOARD: TITLE', '== firmware BOARD: TITLE' or '== ready BOARD: TITLE' and has
rows 'LINE -> REPLY', of one script, where ' -> REPLY' is one more line of an answer; a last row 'fault N WORDS' is the
program's end. Or it begins with '== list BOARD: TITLE' and has rows 'OLD | NEW | FAULT', each of a board that is refused; or with
'== check BOARD: TITLE' and has rows 'OLD | NEW | LINE | MARKED', of which a check on a terminal shows that line, with marks below
these bytes of it, and nothing else. NEW stands in the place where OLD stood first in the board's file, as it does after a row
'with OLD | NEW' for the whole section; in both '\\t' is a tab, '\\n' ends a line, and '#{N}' is N of these. A board lies in
tests/rows or in boards.
"""
import dataclasses
import os
import pathlib
import re
import subprocess
import sys
import tempfile
from concurrent.futures import ThreadPoolExecutor

import audit_json
import report_json

TOP = pathlib.Path(__file__).resolve().parent.parent
ROWS, BOARDS, REFUSED = TOP / "tests/rows", TOP / "boards", TOP / "boards/refused"
# the seconds that the program has for a case
SECONDS = 240
# any end of the program with a fault
ANY_FAULT = "any"
# the heads of sections of boards/expected.txt
FORMS = [
    r"(?P<board>\S+)",
    r"(?P<check>check)(?P<all> --all)? (?P<board>\S+)(?P<excerpts> with excerpts)?",
    r"(?P<script>\S+) over (?P<board>\S+)(?P<reset> at reset)?",
]
# a command of examples/audit/README.md, what it prints, and the fault below
AUDIT = re.compile(r"^\$ cat examples/audit/\{?([\w,]+)\}?\.script \| \./pciguest (audit|ready) \S+ (?:2>&1 )?\| grep \2\n"
                   r"((?:\2: .*\n)+)(?:pciguest: fault (.*)\n)?", re.M)


@dataclasses.dataclass
class Case:
    """One run of the program: its words, the files that they name, its standard input, and what it has to write."""

    name: str
    words: list
    script: bytes
    wanted: list
    files: dict = dataclasses.field(default_factory=dict)
    # what the program says in place of an answer, or at its end, as '107 size'
    fault: str = ""
    # the lines of the answer that are looked at, where those of an audit alone are
    only: str = ""
    on_terminal: bool = False
    # asked of the lone guests in place of the program
    of_lone: bool = False


# ---- what stands beside the program

def lines_of(file):
    return file.read_text(encoding="utf-8").rstrip("\n").split("\n")


def sections_of(file):
    """The sections of a file: the words after '== ', and the lines below them."""
    head, found = "", []
    for line in [*lines_of(file), "== "]:
        if line.startswith("== "):
            if head:
                yield head, found
            head, found = line[3:], []
        else:
            found.append(line)


def board_files(name, text=None):
    """The file of a board, with this text in place of its own; none, where there is no such board."""
    file = next((it / name for it in (ROWS, BOARDS, REFUSED) if (it / name).is_file()), None)
    return {name: file.read_bytes() if text is None else text.encode()} if file else {}


def demo():
    script, wanted = (TOP / "crates/pciguest/stdin", TOP / "crates/pciguest/stdout")
    yield Case("demo", ["demo"], script.read_bytes(), lines_of(wanted))


def without_fault(lines):
    """The lines of an answer, and the fault at its end."""
    if lines and lines[-1].startswith("fault "):
        return lines[:-1], lines[-1][len("fault "):]
    return lines, ""


def boards():
    """The boards and scripts of `boards`, with what is expected beside them."""
    for file in (BOARDS / "expected.txt", REFUSED / "expected.txt"):
        sections = dict(sections_of(file))
        for head, lines in sections.items():
            found = next((it for it in (re.fullmatch(form, head) for form in FORMS) if it), None)
            if not found:
                raise ValueError(f"{file}: a section of no form: {head}")
            yield from board_cases(found.groupdict(), lines, sections)


def board_cases(said, lines, sections):
    """The cases of such a section."""
    board, script = said["board"], said.get("script")
    verb = ("firmware" if said["reset"] else "run") if script else "check" if said.get("check") else "list"
    words, given = [verb, *["--all"] * bool(said.get("all"))], b""
    name = " ".join([*words, board])
    if script:
        name, given = f"{name} < {script}", (BOARDS / script).read_bytes()
    wanted, fault = without_fault(lines)
    case = Case(name, [*words, board], given, wanted, board_files(board), fault)
    if verb == "list" and not fault:
        as_json = [report_json.text_of(wanted, case.files[board].decode())]
        yield dataclasses.replace(case, name=f"list --json {board}", words=["list", "--json", board], wanted=as_json)
    if not said.get("excerpts"):
        yield case
        return
    on_terminal = dataclasses.replace(case, name=f"{name}, on a terminal", on_terminal=True)
    yield on_terminal
    plain = [*words, "--plain", board]
    if name in sections:
        wanted = without_fault(sections[name])[0]
        yield dataclasses.replace(on_terminal, name=f"{name}, plain on a terminal", words=plain, wanted=wanted)
    else:
        # a plain check has the same lines, but for the excerpts
        wanted = [it for it in wanted if not re.match(r" +\d* *\|", it)]
        yield dataclasses.replace(case, name=f"{name}, plain", words=plain, wanted=wanted)


def session():
    """The board that firmware numbers by hand and hands over to guests; and what is said of it as guests have it."""
    folder = TOP / "examples/session"
    script, board = (folder / "session.script").read_bytes(), (folder / "board.toml").read_bytes()
    files = {"session/board.toml": board}
    wanted = lines_of(folder / "session.stdout")
    yield Case("firmware examples/session/board.toml < session.script", ["firmware", *files], script, wanted, files)
    for verb in ("audit", "ready"):
        told = [*wanted, f"{verb}: ok"]
        yield Case(f"{verb} examples/session/board.toml < session.script", [verb, *files], script, told, files)
    words, told = ["audit", "--json", *files], [*wanted, audit_json.text_of(["audit: ok"], board.decode())]
    yield Case("audit --json examples/session/board.toml < session.script", words, script, told, files)


def audits():
    """The broken firmware of examples/audit, with what its README.md prints."""
    folder = TOP / "examples/audit"
    text, files = (folder / "README.md").read_text(encoding="utf-8"), {"audit/board.toml": (folder / "board.toml").read_bytes()}
    found = AUDIT.findall(text)
    # one for each script, and one more for that which leaves nothing to do
    if len(found) != len(list(folder.glob("*.script"))) + 1:
        raise ValueError("examples/audit/README.md: not one command for each script")
    for names, verb, wanted, fault in found:
        scripts = [f"{it}.script" for it in names.split(",")]
        given = b"".join((folder / it).read_bytes() for it in scripts)
        name = f"{verb} examples/audit/board.toml < {' '.join(scripts)}"
        yield Case(name, [verb, *files], given, wanted.splitlines(), files, fault, only=verb)
        if verb == "audit":
            as_json = [audit_json.text_of(wanted.splitlines(), files["audit/board.toml"].decode())]
            yield Case(f"{name}, --json", [verb, "--json", *files], given, as_json, files, only='"problems"')


# ---- tests/rows

def in_full(text):
    """A text of a row as it stands in a board's file."""
    text = text.replace("\\t", "\t").replace("\\n", "\n")
    return re.sub(r"#\{(\d+)\}", lambda it: "#" * int(it[1]), text)


def excerpt(text, line, marked):
    """What a check shows of a line of a board's file, with marks below some bytes of it, if any are named."""
    lines = text.split("\n")
    number = next(place for place, it in enumerate(lines, 1) if line in it)
    shown, margin = lines[number - 1], len(f" {number}")
    before = re.sub(r"[^\t]", " ", shown[:shown.index(marked)])
    marks = [f"{'':{margin}} | {before}{'^' * len(marked)}"] if marked else []
    return [f" {number} | {shown}", *marks]


class Section:
    """A section of a file of rows."""

    def __init__(self, file, head, count):
        self.title = f"rows/{file.name}: {head.partition(': ')[2]}"
        self.verb, _, self.board = head.partition(":")[0].partition(" ")
        self.text = board_files(self.board)[self.board].decode()
        self.is_changed, self.asked, self.replies, self.fault = False, [], [], ""
        # each board of a section has a folder of its own
        self.folder, self.count = f"rows{count}", 0

    def put(self, old, new):
        """The board with one text in the place of another."""
        old, new = in_full(old), in_full(new)
        if old not in self.text:
            raise ValueError(f"{self.title}: no '{old}' in {self.board}")
        return self.text.replace(old, new, 1)

    def files(self, text):
        self.count += 1
        return {f"{self.folder}-{self.count}/{self.board}": text.encode()}

    def take(self, row):
        """Takes a row, and gives the cases that it is by itself."""
        parts = [it.strip() for it in row.split("|")]
        if row.startswith("with ") and len(parts) == 2:
            self.text, self.is_changed = self.put(row[5:].partition("|")[0].rstrip(), parts[1]), True
        elif len(parts) == 3:
            files = self.files(self.put(parts[0], parts[1]))
            name = f"{self.title}: list {self.board} with '{parts[1]}' in place of '{parts[0]}'"
            yield Case(name, ["list", *files], b"", [], files, parts[2])
        elif len(parts) == 4:
            text = self.put(parts[0], parts[1])
            name = f"{self.title}: check {self.board} with '{parts[1]}' in place of '{parts[0]}'"
            wanted, files = excerpt(text, in_full(parts[2]), parts[3]), self.files(text)
            yield Case(name, ["check", *files], b"", wanted, files, ANY_FAULT, only=" | ", on_terminal=True)
        elif row.startswith("fault "):
            self.fault = row[len("fault "):]
        elif " -> " in row:
            line, _, reply = row.rpartition(" -> ")
            self.asked.append(line.rstrip(" "))
            self.replies.append(reply)
        else:
            raise ValueError(f"{self.title}: a row of no form: {row}")

    def cases(self):
        """The script of a section, once its rows are taken."""
        if not self.asked:
            return
        script, files = "".join(f"{it}\n" for it in self.asked).encode(), self.files(self.text)
        name = f"{self.title}: {self.verb} {self.board}"
        yield Case(name, [self.verb, *files], script, self.replies, files, self.fault)
        guests = ROWS / f"{pathlib.Path(self.board).stem}.guests"
        if self.verb == "run" and not self.is_changed and guests.is_file():
            # what the host reads, no lone guest answers
            reads, bad = re.compile(r"host [cim]r "), "host: refused 401 bad line"
            pairs = [it for it in zip(self.asked, self.replies) if not reads.match(it[0]) or it[1] == bad]
            yield Case(f"{name}, by lone guests", [str(guests)], script, [it[1] for it in pairs], of_lone=True)


def rows():
    count = 0
    for file in sorted(ROWS.glob("*.rows")):
        for head, lines in sections_of(file):
            count += 1
            section = Section(file, head, count)
            for row in lines:
                if row and not row.startswith("#"):
                    yield from section.take(row)
            yield from section.cases()


def cases():
    return [*demo(), *rows(), *boards(), *session(), *audits()]


# ---- what is told of an answer

def asked_lines(script):
    """The lines of a script that are answered."""
    lines = [it.strip(b" \t\r") for it in script.split(b"\n")]
    return [it.decode(errors="replace") for it in lines if it and not it.startswith(b"#")]


def told(text):
    """The lines of a fault of the program, or of anything else that it says on standard error."""
    return " ".join(text.split("\n")).strip()[:300] or "nothing"


def difference(case, status, out, err):
    """What is wrong with an answer, line by line; nothing where it is as it has to be."""
    lines = out.split("\n")
    last = lines.pop()
    lines = [it for it in lines + [last] * bool(last) if case.only in it]
    wrong = []
    asked = asked_lines(case.script)
    for place in range(max(len(lines), len(case.wanted))):
        pair = [it[place] if place < len(it) else None for it in (case.wanted, lines)]
        if pair[0] != pair[1]:
            of = f" `{asked[place]}`" if len(asked) == len(case.wanted) and place < len(asked) else ""
            wrong.append(f"line {place + 1}{of}: " + ", ".join(
                f"{what} {'nothing' if it is None else f'`{it}`'}" for what, it in zip(("wanted", "came"), pair)))
    if len(wrong) > 3:
        wrong[3:] = [f"and {len(wrong) - 3} lines more"]
    if last and not wrong:
        wrong.append("the last line has no line feed")
    fault = f"pciguest: fault {case.fault}" if case.fault else ""
    # a line may tell more below it
    err = re.sub(r"(?m)^script:.*\n", "", err)
    first = fault if case.fault == ANY_FAULT and status == 1 else err.partition("\n")[0]
    if (status, first) != (1 if fault else 0, fault):
        wrong.append(f"standard error: wanted {told(fault)}, came {told(err)} with status {status}")
    return wrong


def tell(case, wrong):
    print(f"FAILED: {case.name}", *(f"  {it}" for it in wrong), sep="\n", flush=True)


# ---- a program that is there

def run(program, case, room):
    """What a program answers: its status, and what it wrote."""
    how = {"cwd": room, "input": case.script, "stdout": subprocess.PIPE, "stderr": subprocess.PIPE, "timeout": SECONDS}
    words = [program, *case.words]
    if case.on_terminal:
        # a terminal has one stream, and returns before line feeds
        spawn = ("import os, pty, sys; it = pty.spawn(sys.argv[1:]); "
                 "sys.exit(os.WEXITSTATUS(it) if os.WIFEXITED(it) else 128 + os.WTERMSIG(it))")
        ran = subprocess.run([sys.executable, "-c", spawn, *words], **how)
        out, fault, said = ran.stdout.decode(errors="replace").replace("\r", "").partition("pciguest: ")
        return ran.returncode, out, fault + said
    ran = subprocess.run(words, **how)
    return ran.returncode, ran.stdout.decode(errors="replace"), ran.stderr.decode(errors="replace")


def ask(program, case, room):
    try:
        return difference(case, *run(program, case, room))
    except subprocess.TimeoutExpired:
        return [f"it had not ended after {SECONDS} seconds"]


def write_files(cases, room):
    """Writes the boards of these cases below a folder."""
    for case in cases:
        for name, data in case.files.items():
            file = pathlib.Path(room, name)
            file.parent.mkdir(parents=True, exist_ok=True)
            file.write_bytes(data)


def main(words):
    if not 1 <= len(words) <= 2:
        print("usage: tests/cases.py PROGRAM [LONE_ANSWERS]", file=sys.stderr)
        return 2
    programs = [os.path.realpath(it) for it in words]
    asked = [it for it in cases() if not it.of_lone or len(programs) == 2]
    with tempfile.TemporaryDirectory() as room, ThreadPoolExecutor(os.cpu_count()) as pool:
        write_files(asked, room)
        answers = [pool.submit(ask, programs[it.of_lone], it, room) for it in asked]
        wrong = [(it, answer.result()) for it, answer in zip(asked, answers) if answer.result()]
    for it in wrong:
        tell(*it)
    print(f"{len(asked) - len(wrong)} passed, {len(wrong)} failed")
    return 1 if wrong else 0


if __name__ == "__main__":
    sys.exit(main(sys.argv[1:]))
