#!/usr/bin/env python3
"""Tries edits: wrong bodies, each of which the check of its crate must refuse.

    tests/edits.py [--gate [--behind]] [--anew] [CRATE..]

They are those beside the gate, tests/edits/CRATE/*.edit, or with --gate those of the gate, crates/CRATE/must-fail/*.edit, of
all crates or of these. What they stand on is proved first, where no earlier run has kept that. With --behind something else
proves it meanwhile: edits of a crate are tried as soon as that is proved, with the processors that the proofs leave idle. A
file NAME.twin beside NAME.edit is its neutral twin, which has the edit's shape and changes nothing: the check must prove it.
Where tests/named.txt has a line for an edit, the clause that stands there has to be among those that refuse it.

An edit of one function is put into a copy of that function, of another name, with its contract and its proofs; so one check
of a crate tries many, also of one function, and of functions that call each other. It checks these copies alone, with what
they call, and one copy more of each function as it stands. An edit is refused where the check names its copy, for a goal or
an answer of that function itself, and proves the copy as it stands. Other edits, as of a struct, are put into the function
where it stands, each in a check of its own of the functions that it changes. What gets no verdict so is tried alone in a
check of the whole crate, by the compiler, or by `rt check` in a copy of the repository where that can't be called so.

Each verdict is told once it is there; the last line is 'N passed, M failed'. One that is as it must be is kept, by the sum
of all that it rests on: a later run tells it again, and tries it only with --anew."""
import fcntl
import functools
import itertools
import os
import pathlib
import re
import shutil
import subprocess
import sys
import tempfile
import time
from concurrent.futures import ThreadPoolExecutor

TOP = pathlib.Path(__file__).resolve().parent.parent
sys.dont_write_bytecode = True
sys.path.insert(0, f"{TOP}/tools")
import kit

# the memory that is free before a check begins: a check of most crates takes less than half of it, and proofs may run beside
FOR_CHECK = 7_000_000_000
# how many edits are tried in one check at most; each check proves anew what the edited functions call
IN_ONE = 16
# the seconds after which proofs have begun, if they ever do
BEGUN = 60
# the goals that a check tells to be open
GOALS = re.compile(r"(?<=did not prove ).*|(?<= error: )`[\w-]+`")
# what is said where an edit took away a name, which says little of the contract, or where a text can't be read
NAMES = re.compile(r"has no field|is not in scope|has no `|was not admitted|which was rejected")
UNREAD = re.compile(r"(?:\./)?(?:src|specs)/\S+:\d+:\d+: error: (?:(?!`)|.*(?:is not in scope|has no field))")
HEAD = re.compile(r'^( *)(?:pub(?:\([a-z]+\))? )?(?:const )?(?:unsafe )?(?:extern "C" )?fn (\w+)')
TYPE = re.compile(r"^(?:pub(?:\([a-z]+\))? )?(?:struct|enum|union) (\w+)", re.M)
IMPL = re.compile(r"^impl(?:<([^{]*?)>)? (?:(\w+)(?:<([^{]*?)>)? for )?(\w+)")


# ---- the functions of a crate

class Function:
    """A function of the source: its name, as a check tells it, and its text with what stands above it for it."""

    def __init__(self, path, is_of_trait, first, lines):
        self.path, self.is_of_trait = path, is_of_trait
        ends = (f"{re.match(' *', lines[first])[0]}}}", "}")
        last = next((it for it in range(first, len(lines)) if lines[it] in ends), first) + 1
        while re.match(r" *///", lines[first - 1]) or lines[first - 1].strip() and lines[first - 1][-1] not in "{};":
            first -= 1
        self.text = "\n".join(lines[first:last])

    def copied(self, number):
        """A copy of it under another name."""
        return re.sub(rf"^(.*\bfn {self.path.split('::')[-1]})\b", rf"\1_copy_{number}", self.text, count=1, flags=re.M)


def module_of(file):
    """The path of a file's module below the crate."""
    _, *path = pathlib.PurePath(file).with_suffix("").parts
    return path if path not in (["lib"], ["main"]) else []


def trait_of(impl):
    """The trait of an impl as a check tells it: with the types that it is taken at, but for the impl's own parameters."""
    own = re.findall(r"'?\w+", re.sub(r":[^,]*", "", impl[1] or ""))
    taken = [it for it in re.split(r", *", impl[3] or "") if it and it not in own]
    return (impl[2] or "") + "".join(word[0].upper() + word[1:] for it in taken for word in re.findall(r"\w+", it))


def beside(functions, text):
    """What stands in a text beside these functions of it."""
    return functools.reduce(lambda left, it: left.replace(it.text, ""), functions, text)


class Source:
    """The functions of a crate's source."""

    def __init__(self, crate, folder):
        self.crate, self.folder = crate, pathlib.Path(folder)
        files = sorted((self.folder / "src").rglob("*.rt"))
        self.texts = {str(it.relative_to(self.folder)): it.read_text(encoding="utf-8") for it in files}
        self.types = {name: module_of(file) for file, text in self.texts.items() for name in TYPE.findall(text)}
        self.functions = {file: [*self.functions_of(file, text)] for file, text in self.texts.items()}

    def functions_of(self, file, text):
        """The functions of a file. As `rt fmt` lays them out, each ends with a brace that stands where its head begins. A method
        has its type's name, where this stands."""
        owner, is_of_trait, lines = [], False, text.split("\n")
        for place, line in enumerate(lines):
            head, impl = HEAD.match(line), IMPL.match(line)
            if impl:
                owner = [*self.types.get(impl[4], module_of(file)), impl[4] + trait_of(impl)]
                is_of_trait = bool(impl[2])
            elif line == "}":
                owner, is_of_trait = [], False
            if head:
                path = owner if head[1] and owner else module_of(file)
                yield Function("::".join([self.crate, *path, head[2]]), is_of_trait, place, lines)

    def to_copy(self, path):
        """The function of a path, if it can be copied: not one of a trait, nor one that calls itself."""
        found = [it for functions in self.functions.values() for it in functions if it.path == path]
        if len(found) != 1 or found[0].is_of_trait or "#[cycle(" in found[0].text or self.proofs_of(found[0], "+").is_dir():
            return None
        return found[0]

    def proofs_of(self, function, mark=""):
        """The folder of a function's proofs, which has a mark before the name of one that calls itself."""
        *path, name = function.path.split("::")[1:]
        return self.folder.joinpath("proofs", *path, mark + name)

    def proofs_for(self, function, number):
        """The proofs of a function as those of its copy: their texts by their paths."""
        folder, (*path, name) = self.proofs_of(function), function.path.split("::")
        own = re.compile(r"(\bRattle\." + r"\.".join(map(re.escape, [path[0], "proofs", *path[1:], name])) + r")(?=[.\s])")
        to = folder.with_name(f"{name}_copy_{number}").relative_to(self.folder)
        return {str(to / it.relative_to(folder)): own.sub(rf"\1_copy_{number}", it.read_text(encoding="utf-8"))
                for it in folder.rglob("*.antt")}


# ---- edits

def read_edit(file, folder):
    """The texts that an edit makes of a crate's files, by their paths, or why it can't be made: below a line 'file: PATH' each
    line 'old: TEXT' has a line 'new: TEXT' for what takes its place; the old text is there once."""
    texts, path, old = {}, None, None
    for line in file.read_text(encoding="utf-8").splitlines():
        word, _, text = line.partition(": ") if ": " in line else line.partition(":")
        if word == "file":
            path = text.strip()
            if not re.match(r"(src|specs|proofs)/", path) or not (folder / path).is_file():
                return {}, f"there is no file {path} in src/, specs/ or proofs/"
            texts.setdefault(path, (folder / path).read_text(encoding="utf-8"))
        elif word == "old":
            old = text
        elif word == "new":
            if not path or not old or texts[path].count(old) != 1:
                return {}, f"its old text is in {path} {texts[path].count(old) if path and old else 0} times"
            texts[path], old = texts[path].replace(old, text), None
    changed = {path: text for path, text in texts.items() if text != (folder / path).read_text(encoding="utf-8")}
    return changed, None if changed else "it changes nothing"


class Edit:
    """An edit, or a twin of one: the texts that it makes, or why it can't be made; the functions that it changes, as they then
    stand, or of what stands in none the file's; and the one that it changes alone, if that can be copied."""

    def __init__(self, file, source, sum, clauses):
        self.file, self.source, self.verdict = file, source, None
        self.is_twin, self.clause = file.suffix == ".twin", clauses.get(str(file.relative_to(TOP)))
        self.kept = kit.kept("edits", kit.sum_of(sum, pathlib.Path(__file__).read_bytes(), file.name, file.read_bytes(), self.clause or ""))
        self.texts, self.why = read_edit(file, source.folder)
        self.changed, self.function = [], None
        for path in {*(self.texts or ())} & {*source.texts}:
            functions, known = [*source.functions_of(path, self.texts[path])], source.functions[path]
            is_inside = beside(functions, self.texts[path]) == beside(known, source.texts[path])
            self.changed += [it for it in functions if not is_inside or it.text not in {was.text for was in known}]
        if self.texts and len(self.texts) == len(self.changed) == 1 and is_inside:
            self.path, self.function = *self.texts, source.to_copy(self.changed[0].path)

    def tell(self, verdict, how):
        self.verdict = verdict
        print(f"{self.source.crate}/{self.file.name}: {how}", flush=True)

    def is_known(self):
        """Whether an earlier run tried the same, and what came was as it must be; it is told again."""
        if self.kept.is_file():
            self.tell(True, self.kept.read_text(encoding="utf-8"))
            self.kept.touch()
        return self.verdict

    def judge(self, is_refused, why):
        """Tells its verdict, where a check refused it for a reason, or proved it."""
        goals = [it for found in GOALS.findall(why) for it in re.findall(r"`([\w-]+)`", found)]
        is_elsewhere = bool(is_refused and self.clause and self.clause not in goals)
        verdict = is_refused != self.is_twin and not is_elsewhere
        wrong = f"REFUSED, but not for `{self.clause}`" if is_elsewhere else "NOT PROVED" if is_refused else "NOT REFUSED"
        how = f"{'refused' if is_refused else 'proved'}, as it must be" if verdict else wrong
        self.tell(verdict, f"{how}: {why[:160]} ({' '.join(goals)})")
        if verdict:
            self.kept.parent.mkdir(parents=True, exist_ok=True)
            self.kept.write_text(f"{how}: {why[:160]} (kept)", encoding="utf-8")


def with_copies(source, batch):
    """The texts of a copy of the crate, and by the path of each function that its check has to look at the edit of which it is a
    copy; of one that stands as it is none."""
    texts, looked_at = {}, {}
    for function, edits in itertools.groupby(batch, lambda it: it.function):
        edits = [*edits]
        file, copies = edits[0].path, [function.text]
        for edit in [None, *edits]:
            number = len(looked_at)
            texts.update(source.proofs_for(function, number))
            looked_at[f"{function.path}_copy_{number}"] = edit
            copies.append((edit.changed[0] if edit else function).copied(number))
        texts[file] = texts.get(file, source.texts[file]).replace(function.text, "\n\n".join(copies))
    return texts, looked_at


def batches_of(edits):
    """The edits in batches, each for one check: those of functions that can be copied, and each other one alone."""
    shared = sorted((it for it in edits if it.function), key=lambda it: it.function.path)
    number = -(-len(shared) // IN_ONE)
    return [shared[at * len(shared) // number:(at + 1) * len(shared) // number] for at in range(number)] + [[it] for it in edits if not it.function]


def own_refusal(path, said):
    """Why a check refuses a function for what is its own, and not for a function that it calls; none, where it doesn't."""
    status = next((it.partition(": ")[2] for it in said if it.startswith(f"fn {path}: ")), "")
    if status.startswith("no proof: expected answers in "):
        return status
    *folders, name = path.split("::")[1:]
    own = re.escape("/".join(["proofs", *folders, ""])) + rf"\+?{name}/"
    errors = [it for it in said if re.match(rf"(\./)?{own}.*: error: ", it) and not NAMES.search(it)]
    return "; ".join(errors) if status == "not proved" else None


def copied(crates, names, to, texts, name):
    """Copies what these crates are proved from, and one of them with these texts."""
    for it in names:
        for part in kit.PARTS:
            if (crates.folder(it) / part).is_dir():
                shutil.copytree(crates.folder(it) / part, f"{to(it)}/{part}")
    for path, text in texts.items():
        os.makedirs(os.path.dirname(f"{to(name)}/{path}"), exist_ok=True)
        pathlib.Path(to(name), path).write_text(text, encoding="utf-8")


class Tries:
    """The edits of one crate, and the checks that try them."""

    def __init__(self, crates, name, folder, clauses):
        self.crates, self.name, self.source = crates, name, Source(name, crates.folder(name))
        files = [it for form in ("*.edit", "*.twin") for it in sorted(folder.glob(form))]
        self.edits = [Edit(it, self.source, crates.sum(name), clauses) for it in files]

    def is_proved(self):
        return all(map(self.crates.has, [*self.crates.below(self.name), self.name]))

    def check(self, texts, *words):
        """How a check of a copy of the crate with these texts ended, and what it said."""
        wait_for_memory()
        with tempfile.TemporaryDirectory(prefix="edits-") as room:
            copied(self.crates, [self.name], lambda _: room, texts, self.name)
            called = [kit.rattle(), "check", *self.crates.words(self.name, TOP / "crates"), *kit.proves(), "--jobs", "1", *words]
            return run(called, room)

    def check_by_rt(self, texts):
        """The same of the whole crate by `rt check`, which makes the libraries below anew."""
        names = [*self.crates.below(self.name), self.name]
        wait_for_memory()
        with tempfile.TemporaryDirectory(prefix="edits-") as room:
            copied(self.crates, names, lambda it: f"{room}/crates/{it}", texts, self.name)
            pathlib.Path(room, "crates.txt").write_text("".join(map(self.crates.rows.get, names)))
            os.mkdir(f"{room}/.git")
            return run(["rt", "check"], f"{room}/crates/{self.name}")

    def try_batch(self, batch):
        """Tries a batch in one check, and alone what that doesn't decide."""
        self.try_together(batch)
        for edit in batch:
            if edit.verdict is None:
                self.try_alone(edit)

    def try_together(self, batch):
        """One check of the functions of a batch. Those edits that it doesn't decide are left."""
        in_place = batch[0].texts, {it.path: batch[0] for it in batch[0].changed}
        texts, looked_at = with_copies(self.source, batch) if batch[0].function else in_place
        only = [word for path in looked_at for word in ("--only", path.partition("::")[2])]
        status, said = self.check(texts, *only) if only else (2, [""])
        if status not in (0, 1) or not said[-1].startswith("only=") or any(map(UNREAD.match, said)):
            return
        # (of a function whose copy is not proved as it stands nothing is known)
        original = lambda path: re.sub(r"_copy_\d+$", "", path)
        lost = {original(path) for path, edit in looked_at.items() if not edit and f"fn {path}: proved" not in said}
        for edit in batch:
            paths = [path for path, it in looked_at.items() if it is edit and original(path) not in lost]
            why = "; ".join(f"{path}: {found}" for path in paths if (found := own_refusal(path, said)))
            if why and not edit.is_twin:
                edit.judge(True, why)
            elif edit.is_twin and paths and all(f"fn {path}: proved" in said for path in paths):
                edit.judge(False, ", ".join(paths))

    def try_alone(self, edit):
        """One check of the whole crate."""
        status, said = self.check(edit.texts) if edit.texts else (1, [f"{edit.file}:0:0: error: {edit.why}"])
        if status not in (0, 1, 3):
            status, said = self.check_by_rt(edit.texts)
        errors = [it for it in said if re.match(r"\S+:\d+:\d+: error|fn \S+: no proof: ", it)]
        is_judged = status == 0 or status == 1 and any(it.startswith("logic=not-proved") for it in said)
        if edit.texts and is_judged and not any(map(UNREAD.match, said)):
            edit.judge(status == 1, "; ".join([it for it in errors if not NAMES.search(it)] or errors))
        else:
            edit.tell(False, f"BAD EDIT: {'; '.join(errors or said[-1:])[:400]}")


# ---- what is tried when

def run(words, folder):
    """How a command ended, and the lines that it wrote; 127 where there is no such command."""
    try:
        ran = subprocess.run(words, cwd=folder, stdin=subprocess.DEVNULL, stdout=subprocess.PIPE, stderr=subprocess.STDOUT, errors="replace")
    except OSError as error:
        return 127, [str(error)]
    return ran.returncode, ran.stdout.rstrip("\n").split("\n")


def wait_for_memory():
    """Waits, for ten minutes at most, until a check has memory, and proofs that run beside it too."""
    for _ in range(600):
        if next(int(it.split()[1]) * 1024 for it in open("/proc/meminfo") if it.startswith("MemAvailable:")) > FOR_CHECK:
            break
        time.sleep(1)


def are_proving():
    """Whether tools/prove is at work in this checkout."""
    with open(TOP / "crates.txt") as file:
        try:
            fcntl.flock(file, fcntl.LOCK_SH | fcntl.LOCK_NB)
        except BlockingIOError:
            return True
    return False


def proved(tries, is_behind):
    """The tries of each crate once that is proved, those of large crates first; of one that isn't, they fail."""
    left, began = sorted(tries, key=lambda it: -sum(map(len, it.source.texts.values()))), time.monotonic()
    while left:
        is_last = not is_behind or time.monotonic() - began > BEGUN and not are_proving()
        ready = [it for it in left if it.is_proved()]
        yield from ready
        left = [it for it in left if it not in ready]
        if is_last:
            break
        time.sleep(2)
    for it in left:
        for edit in it.edits:
            edit.tell(False, "NOT TRIED: its crate is not proved")


def try_all(tries, is_behind):
    """Tries the edits of all crates in batches, side by side, each crate's as soon as it is proved."""
    with ThreadPoolExecutor(len(os.sched_getaffinity(0))) as pool:
        asked = [pool.submit(it.try_batch, batch) for it in proved(tries, is_behind)
                 for batch in batches_of([edit for edit in it.edits if edit.verdict is None])]
        for it in asked:
            it.result()


def main(words):
    flags, names = {it for it in words if it.startswith("-")}, [it for it in words if not it.startswith("-")]
    is_gate, is_behind, began = "--gate" in flags, "--behind" in flags, time.monotonic()
    form = "crates/*/must-fail" if is_gate else "tests/edits/*"
    folders = {it.parent.name if is_gate else it.name: it for it in sorted(TOP.glob(form))}
    names = names or [*folders]
    if flags - {"--gate", "--behind", "--anew"} or not {*names} <= {*folders}:
        sys.exit(f"no edits of {' '.join({*names} - {*folders})} in {form}, or a flag that is none: {' '.join(flags)}")
    if not is_behind and subprocess.run([TOP / "tools/prove", *names]).returncode:
        print("0 passed, 1 failed")
        return 1
    if is_behind:
        os.nice(19)
    rows = [it.split(" | ") for it in (TOP / "tests/named.txt").read_text(encoding="utf-8").split("\n")]
    clauses, crates = {row[0]: row[1] for row in rows if row[0].endswith(".edit")}, kit.Crates(TOP)
    tries = [Tries(crates, it, folders[it], clauses) for it in names]
    edits = [edit for it in tries for edit in it.edits]
    known = 0 if "--anew" in flags else sum(bool(it.is_known()) for it in edits)
    try_all([it for it in tries if any(edit.verdict is None for edit in it.edits)], is_behind)
    failed = [f"{edit.source.crate}/{edit.file.name}" for edit in edits if not edit.verdict]
    print(f"{len(edits)} edits, in {(time.monotonic() - began) / 60:.1f} minutes; {known} of them an earlier run had tried")
    if failed:
        print(f"FAILED: {' '.join(failed)}")
    print(f"{len(edits) - len(failed)} passed, {len(failed)} failed")
    return int(bool(failed))


if __name__ == "__main__":
    sys.exit(main(sys.argv[1:]))
