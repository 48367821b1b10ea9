#!/usr/bin/env python3
"""Reports what tests/named.txt lists but isn't there, and mutants of the gate and controls that it doesn't list. The head of that
file explains its lines.

A test's words must not be in a comment only. In a file of rows they are in a row, or are the whole head of a section that has
rows; in Rust and Rattle they name a function below #[test]; in Python a method `test_..` of a case, or something that is defined
and used; and in bash they are in a line that holds something, or in any line if they are a file of the tests.

Lines below '# retired' are of tests that are gone: each ends with what shows the same now, or with what is given up."""
import ast
import pathlib
import re

TOP = pathlib.Path(__file__).resolve().parent.parent
LIST = TOP / "tests/named.txt"
TWINS = ("crates/*/must-fail/*.twin", "tests/edits/*/*.twin")
# the line above those of tests that are gone
RETIRED = "# retired"
# a goal of a check
GOAL = re.compile(r"[\w-]+")
# a line of bash that counts a test, perhaps in a loop
HOLDS = re.compile(r"\s*(?:for .*; do |command -v .* && )?(?:holds|tell|ends_with|fails_with|ends_with_fault|full|hints) ")


def in_rows(text, words, _):
    lines = [it for it in text.split("\n") if it and not it.startswith("#")]
    if words.startswith("== "):
        return any(pair[0] == words and not pair[1].startswith("== ") for pair in zip(lines, [*lines[1:], "== "]))
    return any(words in it for it in lines)


def in_rust(text, words, _):
    name = re.escape(words.removeprefix("fn ").removesuffix("("))
    return re.search(rf"^( *)#\[test\]\n(?:\1(?!#\[ignore)(?:#\[|//).*\n)*\1fn {name}\(", text, re.M)


def in_rattle(text, words, file):
    """The same, in a file that its crate has as a module."""
    modules = (file.parent / "lib.rt").read_text(encoding="utf-8")
    return in_rust(text, words, file) and re.search(rf"^mod {file.stem};$", modules, re.M)


def in_python(text, words, file):
    """A test of a case, or a function or value that the file itself or one next to it uses."""
    name, tree = re.search(r"\w+(?=\(| = )", words)[0], ast.parse(text)
    cases = [it for it in tree.body if isinstance(it, ast.ClassDef)]
    if name.startswith("test_"):
        return any(isinstance(it, ast.FunctionDef) and it.name == name for case in cases for it in case.body)
    loaded = {it.id for it in ast.walk(tree) if isinstance(it, ast.Name) and isinstance(it.ctx, ast.Load)}
    others = [it.read_text(encoding="utf-8") for it in file.parent.glob("*.py")]
    return words in text and (name in loaded or any(f"{file.stem}.{name}(" in it for it in others))


def in_bash(text, words, _):
    is_file = (TOP / words).is_file()
    lines = [it for it in text.split("\n") if not it.lstrip().startswith("#") and words in it]
    return any(is_file or HOLDS.match(it) for it in lines)


FORMS = {".rows": in_rows, ".rt": in_rattle, ".rs": in_rust, ".py": in_python, ".sh": in_bash}


def lost(row):
    """What is wrong with a line, or None."""
    name, words, _ = row.split(" | ", 2)
    file = TOP / name
    if not file.is_file():
        return f"no {name}"
    if file.suffix in (".edit", ".twin"):
        is_right = GOAL.fullmatch(words) if file.suffix == ".edit" else words == "proved"
        return None if is_right else f"{name}: `{words}` is no goal"
    if file.suffix not in FORMS:
        return f"{name}: no form of tests"
    is_there = FORMS[file.suffix](file.read_text(encoding="utf-8"), words, file)
    return None if is_there else f"{name} has no test `{words}`"


def problems():
    head, *lines = LIST.read_text(encoding="utf-8").rstrip("\n").split("\n")
    end = lines.index(RETIRED) if RETIRED in lines else len(lines)
    rows, retired = ([it for it in part if not it.startswith("#")] for part in (lines[:end], lines[end:]))
    yield from filter(None, map(lost, rows))
    yield from (f"retired, without what shows it now: {it}" for it in retired if it.count(" | ") < 3)
    listed = {it.split(" | ")[0] for it in rows}
    for form in ("crates/*/must-fail/*.edit", *TWINS):
        found = {str(it.relative_to(TOP)) for it in TOP.glob(form)}
        yield from (f"not listed: {it}" for it in sorted(found - listed))
        yield from (f"no edit beside it: {it}" for it in sorted(found) if not (TOP / it).with_suffix(".edit").is_file())
    if len({*rows, *retired}) < int(re.search(r": (\d+) lines", head)[1]):
        yield "lines are gone"


print("".join(f"tests/named.txt: {it}\n" for it in problems()), end="")
