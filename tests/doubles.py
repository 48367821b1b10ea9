#!/usr/bin/env python3
"""Says which lemmas of the crates' proofs stand twice: with one statement and one proof, whatever their names are and how their
lines are broken. What uses others of its file is no double of what uses those of another. Those that are known are not told, and
the list of them only gets shorter: one that is no longer a double is told too."""
import collections
import pathlib
import re

TOP = pathlib.Path(__file__).resolve().parent.parent
# the name of a lemma, at the beginning of the line on which its statement begins
HEAD = re.compile(r"(?:(?:pub|abbrev|unfoldable|opaque) )*([^\s:(){}=]+) :(?=\s)")
WORD = re.compile(r"[^\s(){}.,;]+|[(){}.,;]")
# what has fewer words is no more than an instance of another lemma
LEAST = 20
KNOWN = ["Follows InOrder InOrder IsBehind", "same_is same_is"]


def lemmas(text):
    """The lemmas of a file: the name of each, and its words."""
    found = {}
    for line in re.sub(r"(?m)^\s*--.*\n", "", text).split("\n"):
        head = HEAD.match(line)
        if head:
            found[head[1]] = []
        elif line.startswith(("use ", "pub use ", "mod ", "pub mod ")):
            continue
        if found:
            found[[*found][-1]] += WORD.findall(line.removeprefix("pub "))
    return found


places = collections.defaultdict(list)
for file in sorted(TOP.glob("crates/*/proofs/*.antt")):
    found = lemmas(file.read_text(encoding="utf-8"))
    for name, words in found.items():
        if len(words) >= LEAST and not {*words} & {*found} - {name}:
            places[" ".join("_" if it == name else it for it in words)].append(f"{file.relative_to(TOP)}: {name}")
doubles = {" ".join(sorted(it.split(": ")[1] for it in found)): found for found in places.values() if len(found) > 1}
for names in doubles.keys() ^ {*KNOWN}:
    print(" and ".join(doubles.get(names, [names, "no longer twice"])))
