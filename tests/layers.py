#!/usr/bin/env python3
"""The first line of each crate's code tells its layer, under which crates.txt lists it, and its neighbours: below it those that it
uses and that nothing else below it uses, above it the crates to which it is such a neighbour, but for tests. Writes what doesn't;
with --write the lines are put there."""
import pathlib
import sys

TOP = pathlib.Path(__file__).resolve().parent.parent


def crates():
    """The layer of each crate, and the crates of the repository that it uses."""
    layer, found = "", {}
    for line in (TOP / "crates.txt").read_text().splitlines():
        head, is_row, uses = line.partition(":")
        if line.startswith("#"):
            layer = line.removeprefix("# ")
        elif is_row:
            found[head.split()[0]] = layer, uses.split()
    return {name: (layer, [it for it in uses if it in found]) for name, (layer, uses) in found.items()}


def all_below(name, uses):
    return {it for use in uses[name] for it in {use, *all_below(use, uses)}}


def main(words):
    layers = crates()
    uses = {name: it for name, (_, it) in layers.items()}
    reached = {name: all_below(name, uses) for name in uses}
    below = {name: [it for it in uses[name] if not any(it in reached[other] for other in uses[name])] for name in uses}
    for name, (layer, _) in layers.items():
        sides = ("Below", below[name]), ("Above", [it for it in below if name in below[it] and layers[it][0] != "tests"])
        told = " ".join([f"//! Layer: {layer}.", *(f"{side}: {', '.join(names)}." for side, names in sides if names)])
        file = next(it for it in (TOP / f"crates/{name}/src/{part}.rt" for part in ("lib", "main")) if it.exists())
        first, _, rest = file.read_text().partition("\n")
        if first == told:
            continue
        if "--write" in words:
            old = [] if first.startswith("//! Layer: ") else ["//!", first]
            file.write_text("\n".join([told, *old, rest]))
        else:
            print(f"{file.relative_to(TOP)}: {told}")


if __name__ == "__main__":
    main(sys.argv[1:])
