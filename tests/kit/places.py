"""Where the tests of the kit find the module for Python, and modules of the folders beside theirs."""

import importlib
import sys
from pathlib import Path

TOP = Path(__file__).resolve().parents[2]
sys.path.insert(0, str(TOP / "library/python"))
sys.path.append(str(TOP / "tests"))
from options import options  # noqa: E402, F401

_LOADED = {}


def modules(folder, *names):
    """Modules of a folder of tests. Two of these folders have modules of the same names: each sees its own."""
    place, own = TOP / "tests" / folder, _LOADED.setdefault(folder, {})
    stems = {file.stem for file in place.glob("*.py")}
    others = {stem: sys.modules.pop(stem) for stem in stems if stem in sys.modules}
    sys.modules.update(own)
    sys.path.insert(0, str(place))
    try:
        return [importlib.import_module(name) for name in names]
    finally:
        sys.path.remove(str(place))
        own.update({stem: sys.modules.pop(stem) for stem in stems if stem in sys.modules})
        sys.modules.update(others)
