"""Modules as one script, since a page from a disk can't import."""
import re
import sys

IMPORT = re.compile(r"^import .* from '(.*)';\n", re.M)
NAME = re.compile(r'^(?:async )?(?:const|let|function|class) (\w+)', re.M)


def modules_of(file):
    """A module behind all that it imports, without imports and exports, by its file."""
    found, text = {}, file.read_text()
    for name in IMPORT.findall(text):
        found |= modules_of((file.parent / name).resolve())
    return found | {file: re.sub(r'^export ', '', IMPORT.sub('', text), flags=re.M)}


def one_script(file):
    script = '\n'.join(modules_of(file.resolve()).values())
    names = NAME.findall(script)
    if twice := sorted({name for name in names if names.count(name) > 1}):
        sys.exit(f"page/js: as one script, these names are declared twice: {', '.join(twice)}")
    return script
