"""The options of those programs of the tests that Makefile runs."""
import argparse


def options(doc, *words, **defaults):
    """What the command line says: a value for each word, and options by their names with what they are if they aren't given. A
    flag is False then."""
    parser = argparse.ArgumentParser(description=doc.split("\n\n")[0])
    for word in words:
        parser.add_argument(word)
    for name, default in defaults.items():
        how = {"action": "store_true"} if default is False else {"type": type(default), "default": default}
        parser.add_argument(f"--{name}", **how)
    return parser.parse_args()
