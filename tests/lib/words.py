"""The words of a command."""

import argparse
import os


def words_of(text, *places, **options):
    """The words that the command was given, of which `--help` tells this text. A place is a path, or with a star behind its name any words
    more; with a question mark it may be left out. An option has a value as the usual one, or none where that is False; or some of the values
    of a tuple, where it may stand more than once."""
    parser = argparse.ArgumentParser(description=text, formatter_class=argparse.RawDescriptionHelpFormatter)
    for it in places:
        more = {"nargs": it[-1]} if it[-1] in "?*" else {}
        parser.add_argument(it.rstrip("?*"), type=str if it[-1] == "*" else os.path.abspath, **more)
    for name, usual in options.items():
        how = {"action": "store_true"} if usual is False else {"type": str if usual is None else type(usual), "default": usual}
        how = {"action": "append", "choices": usual} if isinstance(usual, tuple) else how
        parser.add_argument(f"--{name.replace('_', '-')}", **how)
    return parser.parse_intermixed_args()
