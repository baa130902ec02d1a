"""What the tools share: words and ends of a tool, recordings, dumps, pictures, the program."""

import sys


def end_quietly(kind, fault, trace):
    """An interrupt while a tool is still being loaded has no lines either; Python then ends with it."""
    if not issubclass(kind, KeyboardInterrupt):
        sys.__excepthook__(kind, fault, trace)


if sys.excepthook is sys.__excepthook__:
    sys.excepthook = end_quietly
