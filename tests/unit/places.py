"""Where the tests find what they test."""

import os
import sys

sys.dont_write_bytecode = True

TOP = os.path.join(os.path.dirname(os.path.abspath(__file__)), "..", "..")
EXAMPLES = os.path.join(TOP, "examples")
sys.path.insert(0, os.path.join(TOP, "tools"))


def example(name: str) -> bytes:
    """The bytes of an example."""
    with open(os.path.join(EXAMPLES, name), "rb") as file:
        return file.read()
