"""A program that is refused one of the allocations that it asks for (tests/refused-memory.c)."""

import os
import shutil
import subprocess
import typing

from . import runs

SOURCE = os.path.join(os.path.dirname(os.path.abspath(__file__)), "..", "refused-memory.c")


def can_refuse() -> bool:
    """Whether there is the C compiler that this needs."""
    return shutil.which("cc") is not None


class Refusing:
    """Runs programs, each with one allocation refused. What it needs is made in a folder."""

    def __init__(self, folder: str) -> None:
        self.library = os.path.join(folder, "refused-memory.so")
        self.counted = os.path.join(folder, "counted")
        self.runner = runs.Runner()
        subprocess.run(["cc", "-O2", "-shared", "-fPIC", "-o", self.library, SOURCE], check=True)

    def run(self, words: typing.Sequence[str], data: bytes, refused: int) -> runs.Ran:
        """A run without the allocation of this number, counted from 1; with 0 it has all."""
        around = {"LD_PRELOAD": self.library, "REFUSED": str(refused), "COUNTED": self.counted}
        return self.runner.run(words, data, around=around)

    def count(self) -> int:
        """How many allocations the last run asked for."""
        with open(self.counted) as file:
            return int(file.read())
