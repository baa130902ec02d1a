"""The version of this repository, and which program is at hand. The program itself says none."""

import datetime
import hashlib
import os

ROOT = os.path.dirname(os.path.dirname(os.path.dirname(os.path.abspath(__file__))))


def number() -> str:
    """What the file VERSION says."""
    try:
        with open(os.path.join(ROOT, "VERSION"), encoding="utf-8") as file:
            return file.read().strip()
    except OSError:
        return "of no known version"


NUMBER = number()


def of_program(place: str) -> str:
    """A line on a program: where it is, when it was built, and what tells it from another."""
    with open(place, "rb") as file:
        digest = hashlib.sha256(file.read()).hexdigest()
    built = datetime.datetime.fromtimestamp(os.stat(place).st_mtime).strftime("%Y-%m-%d %H:%M")
    return f"program {place}, of {built}, SHA-256 {digest}"
