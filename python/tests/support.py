"""What the tests share: the package, the repository with its examples, and the built programs."""

import importlib.util
import shutil
import sys
import unittest
from collections.abc import Callable
from pathlib import Path

TOP = Path(__file__).resolve().parent.parent.parent
if importlib.util.find_spec("macek") is None:
    sys.path.insert(0, str(TOP / "python"))

from macek.listings import Listing, read_listing  # noqa: E402
from macek.programs import ProgramNotFound, find  # noqa: E402

EXAMPLES = sorted((TOP / "examples").glob("*.listing"))


def examples_with_forms() -> dict[str, Listing]:
    """The listings of examples/ that have forms, by their names."""
    texts = {path.stem: path.read_bytes() for path in EXAMPLES}
    return {name: read_listing(text) for name, text in texts.items() if b"\nprint forms\n" in text}


def skip_without(*programs: str) -> Callable[[type], type]:
    """Skips a class of tests where one of these built programs isn't there, and says so on standard error."""
    try:
        for program in programs:
            find(program)
    except ProgramNotFound as fault:
        print(f"tests are skipped: {fault}", file=sys.stderr)
        return unittest.skip(str(fault))
    return lambda tests: tests


def skip_without_command(command: str) -> Callable[[type], type]:
    """Skips a class of tests where a command of other software isn't on the path, and says so on standard error."""
    if shutil.which(command):
        return lambda tests: tests
    print(f"tests are skipped: there is no command {command} here", file=sys.stderr)
    return unittest.skip(f"there is no command {command} here")
