"""What the scripts that read a text of Macek have in common: their words, their input and how they end."""

from __future__ import annotations

import argparse
import signal
import sys
from collections.abc import Callable, Iterable
from contextlib import ExitStack
from pathlib import Path

from macek.listings import COUNTS_ALONE, BadListing, CutOff, Form, Head, Listing, read_levels, read_listing


def write_code(script: str, about: str, lines_of: Callable[[str, Head, list[Form]], Iterable[str]]) -> None:
    """The whole run of a script that writes a listing as code: lines_of gives it, from a name, the head and the forms."""
    words = argparse.ArgumentParser(prog=script, description=about)
    kinds = "a listing, level text, sifted text or excluded listing; else standard input"
    words.add_argument("listing", nargs="?", metavar="LISTING", help=kinds)
    words.add_argument("--name", help="the name that the forms get, else that of the file without its ending, or listing")
    given = words.parse_args()
    name = given.name or (Path(given.listing).stem if given.listing else "listing")
    try:
        head, forms = forms_of(script, given.listing)
    except (BadListing, OSError) as fault:
        sys.exit(f"{script}: {fault}")
    signal.signal(signal.SIGPIPE, signal.SIG_DFL)
    sys.stdout.writelines(line + "\n" for line in lines_of(name, head, forms))


def forms_of(script: str, file: str | None) -> tuple[Head, list[Form]]:
    """The head and the forms of a file, or of standard input.

    Of a text that is cut off these are the forms of the whole levels, and a note on standard error says so. BadListing for any
    other text that is wrong, and for one of counts alone.
    """
    forms: list[Form] = []
    with ExitStack() as stack:
        levels = read_levels(stack.enter_context(open(file, "rb")) if file else sys.stdin.buffer)
        if levels.head.counts:
            raise BadListing(f"this listing has {COUNTS_ALONE}")
        try:
            for level in levels:
                forms += level.forms
        except CutOff as fault:
            print(f"{script}: {fault}; the whole levels before are taken", file=sys.stderr)
    return levels.head, forms


def opening_lines(head: Head, script: str, program: str) -> list[str]:
    """The first lines of the comment in front of the code, without the sign that makes them one."""
    lines = [f"The matroids of a text of Macek, for {program}; written by {script}. Its request:"]
    lines += [f"  {line}" for line in head.lines]
    lines += [f"Kept of it was what passes: {test}" for test in head.sifts]
    if len(head.orders) > 1:
        lines.append("The matrices of one form have the same bases: they represent one matroid, each over its field.")
    return lines


def listing_of(file: str) -> Listing:
    """The listing of a file, which has to be whole."""
    return read_listing(Path(file).read_bytes())
