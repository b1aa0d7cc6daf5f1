"""Runs the programs of Macek and reads what they write, as they write it.

A program is looked for in the folder that MACEK_BIN names, then in crates/NAME/out of the repository, where the package stands
in one, then on the path.
"""

from __future__ import annotations

import os
import re
import shutil
import subprocess
import tempfile
from collections.abc import Iterable, Iterator
from contextlib import contextmanager
from pathlib import Path
from operator import index
from typing import IO, SupportsIndex

from macek.fields import column_of
from macek.listings import BadListing, Level, Levels, Representation
from macek.requests import Columns, Fields, columns_words, field_words, orders_of

FOLDER_VARIABLE = "MACEK_BIN"
REPOSITORY = Path(__file__).resolve().parent.parent.parent
REFUSED = 3


class ProgramFault(Exception):
    """A program ended in another way than done: its name, its status, and the text that it wrote to standard error.

    A status below 0 is that of a signal. docs/FORMATS.md has the others.
    """

    def __init__(self, program: str, status: int, text: str) -> None:
        super().__init__(text or f"{program}: ended with status {status}")
        self.program = program
        self.status = status
        self.text = text


class Refused(ProgramFault):
    """A program refused what it was given; number is that of the refusal in docs/FORMATS.md, 0 where it has none."""

    @property
    def number(self) -> int:
        """The number of the refusal, or 0."""
        found = re.search(r"refused:? (\d+)", self.text)
        return int(found.group(1)) if found else 0


class ProgramNotFound(FileNotFoundError):
    """A program is nowhere where it is looked for; the message says where that is."""


def folders(name: str) -> list[Path]:
    """The folders in which a program is looked for before the path."""
    named = os.environ.get(FOLDER_VARIABLE)
    found = [Path(named)] if named else []
    return found + ([REPOSITORY / "crates" / name / "out"] if (REPOSITORY / "crates").is_dir() else [])


def find(name: str) -> Path:
    """The file of a program, or ProgramNotFound."""
    for folder in folders(name):
        file = folder / name
        if file.is_file() and os.access(file, os.X_OK):
            return file.resolve()
    on_path = shutil.which(name)
    if on_path:
        return Path(on_path)
    places = "".join(f"not in {folder}, " for folder in folders(name))
    hint = "" if os.environ.get(FOLDER_VARIABLE) else f"; {FOLDER_VARIABLE} may name a folder that has it"
    raise ProgramNotFound(f"the program {name} isn't found: {places}not on the path{hint}")


def run(
    request: str | bytes, *, workers: SupportsIndex | None = None, orderly: bool = False, copy: IO[bytes] | None = None
) -> Iterator[Level]:
    """The levels of the listing of a request, each as soon as it is written.

    With workers the program `macek` grows them by so many threads, else `macek_alone`, with orderly in its orderly way. What
    the program writes goes to copy too, as it comes. Refused and ProgramFault come after the whole levels that were written.
    The program is ended where the iterator is closed, or let go.
    """
    if workers is not None and orderly:
        raise ValueError("the orderly way has one thread and no workers")
    if workers is None:
        return levels_of("macek_alone", ["--orderly"] if orderly else [], request, copy)
    return levels_of("macek", ["--workers", str(index(workers))], request, copy)


def resume(listing: str | bytes, size: SupportsIndex, *, copy: IO[bytes] | None = None) -> Iterator[Level]:
    """The levels of a listing, whole or cut off, without filters and with forms, grown on to a size: all from the rank on.

    The rest is as with `run`.
    """
    return levels_of("macek_resume", [str(index(size))], listing, copy)


def ask_dual(field: Fields, *factors: Columns) -> Representation:
    """The dual form of a standard representation: its fields, and the columns over each of them as words or codes.

    The dual has a rank from 1 to 6. ProgramFault where the program takes it for no such representation.
    """
    orders = orders_of(field)
    answer = ask(["dual", *field_words(orders).split(), *factors_words(orders, factors)])
    return representation_of(answer, orders)


def ask_over(order: SupportsIndex, matroid: str | Representation) -> Representation | None:
    """The least standard matrix over GF(order) that has exactly the bases of a matroid, or None where there is none.

    The matroid is a name such as "F7-", or that of a standard representation. ProgramFault where the program doesn't take it.
    """
    if isinstance(matroid, str):
        words = ["name", matroid]
    else:
        words = ["form", *field_words(matroid.orders).split(), *factors_words(matroid.orders, matroid.factors)]
    orders = orders_of(order)
    answer = ask(["over", field_words(orders), *words])
    return None if answer == "none" else representation_of(answer, orders)


def ask(words: list[str]) -> str:
    """The answer line of `macek_ask`, without its line end."""
    with started("macek_ask", words, b"") as output:
        return output.read().decode("ascii").rstrip("\n")


def factors_words(orders: tuple[int, ...], factors: Iterable[Columns]) -> list[str]:
    """The columns of the factors as words, with `|` between two; ValueError where they aren't as many as the orders."""
    columns = list(factors)
    if len(columns) != len(orders):
        raise ValueError(f"{len(columns)} matrices for {len(orders)} fields")
    texts = [" ".join(columns_words(order, each)) for order, each in zip(orders, columns)]
    return " | ".join(texts).split(" ")


def representation_of(text: str, orders: tuple[int, ...]) -> Representation:
    """The representation that a form line spells; ValueError where it doesn't."""
    factors = text.split(" | ")
    if len(factors) != len(orders):
        raise ValueError(f"'{text}' has not {len(orders)} matrices")
    matrices = (tuple(column_of(each, order) for each in columns.split(" ")) for order, columns in zip(orders, factors))
    return Representation(orders, tuple(matrices))


def levels_of(program: str, words: list[str], text: str | bytes, copy: IO[bytes] | None = None) -> Iterator[Level]:
    """The levels of what a program writes with a text on its standard input; ProgramNotFound at once."""
    find(program)
    return _levels(program, words, text.encode() if isinstance(text, str) else text, copy)


def _levels(program: str, words: list[str], text: bytes, copy: IO[bytes] | None) -> Iterator[Level]:
    with started(program, words, text) as output:
        yield from Levels(output if copy is None else copied(output, copy))


def copied(lines: Iterable[bytes], copy: IO[bytes]) -> Iterator[bytes]:
    """The lines, each written to a file on its way."""
    for line in lines:
        copy.write(line)
        yield line


@contextmanager
def started(program: str, words: list[str], text: bytes) -> Iterator[IO[bytes]]:
    """Standard output of a program that has a text on its standard input.

    Where the block ends by itself, or finds that the output is cut off or wrong, the program is waited for, and Refused or
    ProgramFault says how it ended if that wasn't well. Where the block ends in another way the program is killed.
    """
    with tempfile.TemporaryFile() as source, tempfile.TemporaryFile() as told:
        source.write(text)
        source.seek(0)
        process = subprocess.Popen([find(program), *words], stdin=source, stdout=subprocess.PIPE, stderr=told)
        assert process.stdout is not None
        fault: BadListing | None = None
        try:
            yield process.stdout
        except BadListing as found:
            fault = found
        except BaseException:
            process.kill()
            raise
        finally:
            process.stdout.close()
            status = process.wait()
        told.seek(0)
        check(program, status, told.read().decode(errors="replace").strip(), fault)


def check(program: str, status: int, text: str, fault: BadListing | None) -> None:
    """Raises what a program's end and the end of its output have to say."""
    if status == REFUSED:
        raise Refused(program, status, text) from fault
    if status != 0:
        raise ProgramFault(program, status, text) from fault
    if fault is not None:
        raise fault
