#!/usr/bin/env python3
"""Spells matrices of SageMath in the words of Macek: `macek_line`, and from_sage.py FILE.sobj [FILE.sobj ..]

In SageMath `load("tools/from_sage.py")` gives the function macek_line(M, ..), which takes one matrix, or one over each factor of
a product, and gives the line that spells it. As a script it does the same for matrices that SageMath's `save` wrote.
"""

import argparse
import sys
from pathlib import Path

# The name of this file is that of the code, since SageMath's load sets no other.
sys.path.insert(0, str(Path(sys._getframe().f_code.co_filename).resolve().parent.parent / "python"))

from macek.sage import macek_line  # noqa: E402


def main() -> None:
    """The line of the matrices in the files that are named, one over each factor."""
    about = "Spells matrices that SageMath saved as a line of a listing spells a form."
    words = argparse.ArgumentParser(prog="from_sage.py", description=about)
    kinds = "a matrix or a matroid of SageMath; several are the factors of a product"
    words.add_argument("files", nargs="+", metavar="FILE.sobj", help=kinds)
    files = words.parse_args().files
    try:
        from sage.all import load

        print(macek_line(*(load(file) for file in files)))
    except ImportError:
        sys.exit("from_sage.py: this Python has no SageMath; sage -python tools/from_sage.py does")
    except (OSError, ValueError) as fault:
        sys.exit(f"from_sage.py: {fault}")


if __name__ == "__main__" and Path(sys.argv[0]).name == "from_sage.py":
    main()
