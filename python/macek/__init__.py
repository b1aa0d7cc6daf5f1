"""Listings of small simple matroids that are represented over finite fields, made by the programs of Macek.

`request` writes a request, `run` gives the levels of its listing as they are grown, `read_levels` and `read_listing` read what
was written before. docs/GUIDE.md of the repository has an example in its part 'From Python'.
"""

from macek.listings import (
    BadListing,
    CutOff,
    Form,
    Head,
    Level,
    Levels,
    Listing,
    Representation,
    read_levels,
    read_listing,
)
from macek.names import name_of
from macek.programs import ProgramFault, ProgramNotFound, Refused, ask_dual, ask_over, resume, run
from macek.requests import request

__all__ = [
    "BadListing",
    "CutOff",
    "Form",
    "Head",
    "Level",
    "Levels",
    "Listing",
    "ProgramFault",
    "ProgramNotFound",
    "Refused",
    "Representation",
    "ask_dual",
    "ask_over",
    "name_of",
    "read_levels",
    "read_listing",
    "request",
    "resume",
    "run",
]
