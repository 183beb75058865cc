"""The texts that are compiled: a schema, and a query with its parameters."""
import os
import re
from dataclasses import dataclass
from pathlib import Path

# No name of a file that is meant as one has these; each schema and each query has one of them.
_OF_TEXTS = re.compile(r"[\s;()\[\]{}']")


@dataclass(frozen=True)
class Source:
    """A schema or a query: the name that messages use, its text, and what is put into it.

    Those are the `let`s of a query's parameters, which go to the place `at`.
    """

    name: str
    text: bytes
    at: int = 0
    lets: bytes = b""

    @property
    def whole(self):
        """The text with the `let`s, as nq has it."""
        return self.text[:self.at] + self.lets + self.text[self.at:]

    def place(self, place):
        """The place in the text of a place in the whole."""
        return place if place < self.at else max(self.at, place - len(self.lets))

    def lines_added(self, place):
        """How many ends of lines the `let`s have before a place in the whole."""
        return self.lets.count(b"\n") if place >= self.at + len(self.lets) else 0


def name_and_text(kind, given):
    """The name that messages use for a schema or a query, and its text.

    `given` is the name of a file or a text itself. A `str` that names no file and has a space, a
    bracket or a `;` is a text.
    """
    if isinstance(given, bytes):
        return kind, given
    if isinstance(given, str) and _OF_TEXTS.search(given) and not os.path.isfile(given):
        return kind, given.encode("utf-8")
    return str(given), Path(given).read_bytes()
