"""Queries that are compiled once and asked of a connection."""
import json
import tempfile
from collections import OrderedDict
from contextlib import closing, contextmanager
from pathlib import Path
from threading import Lock

from .answers import write_answers
from .parameters import lets_at_head
from .program import call
from .snapshot import snapshot
from .sources import Source, name_and_text

# What was compiled, by the bytes of the schema and of the query, the longest unused first.
_compiled = OrderedDict()
_lock = Lock()

# The most queries that are kept compiled.
_MOST_COMPILED = 1_000


class Query:
    """A nested query over a schema, compiled to SQL texts.

    `schema` and `query` are each the name of a file or a text itself. A `str` that names no file
    and has a space, a bracket or a `;` is a text. Both are read once. `parameters` are values of
    variables of the query, by their names: each an `int`, a `bool` or a `str`.

    `type` is the type of the value as nq writes it, `texts` the SQL texts in path order, and
    `columns` the types of the columns of each, as lists of "int", "bool" and "text".

    Raises `Refused` where nq refuses the schema or the query, and `ParameterError` for a name or a
    value that no parameter has.
    """

    def __init__(self, schema, query, parameters=None):
        name, text = name_and_text("query", query)
        self._sources = {"schema": Source(*name_and_text("schema", schema)),
                         "query": Source(name, text, *lets_at_head(text, parameters))}
        self.type, self._texts, self._columns = _compiled_once(self._sources)

    @property
    def texts(self):
        """The SQL texts, one for each bag of the type."""
        return list(self._texts)

    @property
    def columns(self):
        """The types of the columns of each answer, those of the outer index first."""
        return [list(kinds) for kinds in self._columns]

    def run(self, connection):
        """The value over the tables of a DB-API 2.0 connection, or of a cursor's connection.

        A bag is a list, a record a dict, and each call makes fresh ones. All texts are asked in one
        snapshot; see `nq.snapshot`. Raises `AnswerError` for an answer that cannot be stitched, and
        what the driver raises where it fails.
        """
        return json.loads(self.to_json(connection))

    def to_json(self, connection):
        """The same value as one line of JSON, without the newline."""
        return self._stitch(connection, "stitch", "json")

    def to_text(self, connection):
        """The same value as `nq run` writes it, without the newline."""
        return self._stitch(connection, "stitch")

    def _stitch(self, connection, *command):
        """What a command of the program writes of the answers of a connection."""
        answers = self._ask(connection)
        with _workplace(self._sources) as folder:
            write_answers(folder, answers, self._columns)
            words = [*command, str(folder / "schema"), str(folder / "query"), str(folder)]
            return call(words, self._sources, folder).decode("utf-8").rstrip("\n")

    def _ask(self, connection):
        """The rows of each text, all in one snapshot."""
        if not hasattr(connection, "cursor"):
            return _rows(connection.connection, connection, self._texts)
        with closing(connection.cursor()) as cursor:
            return _rows(connection, cursor, self._texts)


def _rows(connection, cursor, texts):
    answers = []
    with snapshot(connection, cursor):
        for text in texts:
            cursor.execute(text)
            answers.append(cursor.fetchall())
    return answers


@contextmanager
def _workplace(sources):
    """A new folder that holds the schema and the query, and is removed on every way out."""
    with tempfile.TemporaryDirectory(prefix="nq-") as name:
        folder = Path(name)
        for kind, source in sources.items():
            (folder / kind).write_bytes(source.whole)
        yield folder


def _compiled_once(sources):
    """What compiling gives, from the kept ones where it is there."""
    key = tuple(source.whole for source in sources.values())
    with _lock:
        if key in _compiled:
            _compiled.move_to_end(key)
            return _compiled[key]
    found = _compile(sources)
    with _lock:
        _compiled[key] = found
        if len(_compiled) > _MOST_COMPILED:
            _compiled.popitem(last=False)
    return found


def _compile(sources):
    """The type of a query, its texts, and the types of the columns of each answer."""
    with _workplace(sources) as folder:
        words = ["show", "json", str(folder / "schema"), str(folder / "query")]
        shown = json.loads(call(words, sources, folder))
    texts = tuple(text["sql"] for text in shown["texts"])
    columns = tuple(tuple(column["type"] for column in text["columns"]) for text in shown["texts"])
    return _type_text(shown["type"]), texts, columns


def _type_text(kind):
    """A type as nq writes it, from its form in `nq show json`."""
    if isinstance(kind, str):
        return kind
    if "bag" in kind:
        return f"[{_type_text(kind['bag'])}]"
    fields = (f"{label}: {_type_text(of)}" for label, of in kind["record"].items())
    return f"({', '.join(fields)})"
