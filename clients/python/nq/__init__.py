"""Nested data from any database in a fixed number of queries.

`Query` compiles a nested query to flat SQL texts, one for each bag in the type of its answer, and
fetches a nested value over a DB-API 2.0 connection:

    import sqlite3, nq
    staff = nq.Query(schema="org", query="staff")
    with sqlite3.connect("company.db") as connection:
        for department in staff.run(connection): ...

Compiling and stitching are done by the program nq, which is proved. Nothing of this package is.
"""
from .errors import (
    AnswerError,
    AnswerTooLong,
    Error,
    ParameterError,
    ProgramError,
    Refused,
    SnapshotError,
)
from .query import Query
from .schemas import draft_schema, draft_schema_of_files

__all__ = [
    "AnswerError",
    "AnswerTooLong",
    "Error",
    "ParameterError",
    "ProgramError",
    "Query",
    "Refused",
    "SnapshotError",
    "draft_schema",
    "draft_schema_of_files",
]
