"""The drivers of SQLite and of PostgreSQL that the package knows, and connections by a name."""
import os
import sqlite3
from importlib import import_module
from urllib.parse import quote

from .errors import Error

_POSTGRES = ("psycopg", "psycopg2")

# With what the names of databases begin.
_SQLITE_NAME = "sqlite:"
_POSTGRES_NAMES = ("postgresql://", "postgres://")


def is_sqlite(connection):
    """Whether a connection is of the standard library's driver of SQLite."""
    return _module(connection) == "sqlite3"


def is_postgres(connection):
    """Whether a connection is of a driver of PostgreSQL."""
    return _module(connection) in _POSTGRES


def is_raised_by_driver(error):
    """Whether one of the drivers raised an exception."""
    return _module(error) in ("sqlite3", *_POSTGRES)


def is_database(name):
    """Whether a name is one of a database: `sqlite:FILE`, or `postgresql://..`."""
    return name.startswith((_SQLITE_NAME, *_POSTGRES_NAMES))


def connect(database):
    """A connection to the database of this name.

    Raises `Error` for another name, for a file that is not there, and where no driver is installed.
    """
    if database.startswith(_SQLITE_NAME):
        file = database[len(_SQLITE_NAME):]
        if not os.path.isfile(file):
            raise Error(f"there is no file {file}")
        return sqlite3.connect(f"file:{quote(file)}?mode=ro", uri=True)
    if database.startswith(_POSTGRES_NAMES):
        return _postgres().connect(database)
    raise Error(f"{database} is neither sqlite:FILE nor postgresql://..")


def _postgres():
    """The first driver of PostgreSQL that is installed."""
    for name in _POSTGRES:
        try:
            return import_module(name)
        except ImportError:
            pass
    raise Error("postgresql:// needs psycopg or psycopg2, and neither is installed")


def _module(of):
    """The name of the package in which the type of an object is defined."""
    return type(of).__module__.split(".")[0]
