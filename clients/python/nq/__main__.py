"""The commands of `python -m nq`."""
import os
import sys
from contextlib import closing

from . import Error, Query, draft_schema, draft_schema_of_files
from .drivers import connect, is_database, is_raised_by_driver
from .parameters import of_words

USAGE = """usage: python -m nq show SCHEMA QUERY
       python -m nq run [json|text] SCHEMA QUERY DATABASE [NAME=VALUE ..]
       python -m nq schema SOURCE [TABLE ..]

show writes the type of the query and its SQL texts. run writes the value as JSON, or as the text
that nq itself writes, where the variable NAME has this VALUE in the query: digits are an int, true
and false bools, all else a text, also what stands in single quotes. SCHEMA and QUERY are files or
texts. DATABASE is sqlite:FILE, or postgresql://.. where psycopg or psycopg2 is there. schema drafts
the schema of these tables, or of all: SOURCE is a DATABASE or csv:FOLDER."""


def draft(source, tables):
    """A draft of the schema of these tables of a source, or of all."""
    if source.startswith("csv:"):
        folder = source[len("csv:"):]
        if not os.path.isdir(folder):
            raise Error(f"there is no folder {folder}")
        return draft_schema_of_files(folder, tables)
    with closing(connect(source)) as connection:
        return draft_schema(connection, tables)


def main(words):
    """Runs the words, and answers the exit status."""
    if len(words) == 3 and words[0] == "show":
        query = Query(words[1], words[2])
        print("-- " + query.type)
        for text in query.texts:
            print(text + "\n;")
        return 0
    if words[:1] == ["run"] and (len(words) == 4 or len(words) > 4 and is_database(words[3])):
        words = ["run", "json", *words[1:]]
    if words[:1] == ["run"] and len(words) >= 5 and words[1] in ("json", "text"):
        query = Query(words[2], words[3], of_words(words[5:]))
        with closing(connect(words[4])) as connection:
            print(query.to_json(connection) if words[1] == "json" else query.to_text(connection))
        return 0
    if len(words) >= 2 and words[0] == "schema":
        print(draft(words[1], words[2:]), end="")
        return 0
    print(USAGE, file=sys.stderr)
    return 2


if __name__ == "__main__":
    try:
        sys.exit(main(sys.argv[1:]))
    except Exception as error:
        if not isinstance(error, (Error, OSError)) and not is_raised_by_driver(error):
            raise
        print(str(error).rstrip("\n"), file=sys.stderr)
        sys.exit(getattr(error, "status", 1))
