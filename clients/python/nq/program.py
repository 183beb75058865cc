"""Runs the program nq, and turns its refusals into exceptions."""
import os
import re
import shutil
import subprocess
from pathlib import Path

from .errors import AnswerError, ProgramError, Refused

# The script nq of a clone in which this package lies.
_CLONE = Path(__file__).resolve().parents[3] / "nq"

_FAULT = re.compile(r"nq: (?P<file>schema|query) refused: (?P<fault>\w+) at (?P<place>\d+)")
_RULE = re.compile(r"nq: ill typed: rule (?P<rule>\d+) at (?P<place>\d+)")
_LONG = re.compile(r"nq: input too long: (?P<name>.*) over (?P<limit>\d+)")
_ANSWER = re.compile(
    r"nq: answer (?P<text>\d+) refused: (?P<fault>\w+)"
    r"(?: row (?P<row>\d+))?(?: column (?P<column>\d+))?(?: earlier (?P<earlier>\d+))?"
)


def program():
    """The program to run: that of the variable NQ, the clone's, or the one on the path."""
    named = os.environ.get("NQ")
    if named:
        return named
    if os.access(_CLONE, os.X_OK):
        return str(_CLONE)
    found = shutil.which("nq")
    if found:
        return found
    raise ProgramError(
        "the program nq was not found: name it in the environment variable NQ, or put it on the path"
    )


def call(words, sources, folder):
    """What nq writes to standard output for these words.

    `sources` has the schema and the query, which lie under the names `schema` and `query` in the
    folder.
    """
    done = _run(words)
    if done.returncode == 0:
        return done.stdout
    notes = done.stderr.decode("utf-8", "replace").strip()
    note = notes.splitlines()[-1] if notes else ""
    raise refusal(done.returncode, note, sources, folder)


def _run(words):
    """The ended process of nq with these words."""
    environment = {"NQ_UNPROVED": "no", **os.environ}
    try:
        return subprocess.run([program(), *words], capture_output=True, env=environment,
                              stdin=subprocess.DEVNULL, check=False)
    except OSError as error:
        raise ProgramError(f"the program nq cannot be run: {error}") from error


def refusal(status, note, sources, folder):
    """The exception for a status of nq and its line, explained where nq explains it."""
    found = _ANSWER.fullmatch(note)
    if status == 15 and found:
        numbers = {name: int(found[name]) if found[name] else None
                   for name in ("row", "column", "earlier")}
        return AnswerError(note, text=int(found["text"]), fault=found["fault"], **numbers)
    found = _FAULT.fullmatch(note)
    if status in (3, 4) and found:
        return _at(status, note, sources, folder, found["file"], int(found["place"]),
                   fault=found["fault"])
    found = _RULE.fullmatch(note)
    if status == 5 and found:
        return _at(status, note, sources, folder, "query", int(found["place"]),
                   rule=int(found["rule"]))
    if status == 10 and _LONG.fullmatch(note):
        return Refused(note, status, note, fault="TooLong")
    if status == 125:
        return ProgramError(note)
    return ProgramError(f"nq ended with status {status}: {note or 'it said nothing'}")


def _at(status, note, sources, folder, kind, place, **what):
    """A refusal at a place of the schema or the query. Its message is the text of `nq explain`."""
    source = sources[kind]
    before = source.text[:source.place(place)]
    line = before.count(b"\n") + 1
    column = len(before[before.rfind(b"\n") + 1:].decode("utf-8", "replace")) + 1
    message = (_explained(folder, kind, source, source.lines_added(place))
               or f"{source.name}:{line}:{column}: {note[4:]}")
    return Refused(message, status, note, file=source.name, place=source.place(place), line=line,
                   column=column, **what)


def _explained(folder, kind, source, lines_added):
    """What `nq explain` writes of a refused schema or query, by its name and its own lines."""
    done = _run(["explain", str(folder / "schema"), str(folder / "query")])
    said = done.stdout.decode("utf-8", "replace").rstrip("\n")
    found = re.match(re.escape(f"{folder / kind}:") + r"(?P<line>\d+)", said)
    if done.returncode != 0 or not found:
        return None
    return f"{source.name}:{int(found['line']) - lines_added}{said[found.end():]}"
