"""Parameters: values that a program gives to a query.

A `let` at the head of a query gives a value a name, so each parameter becomes one. Its value is
written as nq writes values: a text stays one text, whatever is in it.
"""
import re

from .errors import ParameterError
from .language import GREATEST, LEAST, is_word

_RESERVED = set("for where if then else fun let table empty true false int bool text".split())

_BLANK = rb"(?:[ \t\r\n]|#[^\n]*(?:\n|\Z))*"

# The three tokens of the second edition, in which two more words are reserved.
_HEADER = re.compile(rb"(?:\xef\xbb\xbf)?%snq(?![A-Za-z0-9_])%s2(?![A-Za-z0-9_])%s;"
                     % (_BLANK, _BLANK, _BLANK))
_RESERVED_BY_HEADER = {"count", "sum"}


def lets_at_head(text, parameters):
    """The place in a query at which the `let`s of its parameters go, and their bytes.

    They end with the line, and what stood before them on it is made up for by blanks: so columns
    stay, and later lines are as many further down as the `let`s have ends of lines.
    """
    if not parameters:
        return 0, b""
    header = _HEADER.match(text)
    at = header.end() if header else 3 * text.startswith(b"\xef\xbb\xbf")
    reserved = _RESERVED | _RESERVED_BY_HEADER if header else _RESERVED
    for name in parameters:
        if not isinstance(name, str) or not is_word(name) or name in reserved:
            raise ParameterError(f"{name!r} cannot be the name of a parameter")
    lets = "".join(f"let {name} = {_literal(name, value)}; " for name, value in parameters.items())
    before = text[:at].rsplit(b"\n", 1)[-1].decode("utf-8", "replace").lstrip("\ufeff")
    try:
        return at, f" {lets}\n{' ' * len(before)}".encode("utf-8")
    except UnicodeEncodeError as error:
        raise ParameterError(f"a parameter is no UTF-8: {error}") from error


def _literal(name, value):
    """A value as it stands in a query."""
    if isinstance(value, bool):
        return "true" if value else "false"
    if isinstance(value, int):
        if not LEAST <= value <= GREATEST:
            raise ParameterError(f"the parameter {name} is no integer of 64 bits: {value}")
        # (a query has no number of the size of the least integer)
        return f"{LEAST + 1} - 1" if value == LEAST else str(value)
    if isinstance(value, str):
        return "'" + value.replace("'", "''") + "'"
    kind = type(value).__name__
    raise ParameterError(f"the parameter {name} is a {kind}; nq has int, bool and text")


def of_words(words):
    """The parameters that words give, each as NAME=VALUE.

    A VALUE of digits, perhaps behind a `-`, is an int; `true` and `false` are bools; all else is a
    text, also in single quotes, which are taken off.
    """
    parameters = {}
    for word in words:
        name, equals, value = word.partition("=")
        if not equals or name in parameters:
            raise ParameterError(f"{word} is not NAME=VALUE, or names a parameter twice")
        if value in ("true", "false"):
            parameters[name] = value == "true"
        elif re.fullmatch(r"-?[0-9]{1,20}", value):
            parameters[name] = int(value)
        else:
            is_quoted = len(value) > 1 and value[0] == value[-1] == "'"
            parameters[name] = value[1:-1] if is_quoted else value
    return parameters
