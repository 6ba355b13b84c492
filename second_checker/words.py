"""The words of a protocol's file (LANGUAGE, "Tokens"), and what all refusals have in common."""

import re
from collections import namedtuple

MOST_BYTES = 1_048_576
CODES = [None, *("BadByte OpenComment LongNumber Unexpected TooDeep Unknown Twice Arity Kind LooseVariable "
                 "TooMany AmbiguousNew LongFile PhaseOrder").split()]
RESERVED = set(
    "private free fun data reduc event query attacker new false let in out if then else process phase table "
    "insert get suchthat".split())
PIECE = re.compile(
    rb"(?P<blank>[ \t\r\n]+|\(\*.*?\*\))|(?P<open>\(\*)|(?P<name>[A-Za-z_][A-Za-z0-9_']*)|(?P<number>[0-9]+)"
    rb"|(?P<symbol>==>|->|\|\||&&|[(),;./=|!])", re.DOTALL)

# The kind is "name", "number", "end", or the reserved word or symbol itself; the place counts bytes.
Token = namedtuple("Token", "kind text place")

class Fault(Exception):
    """What is refused or isn't possible, and what is told of it (FORMATS, "What is printed")."""
    @classmethod
    def where(cls, holds, *told):
        """It is raised where this holds (FORMATS, "What is printed")."""
        if holds:
            raise cls(*told)

class Refused(Fault):
    """A text that isn't read: the code, and the byte (LANGUAGE, "Refusals"; FORMATS, "What is printed")."""

def tokens_of(text):
    """The tokens of a file, and its end (LANGUAGE, "Tokens")."""
    Refused.where(len(text) > MOST_BYTES, 13, 0)
    tokens, at = [], 0
    while at < len(text):
        piece = PIECE.match(text, at)
        Refused.where(piece is None, 1, at)
        kind, word = piece.lastgroup, piece[0].decode("latin-1")
        Refused.where(kind == "open", 2, at)
        Refused.where(kind == "number" and len(word) > 9, 3, at)
        if kind != "blank":
            tokens.append(Token(word if kind == "symbol" or word in RESERVED else kind, word, at))
        at = piece.end()
    return tokens + [Token("end", "", len(text))]

def line_and_column(text, place):
    """Both counted from 1, in bytes (LANGUAGE, "Refusals")."""
    return text.count(b"\n", 0, place) + 1, place - text.rfind(b"\n", 0, place)
