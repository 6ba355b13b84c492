"""What the tokens of a file spell.

Each part of a sketch has its first token. One term, pattern or process in parentheses is itself, with the
first token that it has within them.
"""

from collections import namedtuple
from words import Refused

DEEPEST = 512

# A term, an event or an entry: a name alone has None for its arguments; a tuple begins with "(".
Term = namedtuple("Term", "first arguments")
# A pattern: its form is "bind", "equal" (its part is the term) or "data" (a tuple begins with "(").
Pattern = namedtuple("Pattern", "first form parts")
# A process: its form is "|" or a key of UNITS, its parts are pairs of an item and what is read for it.
Unit = namedtuple("Unit", "first form parts")
Declaration = namedtuple("Declaration", "first form private parts")
# What is asked for: a Term, the name of a restriction, or a left side and its alternatives.
Query = namedtuple("Query", "form asked phase")

# The grammar behind the first word of a declaration and of a unit: "name" and "number" are tokens to be kept,
# `;` and `else` and a unit behind them may be omitted, Parser.items has other items, and all else are words.
DECLARATIONS = {
    "free": "names .", "fun": "name / number .", "data": "name / number .", "reduc": "rules .",
    "event": "name / number .", "table": "name / number .", "query": "query .", "let": "name = proc ."}
UNITS = {
    "0": "", "macro": "", "!": "unit", "new": "name ;", "out": "( term , term ) ;", "in": "( term , pat ) ;",
    "event": "atom ;", "insert": "atom ;", "phase": "number ;", "let": "pat = expression in unit else",
    "if": "test then unit else", "get": "columns condition in unit else"}
UNIT = {*UNITS, "name", "("} - {"macro"}

class Parser:
    """A place among the tokens; each method reads what it is called after (LANGUAGE, "Grammar")."""
    def __init__(self, tokens):
        """The beginning of the file, and how items are read at a level (LANGUAGE, "Grammar")."""
        self.tokens, self.at = tokens, 0
        self.items = {
            "proc": self.proc, "unit": self.unit, "term": self.term, "pat": self.pat, "atom": self.atom,
            "query": self.query,
            "names": lambda level: self.listed(lambda level: self.take("name"), level),
            "terms": lambda level: self.row(self.term, level),
            # An alternative of a query is its first token, and its events.
            "event_atom": lambda level: self.read("event atom", level)[0],
            "alt": lambda level: (self.tokens[self.at], self.listed(self.items["event_atom"], level, "&&")),
            "rule": lambda level: self.read("name ( terms -> term", level),
            "rules": lambda level: self.listed(self.items["rule"], level, ";"),
            "test": lambda level: self.read("term = term", level),
            # The term of a `let`, and its first token, parentheses round the whole of it counted.
            "expression": lambda level: (self.tokens[self.at], self.term(level)),
            "columns": lambda level: Term(self.take("name"), self.optional(self.pat, level)),
            "condition": lambda level: self.read("test", level)[0] if self.passes("suchthat") else []}

    def take(self, *kinds):
        """The next token, which has to be of one of these kinds (LANGUAGE, "Refusals", 4)."""
        token = self.tokens[self.at]
        Refused.where(token.kind not in kinds, 4, token.place)
        self.at += 1
        return token

    def passes(self, kind):
        """Whether the next token is of this kind; it is passed over then (LANGUAGE, "Grammar")."""
        found = self.tokens[self.at].kind == kind
        self.at += found
        return found

    def begin(self, level, *kinds):
        """The first token of a construct at this level, of these kinds (LANGUAGE, "Grammar", *Levels*)."""
        token = self.tokens[self.at]
        kind = "0" if (token.kind, token.text) == ("number", "0") else token.kind
        Refused.where(kind not in kinds, 4, token.place)
        Refused.where(level > DEEPEST, 5, token.place)
        self.at += 1
        return token

    def listed(self, item, level, word=","):
        """`item { "," item }`, or with another word between (LANGUAGE, "Grammar")."""
        items = [item(level)]
        while self.passes(word):
            items.append(item(level))
        return items

    def row(self, item, level):
        """`item { "," item } ")"`, behind its parenthesis (LANGUAGE, "Grammar")."""
        items = self.listed(item, level)
        self.take(")")
        return items

    def optional(self, item, level):
        """`[ "(" item { "," item } ")" ]` (LANGUAGE, "Grammar")."""
        return self.row(item, level) if self.passes("(") else []

    def spelled(self, items, level):
        """Pairs of an item and what is read for it; what is omitted is a `0` (LANGUAGE, "Grammar")."""
        first, parts = self.tokens[self.at - 1], []
        for item in items.split():
            if item in (";", "else"):
                parts.append((item, self.unit(level) if self.passes(item) else Unit(first, "0", [])))
            elif item in self.items:
                parts.append((item, self.items[item](level)))
            else:
                token = self.take(item)
                parts += [(item, token)] if item in ("name", "number") else []
        return parts

    def read(self, items, level):
        """What is read for items (LANGUAGE, "Grammar")."""
        return [part for _, part in self.spelled(items, level)]

    def file(self):
        """The declarations, and the process (LANGUAGE, "Grammar", file)."""
        declarations = []
        while not self.passes("process"):
            first, private = self.tokens[self.at], self.passes("private")
            form = self.take(*(("free", "fun") if private else DECLARATIONS)).kind
            declarations.append(Declaration(first, form, private, self.read(DECLARATIONS[form], 1)))
        return declarations, *self.read("proc end", 1)

    def query(self, level):
        """What a query asks for (LANGUAGE, "Grammar", query)."""
        if not self.passes("attacker"):
            left, = self.read("event atom ==>", level)
            right = [] if self.passes("false") else self.listed(self.items["alt"], level, "||")
            return Query("event", (left, right), None)
        self.take("(")
        form = "new" if self.passes("new") else "secret"
        asked, = self.read("name )" if form == "new" else "term )", level)
        return Query(form, asked, self.take("number") if self.passes("phase") else None)

    def atom(self, level):
        """An event, or an entry of a table (LANGUAGE, "Grammar", atom)."""
        return Term(self.begin(level, "name"), self.optional(self.term, level + 1))

    def term(self, level):
        """A term (LANGUAGE, "Grammar", term)."""
        first = self.begin(level, "name", "(")
        if first.kind == "name" and not self.passes("("):
            return Term(first, None)
        parts = self.row(self.term, level + 1)
        return parts[0] if len(parts) == 1 and first.kind == "(" else Term(first, parts)

    def pat(self, level):
        """A pattern (LANGUAGE, "Grammar", pat)."""
        first = self.begin(level, "name", "(", "=")
        if first.kind == "=":
            return Pattern(first, "equal", self.term(level + 1))
        if first.kind == "name" and not self.passes("("):
            return Pattern(first, "bind", None)
        parts = self.row(self.pat, level + 1)
        return parts[0] if len(parts) == 1 and first.kind == "(" else Pattern(first, "data", parts)

    def proc(self, level):
        """A process (LANGUAGE, "Grammar", proc)."""
        first = self.begin(level, *UNIT)
        self.at -= 1
        left = self.unit(level + 1)
        if not self.passes("|"):
            return left
        return Unit(first, "|", [("unit", left), ("proc", self.proc(level + 1))])

    def unit(self, level):
        """A unit (LANGUAGE, "Grammar", unit)."""
        first = self.begin(level, *UNIT)
        if first.kind == "(":
            return self.read("proc )", level + 1)[0]
        form = {"number": "0", "name": "macro"}.get(first.kind, first.kind)
        return Unit(first, form, self.spelled(UNITS[form], level + 1))
