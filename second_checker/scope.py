"""The protocol that a sketch spells. Faults are raised in the order in which they are looked at.

In the terms of a protocol a variable is ("v", number), and the restriction at a point ("new", point).
"""

import re
from collections import namedtuple
from math import prod
from types import SimpleNamespace
from terms import make, variable
from words import Refused

MOST_NAMES, MOST_PARTS, MOST_SYMBOLS, MOST_QUERIES = 1024, 16, 2000, 256
MOST_CHOICES, MOST_POINTS, MOST_ABOVE = 65_536, 4096, 511
CONSTRUCTORS = "fun", "data"

# The kind is the word of the declaration: "free", "fun", "data", "reduc", "event", "table" or "let". The body
# of a macro is its number among the declarations and its sketch, that of a destructor its rules.
Declared = namedtuple("Declared", "kind symbol arity public body")
# A row of patterns as terms, in which new variables stand for themselves; these by word; terms behind `=`.
Pattern = namedtuple("Pattern", "terms binds equals")
# A part of an expression that holds destructors: its symbol, its rules if that is one, all counts of rules.
Part = namedtuple("Part", "symbol rules arguments size counts")
# The form is "secret", "new" (asked: symbol and number of arguments) or "event" (asked: left side and
# alternatives); the width is the number of variables on the left side.
Query = namedtuple("Query", "form asked phase width")
# What is known of a place: what names are bound to, the points above, the phase, the outermost macro use, the
# number of the macro whose body it is, and how many messages, terms of entries and copies are above it.
Place = namedtuple("Place", "names above phase use macro past")
# A point has its number, its form, and what this has of `terms`, `pattern`, `value`, `counts` (of a `let`),
# `condition`, `name` (of an event, a table or a restriction), `leaf` (of a restriction), `phase`, `then`, and
# `other` (an else branch, or the second of two processes).
Point = SimpleNamespace

class Protocol:
    """What is declared, the process, the queries, the greatest phase (DEFINITIONS, "A protocol")."""
    def __init__(self):
        """Nothing yet; of restrictions the symbols and numbers of arguments (DEFINITIONS, "A protocol")."""
        self.declared, self.start, self.queries, self.restrictions, self.greatest = {}, None, [], {}, 0
        self.points = self.variables = 0

    def all(self, *kinds):
        """The declarations of these kinds, in their order (DEFINITIONS, "A protocol")."""
        return [declared for declared in self.declared.values() if declared.kind in kinds]

    def public_names(self):
        """The free names that aren't private (MODEL, "Configurations")."""
        return [make(declared.symbol) for declared in self.all("free") if declared.public]

    def new_name(self, token, printed):
        """A name that is declared, and may be printed in clauses (LANGUAGE, "Names")."""
        word = token.text
        Refused.where(word in self.declared, 7, token.place)
        Refused.where(printed and re.fullmatch("v[0-9]+", word), 9, token.place)
        Refused.where(len(self.declared) == MOST_NAMES, 11, token.place)
        return word

    def declaration(self, number, sketch):
        """Any but a query, and of a macro only its name (LANGUAGE, "Refusals")."""
        kind, parts = sketch.form, sketch.parts
        if kind == "reduc":
            self.rules(sketch.first, parts[0])
        elif kind != "query":
            for name in parts[0] if kind == "free" else parts[:1]:
                word = self.new_name(name, kind in ("free", *CONSTRUCTORS))
                arity = 0 if kind in ("free", "let") else self.limited(parts[1])
                body = (number, parts[1]) if kind == "let" else None
                self.declared[word] = Declared(kind, (kind, word), arity, not sketch.private, body)

    def limited(self, token):
        """A number of arguments, or of a phase (LANGUAGE, "Limits")."""
        Refused.where(int(token.text) > MOST_PARTS, 11, token.place)
        return int(token.text)

    def rules(self, start, sketches):
        """A `reduc`, whose rules have one name and one number of arguments (LANGUAGE, "Names")."""
        (name, arguments, _), rules = sketches[0], []
        word, count = self.new_name(name, False), len(arguments)
        for name, arguments, right in sketches:
            Refused.where(len(arguments) != count, 8, name.place)
            Refused.where(name.text != word, 9, name.place)
            numbers = {}
            left = [self.term(part, lambda token: self.rule_name(token, numbers, True)) for part in arguments]
            right = self.term(right, lambda token: self.rule_name(token, numbers, False))
            size = 1 + sum(term.size for term in left) + right.size
            Refused.where(count > MOST_PARTS or size > MOST_SYMBOLS, 11, name.place)
            rules.append((left, right))
        Refused.where(len(rules) > MOST_PARTS, 11, start.place)
        self.declared[word] = Declared("reduc", ("reduc", word), count, True, rules)

    def rule_name(self, token, numbers, left):
        """A name alone in a rule: a constructor without arguments, else a variable (LANGUAGE, "Names")."""
        declared = self.declared.get(token.text)
        if declared and declared.kind in CONSTRUCTORS and declared.arity == 0:
            return make(declared.symbol)
        Refused.where(not left and token.text not in numbers, 10, token.place)
        return variable(numbers.setdefault(token.text, len(numbers) + 1))

    def function(self, token, count, kinds):
        """The declared name of these kinds over so many arguments (LANGUAGE, "Names" and "Refusals")."""
        declared = self.declared.get(token.text)
        Refused.where(declared is None, 6, token.place)
        Refused.where(declared.kind not in kinds, 9, token.place)
        Refused.where(declared.arity != count, 8, token.place)
        return declared

    def declared_name(self, token):
        """A free name, or a constructor without arguments (LANGUAGE, "Names")."""
        return make(self.function(token, 0, ("free", *CONSTRUCTORS)).symbol)

    def symbol(self, token, count, kinds):
        """A tuple, if the token is a parenthesis, or a declared symbol and its rules (LANGUAGE, "Names")."""
        if token.text == "(":
            return ("tuple", count), None
        declared = self.function(token, count, kinds)
        return declared.symbol, declared.body

    def term(self, sketch, alone, kinds=CONSTRUCTORS):
        """A term, or an expression as a Part; `alone` reads a name alone (LANGUAGE, "Names" and "Limits")."""
        if sketch.arguments is None:
            return alone(sketch.first)
        symbol, rules = self.symbol(sketch.first, len(sketch.arguments), kinds)
        parts = tuple([self.term(part, alone, kinds) for part in sketch.arguments])
        size = 1 + sum(part.size for part in parts)
        Refused.where(len(parts) > MOST_PARTS or size > MOST_SYMBOLS, 11, sketch.first.place)
        counts = [count for part in parts if isinstance(part, Part) for count in part.counts]
        counts += [] if rules is None else [len(rules)]
        return Part(symbol, rules, parts, size, counts) if counts else make(symbol, parts)

    def terms(self, sketches, names, kinds=CONSTRUCTORS):
        """Terms of a process (LANGUAGE, "Names")."""
        def alone(token):
            """A name alone: the innermost that is bound, else a declared one (LANGUAGE, "Names")."""
            return names.get(token.text) or self.declared_name(token)

        return [self.term(sketch, alone, kinds) for sketch in sketches]

    def pattern(self, sketches, names):
        """A row of patterns, whose variables are seen behind all of it (LANGUAGE, "Names")."""
        pattern = Pattern([], {}, [])
        pattern.terms.extend([self.pattern_term(sketch, names, pattern) for sketch in sketches])
        return pattern

    def pattern_term(self, sketch, names, pattern):
        """A pattern as a term; what it binds and compares with is added (LANGUAGE, "Names")."""
        if sketch.form == "equal":
            pattern.equals.extend(self.terms([sketch.parts], names))
            return pattern.equals[-1]
        if sketch.form == "bind":
            Refused.where(sketch.first.text in pattern.binds, 7, sketch.first.place)
            self.variables += 1
            return pattern.binds.setdefault(sketch.first.text, variable(self.variables))
        symbol, _ = self.symbol(sketch.first, len(sketch.parts), ("data",))
        parts = tuple([self.pattern_term(part, names, pattern) for part in sketch.parts])
        Refused.where(len(parts) > MOST_PARTS, 11, sketch.first.place)
        return make(symbol, parts)

    def macro(self, token, place):
        """The macro that is used, one of those before the body that it stands in (LANGUAGE, "Names")."""
        declared = self.declared.get(token.text)
        Refused.where(declared is None, 6, token.place)
        Refused.where(declared.kind == "let" and declared.body[0] >= place.macro, 6, token.place)
        Refused.where(declared.kind != "let", 9, token.place)
        return declared.body

    def point(self, sketch, place):
        """A point, where there aren't too many, in all or above it (LANGUAGE, "Refusals", last paragraph)."""
        self.points += 1
        many = self.points > MOST_POINTS or place.above > MOST_ABOVE
        if many and place.use is None and sketch.form == "|" and sketch.first.kind == "name":
            self.macro(sketch.first, place)
        Refused.where(many, 11, (place.use or sketch.first).place)
        form = "let" if sketch.form == "if" else sketch.form
        return Point(number=self.points, form=form, terms=[], condition=[], counts=[])

    def process(self, sketch, place):
        """A process, part by part (LANGUAGE, "Names", "Phases" and "Tables")."""
        if sketch.form == "macro":
            number, body = self.macro(sketch.first, place)
            return self.process(body, place._replace(use=place.use or sketch.first, macro=number))
        point = self.point(sketch, place)
        place = place._replace(above=place.above + 1)
        below, names = place._replace(past=place.past + (sketch.form in ("!", "in"))), place.names
        for item, part in sketch.parts:
            if item == "term":
                point.terms += self.terms([part], names)
            elif item == "atom":
                point.name = self.atom(part, "event" if sketch.form == "event" else "table")
                point.terms = self.terms(part.arguments, names)
            elif item == "name":
                point.name, point.leaf = part.text, make(("new", point.number))
                below = place._replace(names={**names, point.name: point.leaf})
                self.restrictions["name", point.name, point.number] = place.past
            elif item == "pat":
                point.pattern = self.pattern([part], names)
                below = below._replace(names={**names, **point.pattern.binds})
            elif item == "columns":
                point.name, point.pattern = self.atom(part, "table"), self.pattern(part.arguments, names)
                below = place._replace(names={**names, **point.pattern.binds})
                below = below._replace(past=place.past + len(part.arguments))
            elif item == "condition":
                point.condition = self.terms(part, below.names)
            elif item == "expression":
                self.expression(point, *part, names)
            elif item == "test":
                point.value, other = self.terms(part, names)
                point.pattern = Pattern([other], {}, [other])
            elif item == "number":
                point.phase = self.limited(part)
                Refused.where(point.phase <= place.phase, 14, part.place)
                self.greatest = max(self.greatest, point.phase)
                below = place._replace(phase=point.phase)
            elif item in (";", "unit"):
                point.then = self.process(part, below)
            else:
                point.other = self.process(part, place)
        return point

    def expression(self, point, start, sketch, names):
        """What a `let` evaluates, with few destructors and choices (LANGUAGE, "Limits" and "Refusals")."""
        point.value, = self.terms([sketch], names, (*CONSTRUCTORS, "reduc"))
        point.counts = point.value.counts if isinstance(point.value, Part) else []
        many = len(point.counts) > MOST_PARTS or prod(point.counts) > MOST_CHOICES
        Refused.where(many, 11, start.place)

    def query(self, start, sketch):
        """What a query asks for (LANGUAGE, "Names", last paragraph, and "Phases")."""
        asked, phase, width, many = sketch.asked, self.greatest, 0, False
        if sketch.form == "event":
            (left, alternatives), numbers, sides = asked, {}, []
            left, width = self.query_event(left, numbers), len(numbers)
            for first, sketches in alternatives:
                sides.append([self.query_event(one, numbers) for one in sketches])
                Refused.where(len(sketches) > MOST_PARTS, 11, first.place)
            asked, many = (left, sides), len(sides) > MOST_PARTS
        elif sketch.form == "secret":
            asked = self.term(asked, self.declared_name)
        else:
            found = [item for item in self.restrictions.items() if item[0][1] == asked.text]
            Refused.where(not found, 6, asked.place)
            Refused.where(len(found) > 1, 12, asked.place)
            asked = found[0]
        if sketch.phase is not None:
            phase = self.limited(sketch.phase)
            Refused.where(phase > self.greatest, 14, sketch.phase.place)
        Refused.where(many or len(self.queries) == MOST_QUERIES, 11, start.place)
        self.queries.append(Query(sketch.form, asked, phase, width))

    def query_event(self, sketch, numbers):
        """An event of a query; what isn't declared is a variable (LANGUAGE, "Names", last paragraph)."""
        def alone(token):
            """A name alone in it (LANGUAGE, "Names", last paragraph)."""
            if token.text in self.declared:
                return self.declared_name(token)
            return variable(numbers.setdefault(token.text, len(numbers) + 1))

        word, terms = self.atom(sketch, "event"), [self.term(term, alone) for term in sketch.arguments]
        Refused.where(1 + sum(term.size for term in terms) > MOST_SYMBOLS, 11, sketch.first.place)
        return word, terms

    def atom(self, sketch, kind):
        """The name of an event or a table, over so many arguments (LANGUAGE, "Names")."""
        return self.function(sketch.first, len(sketch.arguments), (kind,)).symbol[1]

def protocol_of(declarations, process):
    """The declarations but the queries, then the process, then the queries (LANGUAGE, "Refusals")."""
    protocol = Protocol()
    for number, sketch in enumerate(declarations):
        protocol.declaration(number, sketch)
    protocol.start = protocol.process(process, Place({}, 0, 0, None, len(declarations), 0))
    for sketch in declarations:
        if sketch.form == "query":
            protocol.query(sketch.first, sketch.parts[0])
    return protocol
