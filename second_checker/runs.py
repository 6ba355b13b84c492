"""Runs, replayed.

A step looks at its causes in their order, 9 Large behind all others, and changes nothing before that.
"""

import re
from itertools import product
from scope import CONSTRUCTORS, Part
from terms import DATA, fits, make, match, replace, replaced
from words import Fault, Refused

MOST_BYTES, MOST_IN_LINE, LARGEST, MOST_PARTS = 16_777_216, 256, 16_384, 16
CODES = [None, *"Word Number LongLine LongFile".split()]
CAUSES = [None, *("NoThread WrongForm UnknownChannel ChannelsDiffer NoKnowledge NoRule NotFailing NotPublic "
                  "Large NoEntry").split()]

# Of each word the method, and how many numbers it takes, or at least; the forms of steps of one thread alone.
STEPS = {
    "build": ("build", 1), "reduce": ("reduce", 2), "part": ("part", 2), "fresh": ("fresh", 0),
    "split": ("alone", 1), "copy": ("alone", 1), "make": ("alone", 1), "mark": ("alone", 1),
    "insert": ("alone", 1), "pass": ("transfer", 2), "hear": ("transfer", 1), "say": ("transfer", 2),
    "take": ("let", 1), "fail": ("let", 1), "get": ("table", 2), "miss": ("table", 1), "next": ("next", 0)}
OR_MORE = "build", "reduce", "take"
FORMS = {"split": "|", "copy": "!", "make": "new", "mark": "event", "insert": "insert"}

class Stuck(Fault):
    """A step that isn't possible: its cause (FORMATS, "Steps that are refused")."""

def steps_of(text):
    """The steps, each a word and its numbers (FORMATS, "The text of a run")."""
    Refused.where(len(text) > MOST_BYTES, 4, 0)
    lines, steps, place = text.split(b"\n"), [], 0
    for line in lines if lines[-1] else lines[:-1]:
        word, *numbers = line.decode("latin-1").split(" ")
        Refused.where(len(line) > MOST_IN_LINE, 3, place)
        Refused.where(word not in STEPS, 1, place)
        more = len(numbers) - STEPS[word][1]
        spelled = all(re.fullmatch("0|[1-9][0-9]{0,8}", digits) for digits in numbers)
        Refused.where(more < 0 or more > 0 and word not in OR_MORE or not spelled, 2, place)
        steps.append((word, [int(digits) for digits in numbers]))
        place += len(line) + 1
    return steps

def applied(rule, values):
    """The value that a rule gives, None where it gives none (MODEL, "Patterns and destructors")."""
    table, (left, right) = {}, rule
    return replace(right, table) if match(left, values, table) else None

def numbered(items, number):
    """The item of this number, from 1, None where there is none (FORMATS, "The text of a run")."""
    return items[number - 1] if 1 <= number <= len(items) else None

class Run:
    """A configuration (MODEL, "Configurations")."""
    def __init__(self, protocol):
        """The start; a thread is a point, or None at its end, and what is bound (MODEL, "Configurations")."""
        self.protocol, self.threads, self.known = protocol, [(protocol.start, {})], protocol.public_names()
        self.knows, self.points = set(self.known), set()
        self.events, self.entries, self.names, self.phase = [], [], 0, 0

    def stand(self, *wanted):
        """The threads of these numbers, each at its form (FORMATS, "Steps that are refused", 1 and 2)."""
        found = [numbered(self.threads, number) for number, _ in wanted]
        Stuck.where(None in found, 1)
        Stuck.where(not all(point and point.form == form for (point, _), (_, form) in zip(found, wanted)), 2)
        return found

    def value(self, number):
        """The known value of this number (FORMATS, "Steps that are refused", 5)."""
        Stuck.where(numbered(self.known, number) is None, 5)
        return numbered(self.known, number)

    def limit(self, values):
        """No value is too large (FORMATS, "Steps that are refused", 9)."""
        Stuck.where(any(value.size > LARGEST for value in values), 9)

    def learn(self, value):
        """A value becomes known, as the last one (MODEL, "Steps")."""
        self.limit([value])
        self.known.append(value)
        self.knows.add(value)
        if value.symbol[0] == "made":
            self.points.add(value.symbol[2])

    def made(self, point):
        """A name that no one else has (MODEL, "Names and values")."""
        self.names += 1
        return make(("made", self.names, point))

    def go(self, number, point, bound=None):
        """A thread goes on at a point, with what it has bound, or with this (MODEL, "Steps")."""
        self.threads[number - 1] = point, self.threads[number - 1][1] if bound is None else bound

    def bound(self, pattern, values, bound):
        """What is bound where values match patterns, else None (MODEL, "Patterns and destructors")."""
        table = dict(bound)
        if not match(pattern.terms, values, table):
            return None
        return {**bound, **{leaf: table[leaf] for leaf in pattern.binds.values()}}

    def results(self, value, bound, label, seen):
        """The values by this choice or by all, and `seen` of parts (MODEL, "What a `let` evaluates")."""
        if not isinstance(value, Part):
            results = [replace(value, dict(bound))]
        else:
            rows = product(*[self.results(part, bound, label, seen) for part in value.arguments])
            if value.rules is None:
                results = [make(value.symbol, row) for row in rows]
            else:
                rules = value.rules if label is None else [numbered(value.rules, label.pop(0))]
                found = dict.fromkeys(applied(rule, row) for row in rows for rule in rules if rule)
                results = [result for result in found if result is not None]
        seen += results
        return results

    def build(self, _, number, *places):
        """build F K.., where 0 is the tuple (MODEL, "Steps")."""
        found = numbered(self.protocol.all(*CONSTRUCTORS), number)
        fit = len(places) == found.arity if found else number == 0 and 2 <= len(places) <= MOST_PARTS
        Stuck.where(not fit, 2)
        values = tuple([self.value(place) for place in places])
        Stuck.where(found and not found.public, 8)
        self.learn(make(found.symbol if found else ("tuple", len(places)), values))

    def reduce(self, _, number, rule, *places):
        """reduce D R K.. (MODEL, "Steps")."""
        found = numbered(self.protocol.all("reduc"), number)
        Stuck.where(found is None or found.arity != len(places), 2)
        values, chosen = [self.value(place) for place in places], numbered(found.body, rule)
        result = applied(chosen, values) if chosen else None
        Stuck.where(result is None, 6)
        self.learn(result)

    def part(self, _, place, number):
        """part K I (MODEL, "Steps")."""
        value = self.value(place)
        Stuck.where(value.symbol[0] not in DATA or numbered(value.arguments, number) is None, 2)
        self.learn(numbered(value.arguments, number))

    def fresh(self, _):
        """fresh (MODEL, "Steps")."""
        self.learn(self.made(None))

    def alone(self, word, number):
        """split, copy, make, mark and insert: one thread, whatever there is (MODEL, "Steps")."""
        (point, bound), = self.stand((number, FORMS[word]))
        values = replaced(point.terms, dict(bound))
        self.limit(values)
        if word in ("mark", "insert"):
            (self.events if word == "mark" else self.entries).append((point.name, values))
        if word == "make":
            bound = {**bound, point.leaf: self.made(point.number)}
        if word != "copy":
            self.go(number, point.then, bound)
        if word in ("split", "copy"):
            self.threads.append((point.other if word == "split" else point.then, bound))

    def transfer(self, word, *numbers):
        """hear, say and pass: what is sent, or known, becomes known or is received (MODEL, "Steps")."""
        forms = {"hear": ["out"], "say": ["in"], "pass": ["out", "in"]}[word]
        found = self.stand(*zip(numbers, forms))
        values, (point, bound) = [replaced(point.terms, dict(bound)) for point, bound in found], found[-1]
        Stuck.where(word != "pass" and values[0][0] not in self.knows, 3)
        Stuck.where(values[0][0] is not values[-1][0], 4)
        message = self.value(numbers[1]) if word == "say" else values[0][1]
        equals = () if word == "hear" else replaced(point.pattern.equals, dict(bound))
        self.limit([*values[0], *values[-1], *equals])
        if word != "say":
            self.go(numbers[0], found[0][0].then)
        if word == "hear":
            self.learn(message)
        else:
            more = self.bound(point.pattern, [message], bound)
            self.go(numbers[len(forms) - 1], None if more is None else point.then, more)

    def let(self, word, number, *label):
        """take and fail: the value by one choice matches, or none (MODEL, "What a `let` evaluates")."""
        (point, bound), = self.stand((number, "let"))
        count = len(point.counts)
        Stuck.where(word == "take" and (len(label) != count if count else label != (0,)), 6)
        seen = list(replaced(point.pattern.equals, dict(bound)))
        results = self.results(point.value, bound, list(label) if word == "take" else None, seen)
        matches = [self.bound(point.pattern, [result], bound) for result in results]
        self.branch(number, matches, 6 if word == "take" else None, seen)

    def table(self, word, number, *place):
        """get and miss: one entry can be taken, or none can (MODEL, "Steps")."""
        (point, bound), = self.stand((number, "get"))
        entries = self.entries if word == "miss" else [numbered(self.entries, *place)]
        seen, matches = list(replaced(point.pattern.equals, dict(bound))), []
        for entry in entries:
            more = self.bound(point.pattern, entry[1], bound) if entry and entry[0] == point.name else None
            sides = replaced(point.condition, dict(more)) if more is not None else ()
            seen += sides
            matches.append(more if sides[:1] == sides[1:] else None)
        self.branch(number, matches, 10 if word == "get" else None, seen)

    def branch(self, number, matches, cause, seen):
        """A thread goes on with the first match, or, without a cause, to its else branch (MODEL, "Steps")."""
        found = [match for match in matches if match is not None]
        Stuck.where(cause and not found, cause)
        Stuck.where(not cause and found, 7)
        self.limit(seen)
        point, bound = self.threads[number - 1]
        self.threads[number - 1] = (point.then, found[0]) if found else (point.other, bound)

    def next(self, _):
        """next (MODEL, "Steps")."""
        Stuck.where(self.phase == self.protocol.greatest, 2)
        self.phase += 1
        for number, (point, _) in enumerate(self.threads, 1):
            waits = point.phase if point and point.form == "phase" else 0
            if waits <= self.phase:
                self.go(number, point.then if waits == self.phase else None)

    def violates(self, query, before):
        """Whether it is violated, with so many events before the last step (MODEL, "What a query asks")."""
        if query.form != "event":
            known = query.asked[0][2] in self.points if query.form == "new" else query.asked in self.knows
            return known and self.phase <= query.phase
        table, (event, alternatives) = {}, query.asked
        if len(self.events) == before or not fits(event, self.events[before], table):
            return False
        return not any(self.found(events, before, table) for events in alternatives)

    def found(self, events, number, table):
        """Whether the first so many events have these among them (MODEL, "What a query asks")."""
        if not events:
            return True
        tables = []
        for event in events:
            tables.append([])
            for performed in self.events[:number]:
                more = dict(table)
                if fits(event, performed, more) and more not in tables[-1]:
                    tables[-1].append(more)
        # The event that the fewest fit is looked for first.
        fewest = min(range(len(events)), key=lambda place: len(tables[place]))
        return any(self.found(events[:fewest] + events[fewest + 1:], number, more) for more in tables[fewest])

def replay(protocol, text):
    """The lines of a replay, and the status (FORMATS, "What is printed")."""
    steps, run, first = steps_of(text), Run(protocol), {}
    for number, (word, numbers) in enumerate([(None, []), *steps]):
        before = len(run.events)
        try:
            if word:
                getattr(run, STEPS[word][0])(word, *numbers)
        except Stuck as stuck:
            return ["stuck %d %d %s" % (number, stuck.args[0], CAUSES[stuck.args[0]])], 1
        for place, query in enumerate(protocol.queries, 1):
            if place not in first and run.violates(query, before):
                first[place] = "violated %d" % number
    count = len(protocol.queries)
    lines = ["query %d %s" % (place, first.get(place, "not violated")) for place in range(1, count + 1)]
    return ["done %d" % len(steps), *lines], 1 if first else 0
