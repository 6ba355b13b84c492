"""The clauses of a protocol and a query."""

from collections import namedtuple
from itertools import product
from clauses import LARGEST, Clause, Large, fact_size, norms, replaced_fact
from scope import Part
from terms import leaves, make, replace, replaced, unify, variable

MOST_VISITS = 65_536

# What a visit carries: what the names in scope stand for, the hypotheses and constraints so far, the messages
# and terms of entries that were received, the numbers of the copies, and the phase.
Visit = namedtuple("Visit", "names hypotheses constraints messages copies phase")

def att(phase, term):
    """att(M), in a phase (CLAUSES, "Facts")."""
    return ("att", phase), (term,)

def mess(phase, channel, message):
    """mess(C,M), in a phase (CLAUSES, "Facts")."""
    return ("mess", phase), (channel, message)

def variables(first, count):
    """So many variables (CLAUSES, "Facts")."""
    return tuple(map(variable, range(first, first + count)))

def attacker(protocol):
    """What the attacker can do (CLAUSES, "One example, line by line", and "Phases" for each later one)."""
    one, two = variable(0), variable(1)
    for name in protocol.public_names():
        yield Clause([], [], att(0, name))
    yield Clause([], [], att(0, make(("own",), (one,))))
    for phase in range(protocol.greatest + 1):
        if phase:
            yield Clause([att(phase - 1, one)], [], att(phase, one))
        for declared in protocol.all("fun", "data"):
            parts = variables(0, declared.arity)
            made = make(declared.symbol, parts)
            if declared.public:
                yield Clause([att(phase, part) for part in parts], [], att(phase, made))
        for declared in protocol.all("reduc"):
            for left, right in declared.body:
                yield Clause([att(phase, term) for term in left], [], att(phase, right))
        yield Clause([mess(phase, two, one), att(phase, two)], [], att(phase, one))
        yield Clause([att(phase, one), att(phase, two)], [], mess(phase, one, two))

def goal(query):
    """The last clause, which keeps the variables of the left side (CLAUSES, "One example, line by line")."""
    asked = query.asked
    if query.form == "event":
        word, terms = asked[0]
        return norms(Clause([(("ev", word), tuple(terms))], [], (("bad",), variables(1, query.width))))
    if query.form == "new":
        asked = make(asked[0], variables(0, asked[1]))
    return norms(Clause([att(query.phase, asked)], [], (("bad",), ())))

def merged(value):
    """The parts of an expression that have no destructors (CLAUSES, "Where a translation is too large")."""
    return [term for part in value.arguments for term in merged(part)] if isinstance(value, Part) else [value]

class Translation:
    """The clauses but the goal, or what is too large (DEFINITIONS, "The translation")."""
    def __init__(self, protocol):
        """All visits are made (DEFINITIONS, "The translation")."""
        self.public = set(protocol.public_names())
        self.clauses = [made for clause in attacker(protocol) for made in norms(clause)]
        self.visits, self.newest, self.large = 0, 0, None
        try:
            self.visit(protocol.start, Visit({}, [], [], (), (), 0))
        except Large as point:
            self.large = point

    def fresh(self):
        """A variable that stands nowhere else (DEFINITIONS, "The translation")."""
        self.newest += 1
        return variable(self.newest)

    def limited(self, point, terms):
        """The terms, none of them too large (CLAUSES, "Where a translation is too large")."""
        Large.where(any(term.size > LARGEST for term in terms), point.number)
        return terms

    def values(self, point, terms, names):
        """The values of terms, which a visit evaluates (CLAUSES, "Where a translation is too large")."""
        return self.limited(point, replaced(terms, dict(names)))

    def add(self, point, visit, conclusion):
        """A visit's clause (CLAUSES, "One example, line by line")."""
        self.clauses += norms(Clause(visit.hypotheses, visit.constraints, conclusion), point.number)

    def assume(self, point, visit, fact):
        """The visit with one hypothesis more (CLAUSES, "One example, line by line")."""
        Large.where(fact_size(fact) > LARGEST, point.number)
        return visit._replace(hypotheses=visit.hypotheses + [fact])

    def sent(self, visit, channel, message):
        """`mess(C,M)`; on a public channel `att(M)` (CLAUSES, "One example, line by line")."""
        return att(visit.phase, message) if channel in self.public else mess(visit.phase, channel, message)

    def pattern(self, point, visit):
        """The terms of patterns, and the names with what they bind (DEFINITIONS, "The translation")."""
        self.values(point, point.pattern.equals, visit.names)
        names = {**visit.names, **{leaf: self.fresh() for leaf in point.pattern.binds.values()}}
        return replaced(point.pattern.terms, dict(names)), names

    def under(self, point, visit, table):
        """The visit under a unifier (DEFINITIONS, "The translation")."""
        names = {leaf: replace(term, table) for leaf, term in visit.names.items()}
        hypotheses = [replaced_fact(fact, table) for fact in visit.hypotheses]
        Large.where(any(fact_size(fact) > LARGEST for fact in hypotheses), point.number)
        self.limited(point, names.values())
        constraints = [replaced_fact(constraint, table) for constraint in visit.constraints]
        return Visit(names, hypotheses, constraints, replaced(visit.messages, table),
                     replaced(visit.copies, table), visit.phase)

    def visit(self, point, visit):
        """One visit, and what lies below it (CLAUSES, "One example, line by line", "Phases" and "Tables")."""
        self.visits += 1
        Large.where(self.visits > MOST_VISITS, point.number)
        form, below = point.form, visit
        if form in ("let", "get"):
            return (self.let if form == "let" else self.get)(point, visit)
        terms = self.values(point, point.terms, visit.names)
        if form == "!":
            below = visit._replace(copies=(*visit.copies, self.fresh()))
        elif form == "new":
            name = make(("name", point.name, point.number), (*visit.messages, *visit.copies))
            self.limited(point, [name])
            below = visit._replace(names={**visit.names, point.leaf: name})
        elif form == "out":
            self.add(point, visit, self.sent(visit, *terms))
        elif form == "in":
            (message,), names = self.pattern(point, visit)
            below = self.assume(point, visit, self.sent(visit, terms[0], message))
            below = below._replace(names=names, messages=(*visit.messages, message))
        elif form == "event":
            self.add(point, visit, (("ev", point.name), terms))
            below = self.assume(point, visit, (("mev", point.name), terms))
        elif form == "insert":
            self.add(point, visit, (("tab", point.name), terms))
        elif form == "phase":
            below = visit._replace(phase=point.phase)
        if form != "0":
            self.visit(point.then, below)
        if form == "|":
            self.visit(point.other, visit)

    def choices(self, value, names):
        """For each choice pairs to be made equal, and the value (CLAUSES, "One example, line by line")."""
        if not isinstance(value, Part):
            return [([], replace(value, names))]
        found = []
        for row in product(*[self.choices(part, names) for part in value.arguments]):
            pairs, parts = [pair for inner, _ in row for pair in inner], tuple([part for _, part in row])
            if value.rules is None:
                found.append((pairs, make(value.symbol, parts)))
            for left, right in value.rules or []:
                table = {leaf: self.fresh() for leaf in leaves(left)}
                found.append((pairs + list(zip(replaced(left, table), parts)), replace(right, table)))
        return found

    def let(self, point, visit):
        """Each choice that has a unifier, and then the else branch (CLAUSES, "Else branches")."""
        self.values(point, merged(point.value), visit.names)
        newest, below, constraints = self.newest, [], list(visit.constraints)
        (pattern,), names = self.pattern(point, visit)
        for pairs, value in self.choices(point.value, dict(visit.names)):
            pairs.append((pattern, value))
            table = unify(pairs)
            if table is not None:
                below.append(self.under(point, visit._replace(names=names), table))
            if point.other.form != "0":
                right, left = zip(*pairs)
                new = [leaf for leaf in leaves(left + right) if leaf.symbol[1] > newest]
                own = {leaf: variable(leaf.symbol[1], "?") for leaf in new}
                constraints.append((("diff",), replaced(left + right, own)))
        for one in below:
            self.visit(point.then, one)
        self.visit(point.other, visit._replace(constraints=constraints))

    def get(self, point, visit):
        """An entry is a hypothesis, its terms are messages, the condition is unified (CLAUSES, "Tables")."""
        terms, names = self.pattern(point, visit)
        sides = self.values(point, point.condition, names)
        below = self.assume(point, visit, (("tab", point.name), terms))
        below = below._replace(names=names, messages=visit.messages + terms)
        table = unify([sides] if sides else [])
        if table is not None:
            self.visit(point.then, self.under(point, below, table))
        self.visit(point.other, visit)
