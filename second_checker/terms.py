"""Terms, each made once: equal terms are one object, so they are compared by `is`.

Terms of protocols, of runs and of clauses are all of this kind. What the first item of a symbol tells:

    ("free", word)           a free name     ("fun", word), ("data", word)  constructors
    ("tuple", parts)         a tuple         ("name", word, point)          a name that a restriction makes
    ("made", number, point)  a name of a run ("own",)                       a name that the attacker makes
    ("v", number), ("w", number)  variables  ("?", number)                  a variable of a constraint alone
    ("new", point)           a restriction, in a protocol
"""

VARIABLES = "v", "w", "?"
DATA = "tuple", "data"
OPEN = *VARIABLES, "new"
MADE = {}

class Term:
    """A symbol over arguments; whether it has leaves to replace, and a `?` (DEFINITIONS, "Trees")."""
    __slots__ = "symbol", "arguments", "size", "open", "bound"

    def __init__(self, symbol, arguments):
        """The size counts symbols and variables, as often as they stand there (DEFINITIONS, "Clauses")."""
        self.symbol, self.arguments = symbol, arguments
        self.size = 1 + sum([term.size for term in arguments])
        self.open = symbol[0] in OPEN or any([term.open for term in arguments])
        self.bound = symbol[0] == "?" or any([term.bound for term in arguments])

def make(symbol, arguments=()):
    """The term with this symbol and these arguments (DEFINITIONS, "Trees")."""
    term = MADE.get((symbol, arguments))
    if term is None:
        term = MADE[symbol, arguments] = Term(symbol, arguments)
    return term

def variable(number, kind="v"):
    """The variable of this number (DEFINITIONS, "Clause terms")."""
    return make((kind, number))

def leaves(terms):
    """The leaves to replace, each once, by first occurrence (CLAUSES, "What is done to each clause")."""
    seen = {}
    note(terms, seen)
    return [term for term in seen if not term.arguments]

def note(terms, seen):
    """Notes all open terms within these, each before its arguments (DEFINITIONS, "Trees")."""
    for term in terms:
        if term.open and term not in seen:
            seen[term] = True
            note(term.arguments, seen)

def replace(term, table):
    """The term with leaves replaced by the table, which keeps what parts become (DEFINITIONS, "Trees")."""
    if term.open and term not in table:
        table[term] = make(term.symbol, replaced(term.arguments, table))
    return table.get(term, term)

def replaced(terms, table):
    """Each of the terms, replaced likewise (DEFINITIONS, "Trees")."""
    return tuple([replace(term, table) for term in terms])

def match(patterns, terms, table):
    """Whether a grown table makes the patterns the terms; it is grown (MODEL, "Patterns and destructors")."""
    if len(patterns) != len(terms):
        return False
    for pattern, term in zip(patterns, terms):
        if pattern in table or not pattern.open:
            if table.get(pattern, pattern) is not term:
                return False
        elif pattern.symbol[0] not in OPEN:
            if pattern.symbol != term.symbol or not match(pattern.arguments, term.arguments, table):
                return False
        table[pattern] = term
    return True

def fits(one, other, table):
    """The same of two facts, or two events, each a head and its terms (DEFINITIONS, "Clauses")."""
    return one[0] == other[0] and match(one[1], other[1], table)

def unify(pairs, kinds=VARIABLES):
    """A most general unifier, as a table for `replace`, or None (DEFINITIONS, "Clause terms")."""
    # Other variables are constants. What has to be equal is one class; `above` leads to another of it.
    above, stack = {}, list(pairs)
    while stack:
        one, two = (head(term, above) for term in stack.pop())
        if one is two:
            continue
        if one.symbol[0] not in kinds:
            one, two = two, one
        if one.symbol[0] not in kinds:
            if one.symbol != two.symbol:
                return None
            stack.extend(zip(one.arguments, two.arguments))
        above[one] = two
    table = {}
    for term in list(above):
        table[term] = resolved(term, above, table)
        if table[term] is None:
            return None
    return table

def head(term, above):
    """What stands for a term's class: no variable, if it has anything else (DEFINITIONS, "Clause terms")."""
    while term in above:
        before, term = term, above[term]
        above[before] = above.get(term, term)
    return term

def resolved(term, above, table):
    """What a term becomes, None where it would stand within itself (DEFINITIONS, "Clause terms")."""
    term = head(term, above)
    if term.open and term.arguments and term not in table:
        table[term] = None
        parts = []
        for part in term.arguments:
            parts.append(resolved(part, above, table))
            if parts[-1] is None:
                return None
        table[term] = make(term.symbol, tuple(parts))
    return table.get(term, term)
