"""Facts and clauses, and what is made of them.

A fact is a head and terms; heads are ("att", phase), ("mess", phase), ("tab", table), ("ev", event), ("mev",
event) and ("bad",). A constraint has the head ("diff",), and the terms of its left side, then of its right.
"""

from collections import namedtuple
from terms import DATA, VARIABLES, leaves, make, replaced, unify, variable
from words import Fault

LARGEST = 16_384

Clause = namedtuple("Clause", "hypotheses constraints conclusion")

class Large(Fault):
    """Too many symbols, in a translation with the point (CLAUSES, "Where a translation is too large")."""

def fact_size(fact):
    """The symbols of a fact, names of events and tables too, or a constraint (DEFINITIONS, "Clauses")."""
    return 1 + (fact[0][0] in ("tab", "ev", "mev")) + sum([term.size for term in fact[1]])

def is_large(clause):
    """Whether it has too many symbols (DEFINITIONS, "Clauses")."""
    return sum(map(fact_size, [*clause.hypotheses, *clause.constraints, clause.conclusion])) > LARGEST

def flat_fact(fact):
    """*Flat*: `att` of a tuple or of data is `att` of its parts, again and again (DEFINITIONS, "Clauses")."""
    head, terms = fact
    if head[0] != "att" or terms[0].symbol[0] not in DATA:
        return [fact]
    return [part for term in terms[0].arguments for part in flat_fact((head, (term,)))]

def flat(clause):
    """One flat clause for each part of the conclusion (DEFINITIONS, "Clauses")."""
    hypotheses = [part for fact in clause.hypotheses for part in flat_fact(fact)]
    return [Clause(hypotheses, clause.constraints, part) for part in flat_fact(clause.conclusion)]

def is_loose(fact):
    """Whether it is `att` of a variable, in whichever phase (CERTIFICATE, "What has to be shown")."""
    return fact[0][0] == "att" and fact[1][0].symbol[0] in VARIABLES

def selected(hypotheses):
    """*Selection*: its place, None where the clause is solved (DEFINITIONS, "Clauses")."""
    places = [place for place, fact in enumerate(hypotheses) if not is_loose(fact) and fact[0][0] != "mev"]
    return max(places, key=lambda place: fact_size(hypotheses[place]), default=None)

def replaced_fact(fact, table):
    """The fact or the constraint under a substitution (DEFINITIONS, "Clauses")."""
    return fact[0], replaced(fact[1], table)

def substituted(clause, table):
    """The clause under a substitution (DEFINITIONS, "Clauses")."""
    return Clause([replaced_fact(fact, table) for fact in clause.hypotheses],
                  [replaced_fact(constraint, table) for constraint in clause.constraints],
                  replaced_fact(clause.conclusion, table))

def occurring(facts):
    """The variables of facts, by first occurrence (CLAUSES, "What is done to each clause", 5)."""
    return leaves([term for fact in facts for term in fact[1]])

def can_be_equal(constraint, kinds=VARIABLES):
    """Whether variables of these kinds can make the sides equal (CLAUSES, "What is done to each clause")."""
    half = len(constraint[1]) // 2
    return unify(zip(constraint[1][:half], constraint[1][half:]), kinds) is not None

def numbered(constraint):
    """Its own variables numbered by first occurrence (CLAUSES, "What is done to each clause", 5)."""
    own = [leaf for leaf in occurring([constraint]) if leaf.bound]
    return replaced_fact(constraint, {leaf: variable(number, "?") for number, leaf in enumerate(own)})

def kept_constraints(constraints, firm):
    """The rules about constraints; None where one is never met (CLAUSES, "What is done to each clause")."""
    kept = [constraint for constraint in constraints if can_be_equal(constraint)]
    if any(can_be_equal(constraint, ("?",)) for constraint in kept):
        return None
    held = set(occurring(firm)) if kept else ()
    return [one for one in kept if all(leaf in held or leaf.bound for leaf in occurring([one]))]

def norm(clause):
    """The norm of a flat clause, None where it has none (CLAUSES, "What is done to each clause")."""
    conclusion, hypotheses = clause.conclusion, list(dict.fromkeys(clause.hypotheses))
    firm = [fact for fact in hypotheses if not is_loose(fact)]
    # Rule 4 is about a clause that is loose; it leaves one that passes on what he has as it is.
    loose = is_loose(conclusion) and selected(hypotheses) is None
    passes = loose and conclusion[1][0] not in occurring(firm) and any(
        is_loose(fact) and fact[1] == conclusion[1] for fact in hypotheses)
    constraints = kept_constraints(clause.constraints, firm if passes else firm + [conclusion])
    if constraints is None or conclusion in hypotheses:
        return None
    if loose and not passes:
        return Clause([], [], (conclusion[0], (variable(0),)))
    held = set(occurring(firm + [conclusion]))
    hypotheses = [fact for fact in hypotheses if not is_loose(fact) or fact[1][0] in held]
    order = occurring([conclusion] + hypotheses)
    table = {leaf: variable(number) for number, leaf in enumerate(order)}
    made = substituted(Clause(hypotheses, constraints, conclusion), table)
    return made._replace(constraints=list(dict.fromkeys(map(numbered, made.constraints))))

def norms(clause, *place):
    """The norms of a clause's flat parts, none of them too large (DEFINITIONS, "Clauses", *Resolvents*)."""
    parts = [clause] if is_large(clause) else flat(clause)
    Large.where(any(map(is_large, parts)), *place)
    return [made for made in map(norm, parts) if made is not None]

def apart(clause):
    """The clause with variables of a second kind (DEFINITIONS, "Clauses", *Resolvents*)."""
    own = occurring(clause.hypotheses + [clause.conclusion])
    return substituted(clause, {leaf: make(("w", leaf.symbol[1])) for leaf in own})

def resolvents(solved, unsolved, place):
    """*Resolvents* with a clause set apart, which selects a like fact at a place (DEFINITIONS, "Clauses")."""
    chosen, rest = unsolved.hypotheses[place], unsolved.hypotheses[:place] + unsolved.hypotheses[place + 1:]
    table = unify(zip(solved.conclusion[1], chosen[1]))
    if table is None:
        return []
    made = Clause(solved.hypotheses + rest, solved.constraints + unsolved.constraints, unsolved.conclusion)
    return norms(substituted(made, table))
