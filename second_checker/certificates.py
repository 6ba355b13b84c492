"""What is found of a claim: the obligations of its certificate, in their order."""

from collections import defaultdict, deque, namedtuple
from itertools import chain
from clauses import Large, apart, flat, is_large, is_loose, norm, resolvents, selected
from rows import covers, satisfies
from translation import goal
from words import Fault

# The clauses, by the number of a clause what is chosen of it, and of each row its numbers.
Certificate = namedtuple("Certificate", "clauses chosen covers goals")

class Unmet(Fault):
    """The first obligation that isn't met (FORMATS, "The certificates that are refused")."""

def found(query, translation, claim):
    """What is found of a claim, a certificate or what is said of none (FORMATS, "What is printed")."""
    if not isinstance(claim, Certificate):
        return claim
    try:
        rule(query, translation, claim)
    except Unmet as obligation:
        return "refused %s" % obligation
    return "accepted"

def rule(query, translation, certificate):
    """The obligations, each with the next row (CERTIFICATE, "What has to be shown")."""
    clauses, rows, goals = certificate.clauses, deque(certificate.covers), deque(certificate.goals)
    for number, clause in enumerate(clauses, 1):
        wide = clause.conclusion[0] != ("bad",) or len(clause.conclusion[1]) == query.width
        shapely = wide and not is_large(clause) and flat(clause) == [clause] == [norm(clause)]
        Unmet.where(not shapely, "shape %d" % number)
    places = [place_chosen(clause, certificate.chosen.get(number)) for number, clause in enumerate(clauses, 1)]
    for number, (clause, place) in enumerate(zip(clauses, places), 1):
        Unmet.where(not is_right(clause, place), "shape %d" % number)
    Unmet.where(translation.large, "translation %s" % translation.large)
    given = enumerate(translation.clauses + goal(query), 1)
    to_cover = [("cover %d" % number, clause) for number, clause in given]
    for obligation, clause in chain(to_cover, closure(clauses, places)):
        number, *positions = rows.popleft() if rows else [0]
        shown = 1 <= number <= len(clauses) and covers(clauses[number - 1], positions, clause)
        Unmet.where(not shown, obligation)
    for number, clause in enumerate(clauses, 1):
        if clause.conclusion[0] == ("bad",) and places[number - 1] is None:
            Unmet.where(not goals or not satisfies(query, goals.popleft(), clause), "goal %d" % number)
    last = len(certificate.covers) + (0 if rows else len(certificate.goals))
    Unmet.where(rows or goals, "extra %d" % (last - len(rows or goals) + 1))

def place_chosen(clause, number):
    """The place of the hypothesis that is chosen, None where the clause rests (CERTIFICATE, "A choice of its own")."""
    if number is None:
        return selected(clause.hypotheses)
    return number - 1 if number else None

def is_right(clause, place):
    """Whether that may be chosen, or the clause may rest (CERTIFICATE, "A choice of its own")."""
    if place is None:
        return selected(clause.hypotheses) is None or not is_loose(clause.conclusion)
    return place < len(clause.hypotheses) and selected(clause.hypotheses[place:place + 1]) is not None

def closure(clauses, places):
    """An obligation for each resolvent of two of the clauses (CERTIFICATE, "What has to be shown", 3)."""
    solved, unsolved = [], defaultdict(list)
    for number, (clause, place) in enumerate(zip(clauses, places), 1):
        if place is None:
            solved.append((number, clause))
        else:
            unsolved[clause.hypotheses[place][0]].append((number, apart(clause), place))
    for number, clause in solved:
        for other, partner, place in unsolved[clause.conclusion[0]]:
            try:
                made = resolvents(clause, partner, place)
            except Large:
                raise Unmet("closure %d %d 0" % (number, other)) from None
            for count, resolvent in enumerate(made, 1):
                yield "closure %d %d %d" % (number, other, count), resolvent
