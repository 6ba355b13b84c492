"""Rows of certificates: what shows that a clause subsumes another one, or satisfies the query."""

from clauses import can_be_equal, flat_fact, is_loose, numbered, replaced_fact
from terms import fits, variable

def covers(general, positions, special):
    """Whether a clause subsumes another by these positions (CERTIFICATE, "What has to be shown")."""
    table, unused = {}, dict(enumerate(special.hypotheses, 1))
    firm = [fact for fact in general.hypotheses if not is_loose(fact)]
    if len(firm) != len(positions) or not fits(general.conclusion, special.conclusion, table):
        return False
    for fact, position in zip(firm, positions):
        if position not in unused or not fits(fact, unused.pop(position), table):
            return False
    left = list(unused.values())
    for fact in general.hypotheses:
        for part in flat_fact(replaced_fact(fact, table)) if is_loose(fact) else []:
            if part not in left:
                return False
            left.remove(part)
    constraints = [replaced_fact(constraint, table) for constraint in general.constraints]
    return all(numbered(one) in special.constraints or not can_be_equal(one) for one in constraints)

def satisfies(query, row, clause):
    """Whether a clause satisfies the query by a goal row (CERTIFICATE, "What has to be shown")."""
    alternatives = query.asked[1] if query.form == "event" else []
    number, *positions = row
    if not 1 <= number <= len(alternatives) or len(alternatives[number - 1]) != len(positions):
        return False
    table = {variable(place): term for place, term in enumerate(clause.conclusion[1], 1)}
    hypotheses = dict(enumerate(clause.hypotheses, 1))
    return all(position in hypotheses and fits((("mev", word), terms), hypotheses[position], table)
               for (word, terms), position in zip(alternatives[number - 1], positions))
