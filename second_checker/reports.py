"""The claims that the text of a report makes.

A text is read from its first byte on, so the first fault is met; of those at a byte the least is told.
"""

import re
from certificates import Certificate
from clauses import Clause
from terms import make
from words import Refused

MOST_BYTES, MOST_IN_ALL, MOST_CLAUSES = 67_108_864, 67_108_864, 1_000_000
MOST_LEVELS, MOST_SYMBOLS, MOST_PARTS = 16_384, 16_384, 16
CODES = [None, *"Syntax Number Symbol Arity Count LongFile NodeOrder NodeLarge".split()]

WORD, DIGITS, TEXT = re.compile(rb"[A-Za-z_][A-Za-z0-9_']*"), re.compile(rb"[0-9]+"), re.compile(rb"[^\n]+")
# The letters of the lines of a certificate, by what names its format.
LINES = {b"1\n": b"crge", b"2\n": b"ncrge", b"3\n": b"ncsrge"}
CONCLUSIONS = b"att", b"mess", b"tab(", b"ev(", b"bad("
HYPOTHESES = b"att", b"mess", b"tab(", b"ev(", b"mev("

def number_of(digits, place):
    """The number that digits are (FORMATS, "The text of a report", 2 Number)."""
    Refused.where(len(digits) > 9 or len(digits) > 1 and digits.startswith(b"0"), 2, place)
    return int(digits)

class Reader:
    """A place in the text; each method reads what it is called after (FORMATS, "The text of a report")."""
    def __init__(self, protocol, text, formats):
        """The beginning of a text, whose certificates have these formats (FORMATS, "The text of a report")."""
        self.protocol, self.text, self.at, self.formats = protocol, text, 0, formats
        # Of a certificate of format 2 the nodes, their numbers, and how many were reached; the symbols of the
        # clause so far, and those of all clauses before it.
        self.nodes, self.numbers, self.reached, self.symbols, self.earlier = None, {}, 0, 0, 0

    def ends_here(self, end):
        """What ends there is cut (DECISIONS, "At the end of the bytes no word and no number has ended")."""
        # If this did nothing, words and numbers would end there as they do at any byte that isn't theirs.
        Refused.where(end == len(self.text), 1, end)

    def next(self):
        """The next byte, none at the end (FORMATS, "The text of a report")."""
        return self.text[self.at:self.at + 1]

    def passes(self, byte):
        """Whether this byte is next; it is passed over then (FORMATS, "The text of a report")."""
        found = self.next() == byte
        self.at += found
        return found

    def one_of(self, *options):
        """Passes over the one that stands here (FORMATS, "The text of a report", 1 Syntax)."""
        for option in options:
            if self.text.startswith(option, self.at):
                self.at += len(option)
                return option
        raise Refused(1, self.at + max(size for option in options for size in range(len(option))
                                       if self.text.startswith(option[:size], self.at)))

    def piece(self, pattern):
        """A word or digits, and their place (FORMATS, "The text of a report", IDENT and NUM)."""
        found = pattern.match(self.text, self.at)
        Refused.where(found is None, 1, self.at)
        self.ends_here(found.end())
        self.at = found.end()
        return found[0], found.start()

    def number(self):
        """A number (FORMATS, "The text of a report", NUM)."""
        return number_of(*self.piece(DIGITS))

    def symbol(self, constraint, several, own, opening):
        """The symbol of a term or a node, and its number of arguments (FORMATS, "The text of a clause")."""
        place, byte = self.at, self.next()
        if byte == b"?":
            Refused.where(not constraint, 3, place)
            self.at += 1
            return ("?", self.number()), 0
        if byte in (b"(", b"@"):
            self.one_of(several, own)
            return (("tuple",), 2) if byte == b"(" else (("own",), 1)
        word, _ = self.piece(WORD)
        if self.passes(b"@"):
            symbol = "name", word.decode(), self.number()
            Refused.where(symbol not in self.protocol.restrictions, 3, place)
            return symbol, self.protocol.restrictions[symbol]
        if word[:1] == b"v" and word[1:].isdigit() and self.next() != opening:
            return ("v", number_of(word[1:], place + 1)), 0
        declared = self.protocol.declared.get(word.decode())
        Refused.where(declared is None or declared.kind not in ("free", "fun", "data"), 3, place)
        return declared.symbol, declared.arity

    def made(self, place, symbol, arity, parts):
        """The term of a symbol and its arguments (FORMATS, "The text of a report", 4 Arity)."""
        is_tuple, several = symbol == ("tuple",), 2 <= len(parts) <= MOST_PARTS
        Refused.where(not several if is_tuple else len(parts) != arity, 4, place)
        return make(("tuple", len(parts)) if is_tuple else symbol, tuple(parts))

    def term(self, constraint=False, level=1):
        """A term, or the number of its node (FORMATS, "The text of a report", t and 5 Count)."""
        if self.nodes is not None:
            return self.cited(constraint)
        place, parts = self.at, ()
        try:
            symbol, arity = self.symbol(constraint, b"(", b"@[", b"(")
            end = {"tuple": b")", "own": b"]"}.get(symbol[0], b"")
            if symbol[0] == "name":
                self.one_of(b"[")
                end = b"" if self.passes(b"]") else b"]"
            elif symbol[0] in ("free", "fun", "data") and self.passes(b"("):
                end = b")"
            Refused.where(arity and not end, 4, place)
        except Refused as fault:
            Refused.where(level > MOST_LEVELS and fault.args[1] != place, 5, place)
            raise
        Refused.where(level > MOST_LEVELS, 5, place)
        if symbol in (("tuple",), ("own",)):
            parts = (self.term(constraint, level + 1),)
            self.one_of(b"," if symbol == ("tuple",) else end)
        if end and symbol != ("own",):
            parts += self.terms(end, constraint, level + 1)
        return self.made(place, symbol, arity, parts)

    def terms(self, end, constraint=False, level=1):
        """Terms and the byte that ends them (FORMATS, "The text of a report")."""
        terms = [self.term(constraint, level)]
        while self.one_of(b",", end) == b",":
            terms.append(self.term(constraint, level))
        return tuple(terms)

    def cited(self, constraint):
        """The node of a number in a clause (FORMATS, "The text of a report", 3, 7 and 8)."""
        place, number = self.at, self.number()
        node = self.nodes[number - 1] if 1 <= number <= len(self.nodes) else None
        Refused.where(node and node.bound and not constraint, 3, place)
        Refused.where(node is None or not self.reaches(number), 7, place)
        self.symbols += node.size
        large = self.symbols > MOST_SYMBOLS or self.symbols + self.earlier > MOST_IN_ALL
        Refused.where(large, 8, place)
        return node

    def reaches(self, number):
        """Whether the walk completes new nodes in order (CERTIFICATE, "The same certificate by a table")."""
        if number > self.reached:
            for part in self.nodes[number - 1].arguments:
                if not self.reaches(self.numbers[part]):
                    return False
            if number != self.reached + 1:
                return False
            self.reached = number
        return True

    def node(self):
        """One more node of the table (FORMATS, "The text of a report", node)."""
        place, parts = self.at, []
        symbol, arity = self.symbol(True, b"()", b"@ ", b" ")
        self.ends_here(self.at)
        # The space behind `@` is that of its argument.
        self.at -= symbol == ("own",)
        most = {"v": 0, "?": 0, "own": 1}.get(symbol[0])
        while len(parts) != most and self.passes(b" "):
            behind, number = self.at, self.number()
            Refused.where(not 1 <= number <= len(self.nodes), 7, behind)
            parts.append(self.nodes[number - 1])
        node = self.made(place, symbol, arity, parts)
        Refused.where(node in self.numbers, 7, place)
        Refused.where(node.size > MOST_SYMBOLS, 8, place)
        self.nodes.append(node)
        self.numbers[node] = len(self.nodes)

    def fact(self, predicate):
        """A fact, behind its predicate (FORMATS, "The text of a clause")."""
        kind = predicate.decode().rstrip("(")
        self.symbols += 1 + (kind in ("tab", "ev", "mev"))
        if kind == "bad":
            return ("bad",), () if self.passes(b")") else self.terms(b")")
        if kind in ("att", "mess"):
            head, terms = (kind, 0), ()
            if self.passes(b"@"):
                place, head = self.at, (kind, self.number())
                Refused.where(not 1 <= head[1] <= self.protocol.greatest, 3, place)
            self.one_of(b"(")
            if kind == "mess":
                terms = (self.term(),)
                self.one_of(b",")
            terms += (self.term(),)
        else:
            word, place = self.piece(WORD)
            head, declared = (kind, word.decode()), self.protocol.declared.get(word.decode())
            wanted = "table" if kind == "tab" else "event"
            Refused.where(declared is None or declared.kind != wanted, 3, place)
            terms = self.terms(b")") if self.passes(b"(") else ()
            Refused.where(len(terms) != declared.arity, 4, place)
        self.one_of(b")")
        return head, terms

    def clause(self):
        """A clause (FORMATS, "The text of a clause")."""
        hypotheses, constraints, place = [], [], self.at
        word = self.one_of(b"=> ", *HYPOTHESES, b"diff(")
        while word not in (b"=> ", b" => "):
            if word == b"diff(":
                self.symbols += 1
                left, right = self.terms(b";", True), self.terms(b")", True)
                Refused.where(len(left) != len(right), 4, place)
                constraints.append((("diff",), left + right))
            else:
                hypotheses.append(self.fact(word))
            word = self.one_of(b", ", b" => ")
            if word == b", ":
                place = self.at
                word = self.one_of(*(() if constraints else HYPOTHESES), b"diff(")
        return Clause(hypotheses, constraints, self.fact(self.one_of(*CONCLUSIONS)))

    def certificate(self):
        """Lines n (not in format 1), c, s (in format 3), r, g and e, in this order (FORMATS, "The text of a report", cert)."""
        self.one_of(b"cert ")
        left = LINES[self.one_of(*self.formats)]
        self.nodes, self.numbers, self.reached, self.earlier = [] if b"n" in left else None, {}, 0, 0
        clauses, chosen, rows = [], {}, {b"r": [], b"g": []}
        while True:
            letter, place = self.next(), self.at
            Refused.where(not letter or letter not in left, 1, place)
            left = left[left.index(letter):]
            Refused.where(letter == b"c" and len(clauses) == MOST_CLAUSES, 5, place)
            Refused.where(letter in b"rge" and self.reached < len(self.numbers), 7, place)
            self.one_of(b"end\n" if letter == b"e" else letter + b" ")
            if letter == b"e":
                return Certificate(clauses, chosen, rows[b"r"], rows[b"g"])
            if letter == b"n":
                self.node()
            elif letter == b"c":
                self.symbols = 0
                clauses.append(self.clause())
                self.earlier += self.symbols
            elif letter == b"s":
                place, clause = self.at, self.number()
                Refused.where(not max(chosen, default=0) < clause <= len(clauses), 5, place)
                self.one_of(b" ")
                chosen[clause] = self.number()
            else:
                row = [self.number()]
                while self.passes(b" "):
                    row.append(self.number())
                rows[letter].append(row)
            self.one_of(b"\n")

    def claim(self, expected):
        """The claim of the query of this number, None past the last (FORMATS, "The text of a report")."""
        self.one_of(b"query ")
        place = self.at
        Refused.where(self.number() != expected, 5, place)
        word = self.one_of(b" proved\n", b" unknown ", b" attack\n")
        if word == b" proved\n":
            return self.certificate() if self.next() == b"c" else "missing"
        if word == b" unknown ":
            self.piece(TEXT)
            self.one_of(b"\n")
        while word == b" attack\n" and self.one_of(b"s ", b"end\n") == b"s ":
            self.piece(TEXT)
            self.one_of(b"\n")
        return "not claimed"

def claims_of(protocol, text, formats):
    """The claims of a report, one for each query (FORMATS, "The text of a report", claims)."""
    Refused.where(len(text) > MOST_BYTES, 6, 0)
    reader, claims, count = Reader(protocol, text, formats), [], len(protocol.queries)
    while reader.at < len(text):
        claims.append(reader.claim(len(claims) + 1 if len(claims) < count else None))
    Refused.where(len(claims) < count, 5, len(text))
    return claims
