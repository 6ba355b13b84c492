"""`python3 second_checker check FILE REPORT`, or `replay FILE RUN`, answers as the program does, and `show check FILE REPORT`, which
reads format 3 too, as the second program.
Nothing is searched for: what a certificate claims is computed anew from its rows."""

import re
import sys
import threading
from pathlib import Path
import reports
import runs
import words
from certificates import Certificate, found
from grammar import Parser
from scope import protocol_of
from translation import Translation

USAGE = ("usage: verify FILE [--budget N] [--format F] | check FILE REPORT | list FILE QUERY | "
         "replay FILE RUN | ring N")

def answer(command, file, other, formats):
    """What is printed about files, and the status (FORMATS, "What is printed")."""
    text = Path(file).read_bytes()
    try:
        protocol = protocol_of(*Parser(words.tokens_of(text)).file())
    except words.Refused as fault:
        code, place = fault.args
        return ["refused %d:%d %d %s" % (*words.line_and_column(text, place), code, words.CODES[code])], 3
    text = Path(other).read_bytes()
    kind, codes = ("report", reports.CODES) if command == "check" else ("run", runs.CODES)
    try:
        return check(protocol, text, formats) if command == "check" else runs.replay(protocol, text)
    except words.Refused as fault:
        code, place = fault.args
        return ["refused %s %d %d %s" % (kind, words.line_and_column(text, place)[0], code, codes[code])], 4

def check(protocol, text, formats):
    """What is found of each query's claim, and the status (FORMATS, "What is printed")."""
    claims = reports.claims_of(protocol, text, formats)
    certified = any(isinstance(claim, Certificate) for claim in claims)
    translation = Translation(protocol) if certified else None
    answers = [found(query, translation, claim) for query, claim in zip(protocol.queries, claims)]
    status = 0 if all(what == "accepted" for what in answers) else 1
    return ["query %d %s" % (number, what) for number, what in enumerate(answers, 1)], status

def told(arguments):
    """What is printed for these words, and the status (FORMATS, "What is printed")."""
    shown = arguments[:2] == ["show", "check"]
    asked = arguments[shown:]
    named = not any(re.match("-.", name) for name in asked[1:])
    if len(asked) != 3 or asked[0] not in ("check", "replay") or not named:
        return [USAGE], 2
    try:
        return answer(*asked, (b"1\n", b"2\n", b"3\n") if shown else (b"1\n", b"2\n"))
    except OSError:
        return ["read fault"], 5

def main(arguments):
    """Prints the answer, and ends with its status (FORMATS, "What is printed")."""
    said = []
    thread = threading.Thread(target=lambda: said.extend(told(arguments)))
    thread.start()
    thread.join()
    lines, status = said
    sys.stdout.write("".join(line + "\n" for line in lines))
    sys.exit(status)

# Terms may be very deep, and what is done with one is done with its parts first.
sys.setrecursionlimit(1_000_000)
threading.stack_size(1 << 29)
if __name__ == "__main__":
    main(sys.argv[1:])
