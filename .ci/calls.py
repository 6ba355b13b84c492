"""What the checks of tables share: calls of the program, as it was proved and built, and rows that are compared with what they expect."""

import os
import subprocess
import sys
import tempfile
from concurrent.futures import ThreadPoolExecutor

TOP = os.path.dirname(os.path.dirname(os.path.abspath(__file__)))
PROGRAM = f"{TOP}/crates/hv/out/hv"
TABLES = f"{TOP}/rows"

# How many seconds a call may take.
SECONDS = 100


class Unreadable(Exception):
    """A line of a table that says nothing."""


def run(words, folder, program=None):
    """The status of a call of the program, or of another one, in a folder, and what it writes."""
    ran = subprocess.run(
        words, executable=program or PROGRAM, cwd=folder, stdin=subprocess.DEVNULL, stdout=subprocess.PIPE, timeout=SECONDS
    )
    return ran.returncode, ran.stdout


def write(files, folder):
    """Writes files, by their names, into a folder."""
    for name, content in files.items():
        with open(f"{folder}/{name}", "wb") as file:
            file.write(content)


def lines_of(table):
    """The lines of a table that are no comments, each with its place."""
    with open(f"{TABLES}/{table}", newline="", encoding="utf-8") as file:
        lines = file.read().split("\n")
    return [(f"{table}:{number}", line) for number, line in enumerate(lines, 1) if line and not line.startswith("#")]


def rows_of(table, reader):
    """The rows of a table, whose last line tells how many there are. The reader does what a line says, from its first word and what
    stands behind that, and answers its row, or None where it sets something for the rows below."""
    rows, end = [], None
    for place, line in lines_of(table):
        word, _, text = line.partition(" ")
        try:
            if end is not None:
                raise Unreadable
            if word == "total":
                end = int(text)
                continue
            row = reader(word, text)
        except (Unreadable, KeyError, ValueError, IndexError):
            sys.exit(f"rows/{place}: this line says nothing: {line[:80]}")
        if row:
            rows.append((place, row))
    if end != len(rows):
        sys.exit(f"rows/{table} has {len(rows)} rows, and says {end}")
    return rows


def difference(placed):
    """What a row shows, where that isn't what it expects."""
    place, (shown, expected, *given) = placed
    with tempfile.TemporaryDirectory() as folder:
        found = shown(folder, *given)
    if found == expected:
        return None
    return f"rows/{place}: expected {expected[:200]}, and it shows {found[:200]}"


def compare(name, tables):
    """Compares what all rows show with what they expect, side by side, and tells how many agree. `tables` has the rows by the names of
    their tables: what shows it, what is expected, and what the former is given."""
    if not os.access(PROGRAM, os.X_OK):
        sys.exit(f"{name}: the program isn't built")
    with ThreadPoolExecutor(os.cpu_count()) as pool:
        differences = [text for text in pool.map(difference, sum(tables.values(), [])) if text]
    if differences:
        sys.exit("\n".join(f"{name}: {text}" for text in differences))
    counts = ", ".join(f"{table} {len(rows)}" for table, rows in tables.items())
    print(f"{name}: {sum(map(len, tables.values()))} rows agree: {counts}")
