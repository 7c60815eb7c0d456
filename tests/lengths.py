"""How long functions and their clauses are, and which places of the sources have the same lines.

A body's lines are those between its brackets, without comments and blank lines. Its clauses' lines are those on which
they stand. Of places that have the same lines, blank ones, comments, imports and lone punctuation don't count, nor do
spaces at a line's begin and end.
"""
import collections
import itertools
import re

from common import CRATES, files_in, read
from contracts import NO_CODE, behind, clauses

FUNCTION = re.compile(r"\bfn (\w+)")
# What tells an error's number, and an arm of it that spells one.
NUMBER, SPELLED = "number", re.compile(r"=> *\d")
# A body of more lines is a long one; a function whose clauses take more has long clauses; and so many equal lines
# are no accident.
MOST_LINES, MOST_CLAUSES, EQUAL = 40, 16, 11
# What doesn't count where lines are compared.
THIN = re.compile(r"[\W_]*$|//|(pub(\(crate\))? |ghost )?use\b|#\[|#!\[")


def filled(text):
    """How many lines of a text aren't blank."""
    return sum(bool(line.strip()) for line in text.split("\n"))


def functions(crate):
    """Of each function of a crate that has a body: its name, its body, and the text of its clauses."""
    for path in files_in(f"{CRATES}/{crate}/src", ".rt"):
        text = NO_CODE.sub(" ", read(path))
        for found in FUNCTION.finditer(text):
            head, told, at = clauses(text, found.end())
            if text[at:at + 1] == "{":
                between = text[found.end() + len(head):at] if told else ""
                yield found[1], text[at + 1:behind(text, at) - 1], between


def long_bodies(crate):
    return sum(filled(body) > MOST_LINES for _, body, _ in functions(crate))


def long_clauses(crate):
    return sum(filled(told) > MOST_CLAUSES for _, _, told in functions(crate))


def spelled_numbers(crate):
    return sum(name == NUMBER and bool(SPELLED.search(body)) for name, body, _ in functions(crate))


def code_lines(path):
    """The lines of a file that count."""
    lines = (line.strip() for line in read(path).split("\n"))
    return [line for line in lines if not THIN.match(line)]


def equal_places(paths):
    """How many pairs of places have the same lines, EQUAL or more: each pair is counted once, where it begins."""
    lines = {path: code_lines(path) for path in paths}
    at = collections.defaultdict(list)
    for path, own in lines.items():
        for first in range(len(own) - EQUAL + 1):
            at[tuple(own[first:first + EQUAL])].append((path, first))
    before = lambda place: lines[place[0]][place[1] - 1] if place[1] else None
    pairs = (pair for places in at.values() for pair in itertools.combinations(places, 2))
    return sum(before(one) is None or before(one) != before(other) for one, other in pairs)
