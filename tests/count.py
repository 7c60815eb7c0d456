"""Counts what pages tell, and compares it with them.

usage: bin/count [--check]    compares; the status is 1 where a page tells another number (--look is the same)
       bin/count --write      writes the numbers into the pages, and tells each that was another
       bin/count WHAT [NAME..]   prints one number

On a page a number stands between two comments, which no reader sees:

    <!--count WHAT NAME..-->1,234<!--/-->            the number, with a comma for thousands
    <!--count spelled WHAT NAME..-->four<!--/-->     up to twelve in a word, and else in digits

A whole table stands between two such lines of their own, with a blank line behind the first and before the last:

    <!--table WHAT-->

    <!--/table-->

WHAT is one of these; NAME.. are crates (of transcripts folders), whose numbers are added up, and all where none is
named:

    code            lines of src/, contracts and tests among them
    definitions     lines of specs/
    proofs          lines of proofs/
    must-fail       edits that the gate tries
    wrong-bodies    edits that stand beside it
    edits           both
    tests           functions that are tests
    wide-proofs     lines of proofs of more than 120 columns, but for imports, which the formatter lays out
    wide-comments   lines of comments of more than 100 columns
    long-bodies     functions whose bodies have more than 40 lines
    long-clauses    functions whose clauses have more than 16 lines
    brought         lines that bring definitions to clauses (`ghost use`)
    equal-places    pairs of places in src/ that have eleven lines or more alike, to the letter; in all crates
    error-tables    functions `number` that spell an error's number, where `ids` has them all
    words           words of all pages
    wall            minutes of wall that all proofs take on four processors, by those of docs/times.tsv (tests/plan.py)
    crates          crates
    transcripts     files of transcripts/
    scripts         scripts of examples/scripts
    named           definitions that public clauses name
    errors          numbers on the page of errors
    wrong-protocols edits of definitions that laws have to refuse

and for a table

    gate            the lines of each crate that takes long, and the minutes that docs/times.tsv has of it
    tried           what docs/wrong-bodies.txt has of all edits

The page that comes first and the three that it leads to may have 600 words each, all pages together 35,000.

The last line counts numbers, rows and these pages; where one differs, a line says the page, its line and both.
"""
import collections
import functools
import os
import re
import sys

import contracts
import lengths
import plan
import wrong_bodies
from common import CRATES, TOP, Tally, crates, files_in, in_tree, read, write

TIMES = f"{TOP}/docs/times.tsv"
# The columns of TIMES: processor minutes of the proof, of the proof with tests, of the edits, and the minute when it
# was last seen.
SORTS = ("proof", "tests", "edits", "minute")
# What the gate took for no crate.
OTHER = "other"
# A crate whose proof takes fewer minutes has no row of its own.
SHORT = 2
WORDS = "no one two three four five six seven eight nine ten eleven twelve".split()
# (a marker's end may be left out by mistake, so the text between two has no comment in it)
NUMBER = re.compile(r"(<!--count ([^>]*?)-->)([^<]*)(<!--/-->)")
TABLE = re.compile(r"(<!--table (\w+)-->\n\n)(.*?)(<!--/table-->)", re.S)
BEGIN = re.compile(r"<!--(?:count|table)\b")


def lines_of(crate, folder, ending):
    return sum(read(it).count("\n") for it in files_in(f"{CRATES}/{crate}/{folder}", ending))


def edits_of(crate, folder):
    return len(files_in(f"{CRATES}/{crate}/{folder}", ".edit"))


def tests_of(crate):
    return sum(len(re.findall(r"(?m)^ *#\[test\]", read(it))) for it in files_in(f"{CRATES}/{crate}/src", ".rt"))


def sources(crate):
    """The files of a crate's src/."""
    return files_in(f"{CRATES}/{crate}/src", ".rt")


def source_lines(crate):
    return (line for path in sources(crate) for line in read(path).split("\n"))


def wide(crate, folders, most, is_one):
    """How many lines of a crate's files in some folders, of one kind, have more columns than that."""
    places = [f"{CRATES}/{crate}/{folder}" for folder in folders]
    found = [it for place in places for ending in (".rt", ".antt") for it in files_in(place, ending)]
    return sum(len(line) > most and is_one(line.lstrip()) for it in found for line in read(it).split("\n"))


# Lines that are too wide: in which folders, from how many columns on, and which ones.
IMPORTS, COMMENTS = ("use ", "pub use "), ("//", "--")
WIDE = {
    "wide-proofs": (["proofs"], 120, lambda line: not line.startswith(IMPORTS)),
    # (a row of a table can't be broken)
    "wide-comments": (["src", "specs", "proofs"], 100, lambda line: line.startswith(COMMENTS) and "|" not in line),
}

# What is counted of a crate.
OF_CRATE = {
    "code": lambda it: lines_of(it, "src", ".rt"),
    "definitions": lambda it: lines_of(it, "specs", ".antt"),
    "proofs": lambda it: lines_of(it, "proofs", ".antt"),
    "must-fail": lambda it: edits_of(it, "must-fail"),
    "wrong-bodies": lambda it: edits_of(it, "wrong-bodies"),
    "edits": lambda it: edits_of(it, "must-fail") + edits_of(it, "wrong-bodies"),
    "tests": tests_of,
    "long-bodies": lengths.long_bodies,
    "long-clauses": lengths.long_clauses,
    "brought": lambda it: sum(line.lstrip().startswith("ghost use ") for line in source_lines(it)),
    "error-tables": lengths.spelled_numbers,
    "crates": lambda it: 1,
    **{what: functools.partial(lambda how, it: wide(it, *how), how) for what, how in WIDE.items()},
}


def wall(processors=4):
    """The minutes of wall that all proofs take, by those that each took."""
    took, known = times(), crates()
    minutes = {name: [float(took.get(name, {}).get(it) or 0) for it in SORTS[:2]] for name in known}
    lines = {name: sum(OF_CRATE[it](name) for it in ("code", "definitions", "proofs")) for name in known}
    return round(plan.wall(minutes, lines, processors))


# What is counted of the whole.
OF_ALL = {
    "wall": wall,
    "equal-places": lambda: lengths.equal_places([path for it in crates() for path in sources(it)]),
    "words": lambda: sum(map(words_of, pages())),
    "scripts": lambda: len(files_in(f"{TOP}/examples/scripts", ".script")),
    "wrong-protocols": lambda: len(files_in(f"{TOP}/wrong-protocols", ".edit")),
    "named": lambda: len(contracts.definitions()),
    "errors": lambda: len({*re.findall(r"(?m)^\| E(\d+)\b", read(f"{TOP}/docs/ERRORS.md"))}),
}


def transcripts(folders):
    place = next(it for it in (f"{TOP}/tests/transcripts", f"{TOP}/transcripts") if os.path.isdir(it))
    return sum(len(files_in(f"{place}/{it}", ".txt")) for it in folders or os.listdir(place))


def counted(words):
    """The number that words ask for; none where they ask for nothing that is there."""
    what, *names = words or [""]
    if what == "transcripts":
        return transcripts(names)
    if what in OF_ALL and not names:
        return OF_ALL[what]()
    known = crates()
    if what in OF_CRATE and {*names} <= {*known}:
        return sum(OF_CRATE[what](it) for it in names or known)
    return None


def shown(number, is_spelled=False):
    return WORDS[number] if is_spelled and number < len(WORDS) else f"{number:,}"


def times():
    """What docs/times.tsv has of each crate, by the names of the columns."""
    rows = [line.split("\t") for line in read(TIMES).splitlines() if line and not line.startswith("#")]
    return {row[0]: dict(zip(SORTS, row[1:])) for row in rows}


def gate_table():
    """The table of the gate: a row for each crate that takes long, one for all others, one for what is no crate's, and the sum."""
    took, known = times(), crates()
    columns = ("code", "definitions", "proofs")
    row = lambda name, counts, cells: f"| {' | '.join([name, *(shown(it) if it else '' for it in counts), *cells])} |"
    heads = "crate, code, definitions, proofs, proof, tests, edits, minute".split(", ")
    rows = [f"| {' | '.join(heads)} |", "|" + "---|" * len(heads)]
    # (a crate that has no tests or edits any more takes no time for them)
    asked = {"tests": OF_CRATE["tests"], "edits": OF_CRATE["must-fail"]}
    minutes = {}
    for name in known:
        minutes[name] = [took.get(name, {}).get(it, "") if asked.get(it, bool)(name) else "" for it in SORTS]
    added = lambda names: [f"{sum(float(minutes[it][at] or 0) for it in names):.1f}" for at in range(3)]
    short = [it for it in known if float(added([it])[0]) < SHORT]
    for name in known:
        if name not in short:
            rows.append(row(name, [OF_CRATE[it](name) for it in columns], minutes[name]))
    rows.append(row(f"the other {len(short)}", [counted([it, *short]) for it in columns], [*added(short), ""]))
    minutes[OTHER] = [took.get(OTHER, {}).get(it, "") for it in SORTS]
    rows.append(row("what is not a crate's", [0] * 3, minutes[OTHER]))
    last = max(int(it[3] or 0) for it in minutes.values())
    rows.append(row("all", [counted([it]) for it in columns], [*added(minutes), str(last)]))
    return "\n".join(rows) + "\n"


def tried_table():
    """The table of wrong bodies: what came of them when they were last tried, and of how many that was on other sources."""
    columns = (wrong_bodies.CLAUSE, wrong_bodies.SAFETY, wrong_bodies.STALE, wrong_bodies.NOT_TRIED)
    counts, table = collections.Counter(), wrong_bodies.kept_table()
    for name in crates():
        counts += collections.Counter(wrong_bodies.state_of(table, name, it) for it in wrong_bodies.edits_of(name))
    told = [counts[it] for it in columns]
    cells = [sum(counts.values()), *told, sum(counts.values()) - sum(told)]
    heads = "| edits | by a clause | by safety | before a change | not tried | else |"
    return "\n".join([heads, "|" + "---|" * len(cells), f"| {' | '.join(map(shown, cells))} |"]) + "\n"


# What a reader meets first, and so many words of letters or digits each has at most, and all pages together.
DOORS = ("README.md", "docs/USE.md", "CONTRIBUTING.md", "docs/TRUST.md")
MOST_WORDS, MOST_IN_ALL = 600, 35_000
TABLES = {"gate": gate_table, "tried": tried_table}


def pages():
    """The pages of the repository."""
    found = []
    for place, folders, files in os.walk(TOP):
        folders[:] = sorted({*folders} - {"out", ".git"})
        found += [os.path.join(place, it) for it in sorted(files) if it.endswith(".md")]
    return found


def words_of(page):
    return sum(bool(re.search(r"[^\W_]", it)) for it in read(page).split())


def line_at(text, at):
    return text.count("\n", 0, at) + 1


def rows_differ(tally, page, first, old, new):
    """Compares a table with what it is to be, row by row."""
    olds, news = old.rstrip().split("\n"), new.rstrip().split("\n")
    for number in range(max(len(olds), len(news))):
        was, now = (it[number] if number < len(it) else "no row" for it in (olds, news))
        what = f"{was.strip() or 'no row'}\n    and not {now.strip() or 'no row'}"
        tally.tell(was == now, f"{page}:{first + number}: {what}")


def looked_at(path, tally):
    """A page's text with the right numbers; each one that differs is told."""
    page, text = in_tree(path), read(path)

    def number_in(found):
        words = found[2].split()
        is_spelled = words[:1] == ["spelled"]
        number = counted(words[is_spelled:])
        where = f"{page}:{line_at(text, found.start())}"
        if not tally.tell(number is not None, f"{where}: `{found[2]}` counts nothing"):
            return found[0]
        right = shown(number, is_spelled)
        tally.tell(found[3] == right, f"{where}: {found[3]}, and {found[2]} is {right}")
        return found[1] + right + found[4]

    def table_in(found):
        where = f"{page}:{line_at(text, found.start())}"
        if not tally.tell(found[2] in TABLES, f"{where}: there is no table `{found[2]}`"):
            return found[0]
        right = TABLES[found[2]]() + "\n"
        rows_differ(tally, page, line_at(text, found.start(3)), found[3], right)
        return found[1] + right + found[4]

    # (a marker that is none of the two forms would be passed over without a word)
    whole = len(NUMBER.findall(text)) + len(TABLE.findall(text))
    begun = len(BEGIN.findall(text)) if path != os.path.realpath(__file__) else 0
    tally.tell(whole == begun, f"{page}: {begun} markers begin, and {whole} are whole")
    return TABLE.sub(table_in, NUMBER.sub(number_in, text))


def main(words):
    if words and words[0] in ("--help", "-h"):
        print(__doc__)
        return 0
    if words and words not in (["--write"], ["--look"], ["--check"]):
        number = counted(words)
        if number is None:
            print(f"bin/count: nothing is counted by `{' '.join(words)}`; --help tells what is", file=sys.stderr)
            return 2
        print(number)
        return 0
    words = words if words == ["--write"] else []
    tally = Tally()
    for page in DOORS:
        number = words_of(f"{TOP}/{page}")
        tally.tell(number <= MOST_WORDS, f"{page}: {number} words, and at most {MOST_WORDS} are wanted")
    whole = sum(map(words_of, pages()))
    tally.tell(whole <= MOST_IN_ALL, f"all pages: {whole:,} words, and at most {MOST_IN_ALL:,} are wanted")
    for path in pages():
        text = read(path)
        if BEGIN.search(text):
            right = looked_at(path, tally)
            if words and right != text:
                write(path, right)
                print(f"{in_tree(path)} is written anew")
    # (what was written is compared once more)
    return main([]) if words else tally.end()


if __name__ == "__main__":
    sys.exit(main(sys.argv[1:]))
