"""Compares what is promised with docs/promises.lock, or writes that file: so a change of a promise is one that a
reader sees.

usage: bin/lock_promises [--look]  compares; the status is 1 where something differs
       bin/lock_promises --write   writes the file anew

The file has a section for each public call with a clause, for each definition that such a clause names, or
docs/PROMISES.md with its file, and for each that one of these names:

    == FILE: CALL           the call's head, and a line or more for each clause, with its name
    == FILE: DEFINITION     its lines
    == FILE: below          names of FILE on which such definitions stand, each with a sum of its text
    == FILE: constants      the constants of FILE that clauses or definitions name, a line each

A section's last line is a sum of where the names in it come from, so that another definition of one name is seen.
Sections stand by file and name. Comments are left out. Where only blanks or ends of lines differ, nothing is told.
The last line counts sections.
"""
import collections
import hashlib
import os
import re
import sys

import contracts
from common import CRATES, TOP, Tally, crates, files_in, in_tree, read, write

LOCK = f"{TOP}/docs/promises.lock"
PROMISES = f"{TOP}/docs/PROMISES.md"
# Names of constants that a clause or a definition takes from a crate's module; and a constant's line.
CONSTANTS = re.compile(r"Rattle\.(\w+)\.specs\.declared\.(?:(\w+)\.)?TheConstants\.\{([^}]*)\}")
CONSTANT = re.compile(r"pub const (\w+): .*;$")
HEAD = """\
# What is promised: the public clauses, and the definitions that they name, as they stand in the sources.
# `bin/lock_promises --write` writes this file, and the gate compares it (`bin/lock_promises`).
"""


def one_line(text):
    return " ".join(text.split())


def told(word, name, text):
    """A clause as it is written, with its further lines a step to the right."""
    lines = [line.strip() for line in text.strip().splitlines()]
    return f"{word} {name} {{ ".replace("  ", " ") + "\n    ".join(lines) + " }"


def sum_of(text):
    return hashlib.sha256(text.encode()).hexdigest()[:16]


def origins(text, scope):
    """A sum of the definitions that a text names, by where each is declared."""
    found = {contracts.origin(*pair) for pair in contracts.named(text, scope)}
    return sum_of("\n".join(sorted(found)))


def of_calls():
    """The sections of calls: each heading with its text."""
    for crate in crates():
        for call in contracts.calls(crate):
            if call.clauses:
                name = f"{call.of}::{call.name}" if call.of else call.name
                lines = [one_line(call.head), *(told(*it) for it in call.clauses)]
                names = origins("\n".join(text for _, _, text in call.clauses), call.brings)
                yield f"{call.file}: {name}", "\n".join([*lines, f"names {names}"])


def on_page():
    """The definitions that the page of promises names: each behind the file that it stands in, or whose link comes
    next."""
    pairs = set()
    for line in read(PROMISES).splitlines():
        # (a row is about one promise, and a cell's names are of the files that it links)
        links = re.findall(r"\]\(([^)#]+\.antt)\)", line)
        files, folder = [], ""
        for link in links:
            folder = os.path.dirname(link) or folder
            files.append(os.path.normpath(os.path.join(TOP, "docs", folder, os.path.basename(link))))
        for name in re.findall(r"`([^`\s]+)`", re.sub(r"\[[^\]]*\]", "", line)):
            pairs.update((file, name) for file in files if os.path.exists(file) and name in contracts.items(file))
    return pairs


def text_of(path, name):
    item = contracts.items(path)[name]
    text = "\n".join([*item.around, *item.lines])
    return f"{text}\nnames {origins(text, contracts.scope_of(path))}"


def of_definitions():
    """The sections of definitions, and those of what they stand on."""
    pairs = on_page() | contracts.named_definitions()
    pairs = pairs.union(*(contracts.named_by(*pair) for pair in pairs))
    for path, name in pairs:
        yield f"{in_tree(path)}: {name}", text_of(path, name)
    below = collections.defaultdict(list)
    for path, name in contracts.stood_on(pairs) - pairs:
        below[path].append(f"{name} {sum_of(one_line(text_of(path, name)))}")
    for path, lines in below.items():
        yield f"{in_tree(path)}: below", "\n".join(sorted(lines))


def of_constants():
    """The sections of the constants that clauses and definitions name: of each file that declares some, their lines."""
    found = collections.defaultdict(set)
    for crate in crates():
        for part, ending in (("src", ".rt"), ("specs", ".antt")):
            for path in files_in(f"{CRATES}/{crate}/{part}", ending):
                for of, module, names in CONSTANTS.findall(read(path)):
                    found[f"{CRATES}/{of}/src/{module or 'lib'}.rt"].update(re.findall(r"\w+", names))
    for path, names in found.items():
        lines = [it for it in read(path).splitlines() if (head := CONSTANT.match(it)) and head[1] in names]
        yield f"{in_tree(path)}: constants", "\n".join(lines)


def sections():
    """All sections: each heading with its texts, of which some calls of one name have several."""
    found = collections.defaultdict(list)
    for heading, text in (*of_calls(), *of_definitions(), *of_constants()):
        found[heading].append(text)
    return {heading: sorted(found[heading]) for heading in sorted(found)}


def written(found):
    return HEAD + "".join(f"\n== {heading}\n{text}\n" for heading, texts in found.items() for text in texts)


def locked():
    """The sections of the file."""
    found = collections.defaultdict(list)
    for part in read(LOCK).split("\n== ")[1:]:
        heading, _, text = part.partition("\n")
        found[heading].append(text)
    return found


def main(words):
    words = [] if words == ["--look"] else words
    if words not in ([], ["--write"]):
        print(__doc__, file=sys.stderr if words != ["--help"] else sys.stdout)
        return 0 if words == ["--help"] else 2
    now = sections()
    if words:
        write(LOCK, written(now))
        print(f"{in_tree(LOCK)} has {sum(map(len, now.values()))} sections")
        return 0
    tally, before = Tally(), locked()
    for heading in sorted({*now, *before}):
        was, is_now = (sorted(map(one_line, it.get(heading, []))) for it in (before, now))
        what = "is new" if not was else "is gone" if not is_now else "is another"
        tally.tell(was == is_now, f"{heading} {what}; `bin/lock_promises --write` takes it over")
    return tally.end()


if __name__ == "__main__":
    sys.exit(main(sys.argv[1:]))
