"""Shows the definitions that public clauses name, as they stand in the sources.

usage: bin/definitions           tells of each file of specs/, lowest crate first, what it is about and which of these
                                 definitions it has
       bin/definitions NAME..    prints each definition of that name: its file, what stands before it there, its text,
                                 and the calls whose clauses name it
       bin/definitions --look    looks whether each file says what it is about, and has what the clauses name

A public clause is one behind `requires` or `ensures` of a public call. What the kit's crates define is left out, and
so are the types that code declares. For a constructor its type is shown. The last line of `--look` counts; the status
is 1 where anything fails, or where nothing has the name.
"""
import collections
import signal
import sys

import contracts
from common import TOP, Tally, crates, read


def head_of(text):
    """What a file says of itself: its first lines, as far as they are comments."""
    lines = []
    for line in text.splitlines():
        if not line.startswith("-- "):
            break
        lines.append(line[3:])
    return " ".join(lines)


def before(lines, number):
    """The comment that stands right before a line."""
    first = number
    while first and lines[first - 1].lstrip().startswith("-- "):
        first -= 1
    return lines[first:number]


def shown(path, name):
    """The text of a definition with the comment before it."""
    item, lines = contracts.items(path)[name], read(path).splitlines()
    text = [line for line in item.lines if not line.startswith("infix")]
    begins = next((number for number, line in enumerate(lines) if line.rstrip() == text[0]), 0)
    return "\n".join([*before(lines, begins), *item.around, *item.lines])


def by_file():
    """The definitions by their files, which stand as their crates do."""
    found = collections.defaultdict(list)
    for file, name in contracts.definitions():
        found[file].append(name)
    order = {crate: number for number, crate in enumerate(crates())}
    return sorted(found.items(), key=lambda it: (order.get(it[0].split("/")[1], 0), it[0]))


def look():
    tally = Tally()
    for file, names in by_file():
        path = f"{TOP}/{file}"
        tally.tell(head_of(read(path)), f"{file} doesn't say what it is about")
        for name in names:
            tally.tell(name in contracts.items(path), f"{file} has no {name}, which a clause names")
    return tally.end()


def main(words):
    # (what is printed may be cut off by who reads it)
    signal.signal(signal.SIGPIPE, signal.SIG_DFL)
    if words == ["--look"]:
        return look()
    if any(word.startswith("-") for word in words):
        print(__doc__, file=sys.stderr if words != ["--help"] else sys.stdout)
        return 0 if words == ["--help"] else 2
    if not words:
        for file, names in by_file():
            print(f"{file}: {head_of(read(f'{TOP}/{file}'))}\n    {' '.join(sorted(names))}")
        return 0
    callers = collections.defaultdict(set)
    for file, name, call in contracts.namings():
        callers[file, name].add(call)
    found = [(file, name) for file, names in by_file() for name in names if name in words or name.replace("◌", "") in words]
    for file, name in found:
        print(f"{file}\n\n{shown(f'{TOP}/{file}', name)}\n\nnamed by {', '.join(sorted(callers[file, name]))}\n")
    return 0 if found else 1


if __name__ == "__main__":
    sys.exit(main(sys.argv[1:]))
