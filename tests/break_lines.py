"""Breaks lines of proofs at 120 columns, where a reader would, and has the formatter lay them out.

usage: bin/break_lines NAME..    the proofs of these crates

A line is broken before an arrow or a path's join, behind an equals sign, before a relation, or else between the parts
of a call: as far outside of brackets as it can be, and as far to the right. Imports stay, since the formatter sets one
name a line where they are broken. Nothing changes but blanks, line ends, and the separators that the formatter sets
before a closing bracket or behind an opening one. The status is 1 where a file would change in more, which is left as
it was, or where the formatter refuses one.
"""
import re
import subprocess
import sys

from common import CRATES, crates, files_in, in_tree, read, write

MOST = 120
# How far the formatter indents what goes on.
FURTHER = 4
# A break leaves at least so many columns behind the indentation, and so large a part of the line.
LEAST, PART = 10, 0.3
# Where a line may be broken, and how bad that is: before the blank that is found first, or the last one (`behind`).
# Each bracket around it counts for one more.
BREAKS = [
    (r" → ", 0, False),
    (r" \| ", 0.1, False),
    (r" = (?=\S)", 0.2, True),
    (r" ∙ ", 0.3, False),
    (r" (?:≡|≤|<|↔) ", 0.6, False),
    (r" (?:×|⊎|∧|\+\+|&&|\|\|) ", 0.7, False),
    (r"(?<=[;,]) (?=\S)", 0.9, False),
    (r"(?<=λ )[^.()]*\. (?=\S)", 1.2, True),
    (r" (?=\()", 1.4, False),
    (r"(?<=[\w)\]}]) (?=[\w(\[{])", 2.4, False),
]
# No line ends with one of these words.
OPENS = re.compile(r"(?:λ|let|in|use|pub|if|then|else|data|record|abbrev|module|where|elim|as)$")


def indentation(line):
    return len(line) - len(line.lstrip(" "))


def depths(line):
    """In how many brackets of the line each of its characters is."""
    depth, found = 0, []
    for letter in line:
        depth -= letter in ")]}"
        found.append(depth)
        depth += letter in "([{"
    return found


def breaks(line):
    """The blanks at which a line may be broken, each with how bad that is."""
    depth, found = depths(line), []
    for pattern, cost, is_behind in BREAKS:
        for it in re.finditer(pattern, line):
            at = it.end() - 1 if is_behind else it.start()
            inside = depth[min(it.start() + 1, len(line) - 1)]
            if line[at] == " " and not OPENS.search(line[:at]) and not line[at:].lstrip().startswith("in "):
                found.append((at, cost + inside))
    return found


def broken(line, indent):
    """The lines that a line becomes."""
    if len(line) <= MOST:
        return [line]
    here = indentation(line)
    found = [it for it in breaks(line) if here + LEAST < it[0] <= MOST]
    found = [it for it in found if it[0] >= here + (MOST - here) * PART] or found
    if not found:
        return [line]
    least = min(cost for _, cost in found)
    at = max(at for at, cost in found if cost == least)
    rest = " " * (indent + FURTHER) + line[at:].strip()
    return [line] if len(rest) >= len(line) else [line[:at].rstrip(), *broken(rest, indent)]


def is_left(line):
    """Whether a line stays: an import, a comment, or one with a text in it."""
    return line.lstrip().startswith(("--", "use ", "pub use ")) or '"' in line or " -- " in line


def break_all(text):
    lines = [[line] if is_left(line) else broken(line, indentation(line)) for line in text.split("\n")]
    return "\n".join(line for found in lines for line in found)


def join_fields(text):
    """A field of a record whose value fits behind its name stands there: the formatter sets one a line."""
    lines, left = [], text.split("\n")
    while left:
        line, *left = left
        if left and re.fullmatch(r"\s+\w+ =", line) and left[0].endswith(";"):
            one = f"{line} {left[0].strip()}"
            if len(one) <= MOST and indentation(left[0]) > indentation(line):
                line, left = one, left[1:]
        lines.append(line)
    return "\n".join(lines)


def meaning(text):
    """A text without what the layout may change."""
    text = re.sub(r"[;,|]+(?=[)\]}])", "", re.sub(r"\s+", "", text))
    return re.sub(r"(?<=[(\[{])[;,|]+", "", text)


def lay_out(crate):
    return subprocess.run(["rt", "fmt"], cwd=f"{CRATES}/{crate}", stdout=subprocess.PIPE).returncode == 0


def break_crate(crate):
    """Whether the lines of a crate's proofs were broken, and nothing else changed."""
    before = {path: read(path) for path in files_in(f"{CRATES}/{crate}/proofs", ".antt")}
    is_right = True
    for change in break_all, join_fields:
        for path in before:
            text = read(path)
            if change(text) != text:
                write(path, change(text))
        is_right = lay_out(crate) and is_right
    for path, text in before.items():
        if meaning(read(path)) != meaning(text):
            print(f"{in_tree(path)}: it would change in more than its lines")
            write(path, text)
            is_right = False
    return is_right


def main(words):
    known = crates()
    if not words or not {*words} <= {*known}:
        print(__doc__, file=sys.stderr)
        return 2
    return 0 if all([break_crate(it) for it in words]) else 1


if __name__ == "__main__":
    sys.exit(main(sys.argv[1:]))
