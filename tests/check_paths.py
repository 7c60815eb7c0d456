#!/usr/bin/env -S python3 -B
"""Checks that what pages link or name as a path is there.

usage: tests/check_paths.py

Each link of a page leads to a file or folder, and to a heading of it where it names one. Each text in backticks that begins with a
folder of the repository, as `bin/` or `crates/`, is a path of what is there; a word of it may be a pattern, as `*` or
`{a, b}`, and one with capital letters alone, as NAME, stands for any. What is made later, in out/, is left out.

In each row of docs/WHERE.md the crate has a row in docs/ARCHITECTURE.md, and the name stands in the file, which is the
crate's. The last line counts; the status is 1 where something isn't there.
"""
import glob
import os
import re
import sys

from common import TOP, Tally, in_tree, read
from count import line_at, pages

WHERE = f"{TOP}/docs/WHERE.md"
# Seven promises and ten questions at least.
LEAST_ROWS = 17

FOLDERS = ("bench", "bin", "crates", "docs", "examples", "tests", "transcripts", "wrong-protocols")
LINK = re.compile(r"\]\(([^)\s]+)\)")
SPAN = re.compile(r"`((?:" + "|".join(FOLDERS) + r")/[^`]*)`")


def anchors(path):
    """The headings of a page, as a link names them."""
    titles = re.findall(r"(?m)^#+ (.*)$", re.sub(r"(?ms)^```.*?^```", "", read(path)))
    plain = (re.sub(r"\[([^\]]*)\]\([^)]*\)", r"\1", it).lower() for it in titles)
    return {re.sub(r"[^\w\- ]", "", it).replace(" ", "-") for it in plain}


def is_link(page, target):
    """Whether a link of a page leads somewhere in the repository; one to elsewhere isn't looked at."""
    if re.match(r"\w+:", target):
        return True
    file, _, anchor = target.partition("#")
    path = os.path.normpath(os.path.join(os.path.dirname(page), file)) if file else page
    return os.path.exists(path) and (not anchor or anchor in anchors(path))


def spread(text):
    """The texts that one with `{a, b}` stands for."""
    found = re.search(r"\{([^}]*)\}", text)
    if not found:
        return [text]
    words = (it.strip() for it in found[1].split(","))
    return [it for word in words for it in spread(text[:found.start()] + word + text[found.end():])]


def is_there(span):
    """Whether a path in backticks is there, before the words of a command that may follow."""
    path = span.split(" ")[0] if "{" not in span else span
    if "/out/" in path or path.endswith("/out"):
        return True
    patterns = spread(re.sub(r"\b[A-Z][A-Z_]+\b|\.\.$", "*", path.rstrip("/:")))
    # (a transcript, a script or an edit may be named without its ending)
    endings = ("", ".txt", ".script", ".edit", ".ck", "*" if ".." in path else "")
    return all(any(glob.glob(f"{TOP}/{it}{ending}") for ending in endings) for it in patterns)


def is_found(row):
    """Whether a row of WHERE leads to what it names: a crate that has a row of its own, and a name in a file of it."""
    found = re.fullmatch(r"\| .* \| `(\w+)` \| \[.*?\]\(\.\./(crates/(\w+)/.*?)\): `(\w+)`.* \|", row)
    if not found or found[1] != found[3] or not os.path.isfile(f"{TOP}/{found[2]}"):
        return False
    has_row = re.search(rf"(?m)^\|[– ]* `{found[1]}` \|", read(f"{TOP}/docs/ARCHITECTURE.md"))
    return has_row and re.search(rf"\b{found[4]}\b", read(f"{TOP}/{found[2]}"))


def main(words):
    if words:
        print(__doc__, file=sys.stderr)
        return 2
    tally = Tally()
    for page in pages():
        text = read(page)
        for found in LINK.finditer(text):
            where = f"{in_tree(page)}:{line_at(text, found.start())}"
            tally.tell(is_link(page, found[1]), f"{where}: the link {found[1]} leads nowhere")
        for found in SPAN.finditer(text):
            where = f"{in_tree(page)}:{line_at(text, found.start())}"
            tally.tell(is_there(found[1]), f"{where}: {found[1]} isn't there")
    rows = [it for it in read(WHERE).splitlines() if "](../crates/" in it]
    for row in rows:
        tally.tell(is_found(row), f"docs/WHERE.md: this row leads to nothing: {row}")
    tally.tell(len(rows) >= LEAST_ROWS, f"docs/WHERE.md has {len(rows)} rows")
    return tally.end()


if __name__ == "__main__":
    sys.exit(main(sys.argv[1:]))
