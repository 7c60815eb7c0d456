"""What the scripts of this folder share: where the tree is, files as texts, and the last line that each of them
prints."""
import importlib
import os
import pty
import re
import sys
import threading

sys.dont_write_bytecode = True

TOP = os.path.dirname(os.path.dirname(os.path.realpath(__file__)))
CRATES = os.path.join(TOP, "crates")
EXAMPLES = os.path.join(TOP, "examples")


def read(path):
    with open(path, encoding="utf-8") as it:
        return it.read()


def write(path, text):
    """Writes a file whole, or leaves the one that is there."""
    with open(f"{path}.new", "w", encoding="utf-8") as it:
        it.write(text)
    os.replace(f"{path}.new", path)


def module_in(folder, name):
    """A module of another folder of the repository."""
    if f"{TOP}/{folder}" not in sys.path:
        sys.path.insert(0, f"{TOP}/{folder}")
    return importlib.import_module(name)


def in_tree(path):
    """A path as it is written from the top of the repository on."""
    return os.path.relpath(path, TOP)


def files_in(folder, ending):
    """The files of a folder, and of those in it, whose names end so; none where there is no such folder."""
    found = []
    for place, folders, names in os.walk(folder):
        folders.sort()
        found += [os.path.join(place, name) for name in sorted(names) if name.endswith(ending)]
    return found


def crates():
    """The crates by crates.txt, in its order: each with the libraries that its line names."""
    found = {}
    for line in read(f"{TOP}/crates.txt").splitlines():
        name, colon, below = line.partition("#")[0].partition(":")
        if colon:
            # (words behind the name say how the crate is built)
            found[name.split()[0]] = below.split()
    return found


def are_told(script, *counts):
    """Whether the row of docs/HOSTILE.md for a script has these counts."""
    rows = [it for it in read(f"{TOP}/docs/HOSTILE.md").splitlines() if f"| `tests/{script} " in it]
    numbers = {it.replace(",", "") for row in rows for it in re.findall(r"[0-9][0-9,]*", row)}
    missing = [it for it in counts if str(it) not in numbers]
    if missing:
        print(f"docs/HOSTILE.md doesn't say of {script}: {', '.join(f'{it:,}' for it in missing)}", file=sys.stderr)
    return not missing


class Terminal:
    """A terminal, for whoever gets `given`; `told` is what is written there, until nobody has it any more."""

    def __init__(self):
        self.own, self.given = pty.openpty()
        self.told, self.reader = b"", threading.Thread(target=self.reads, daemon=True)
        self.reader.start()

    def reads(self):
        try:
            while more := os.read(self.own, 4096):
                self.told += more
        except OSError:
            pass

    def ended(self):
        """All that was told there. Who was given the terminal has ended."""
        os.close(self.given)
        self.reader.join(10)
        os.close(self.own)
        return self.told


class Tally:
    """How many checks passed and failed. What is told of one that failed goes to standard error."""

    def __init__(self):
        self.passed = self.failed = 0

    def tell(self, good, what):
        good = bool(good)
        self.passed += good
        self.failed += not good
        if not good:
            print(what, file=sys.stderr)
        return good

    def end(self):
        """Prints the last line, and gives the status of the program."""
        print(f"{self.passed} passed, {self.failed} failed")
        return 1 if self.failed or not self.passed else 0
