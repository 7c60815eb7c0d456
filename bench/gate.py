"""Runs the gate, or another command, and tells what it took, crate by crate.

Every two seconds it looks at the processes that the command has started, and adds up the processor time of those that
prove a crate (`--crate-name NAME`): those that try an edit work in a folder of their own, those of a crate's tests
have the flag `--test`, and all others are the crate's proof, with what compiles it. All that names no crate is told
as `other`. The table goes to standard error when the command has ended: processor minutes, and the minute in which a
crate's last process was seen. Standard output and the status are the command's own.

Usage: bench/gate [--write] [COMMAND WORDS..], by default `rt ci`.

With --write what was seen goes into docs/times.tsv, from which `bin/count --write` makes the table of docs/GATE.md
and `bin/proved` says how long it will take. A crate that was proved has a new line there; of one whose edits alone
were tried only these minutes change.
"""
import os
import re
import subprocess
import sys
import threading
import time

TICKS = os.sysconf("SC_CLK_TCK")
EVERY = 2
SORTS = "proof", "tests", "edits"
TIMES = f"{os.path.dirname(os.path.dirname(os.path.realpath(__file__)))}/docs/times.tsv"


def read(path):
    try:
        with open(path, "rb") as it:
            return it.read()
    except OSError:
        return b""


def processes():
    """Each process: its parent, and the ticks that it took, by its number and when it began."""
    found = {}
    for name in os.listdir("/proc"):
        if name.isdigit():
            words = read(f"/proc/{name}/stat").rpartition(b")")[2].split()
            if words:
                found[int(name)] = int(words[1]), int(words[11]) + int(words[12]), words[19]
    return found


def below(found, top):
    """The processes that stand below one, itself included."""
    kids = {}
    for number, (parent, *_) in found.items():
        kids.setdefault(parent, []).append(number)
    left, all_of_it = [top], []
    while left:
        number = left.pop()
        all_of_it.append(number)
        left += kids.get(number, [])
    return [it for it in all_of_it if it in found]


def work_of(number):
    """The crate that a process works for, and at what."""
    words = read(f"/proc/{number}/cmdline").decode(errors="replace").split("\0")
    if "--crate-name" not in words[:-1]:
        return "other", "proof"
    try:
        folder = os.readlink(f"/proc/{number}/cwd")
    except OSError:
        folder = ""
    is_edit = re.search(r"/rt-edit", folder + " ".join(words))
    sort = "edits" if is_edit else "tests" if "--test" in words else "proof"
    return words[words.index("--crate-name") + 1], sort


class Watch:
    def __init__(self, top):
        self.top, self.begun, self.seen, self.last = top, time.time(), {}, {}

    def look(self):
        found = processes()
        for number in below(found, self.top):
            _, ticks, began = found[number]
            before = self.seen.get((number, began))
            # (a process that has just been forked may still have its parent's words)
            work = before[0] if before and before[0][0] != "other" else work_of(number)
            self.seen[number, began] = work, ticks
            self.last[work] = time.time() - self.begun

    def rows(self):
        """Each crate by when it was last seen: its minutes by their sort, and that minute."""
        took, last = {}, {}
        for (name, sort), ticks in self.seen.values():
            of_name = took.setdefault(name, {})
            of_name[sort] = of_name.get(sort, 0) + ticks / TICKS / 60
            last[name] = max(last.get(name, 0), self.last[name, sort])
        return {name: (took[name], last[name] / 60) for name in sorted(took, key=last.get)}

    def table(self):
        rows, lines = self.rows(), ["| crate | proof | tests | edits | last seen in minute |", "|---|---|---|---|---|"]
        for name, (took, last) in rows.items():
            lines.append(f"| {name} | {' | '.join(cell(took, it) for it in SORTS)} | {last:.0f} |")
        whole = [sum(took.get(it, 0) for took, _ in rows.values()) for it in SORTS]
        lines.append(f"| all | {' | '.join(f'{it:.1f}' for it in whole)} | {(time.time() - self.begun) / 60:.0f} |")
        return "\n".join(lines)


def cell(took, sort):
    return f"{took[sort]:.1f}" if sort in took else ""


def keep(rows):
    """Writes what was seen into the file of times."""
    with open(TIMES, encoding="utf-8") as it:
        lines = it.read().splitlines()
    head = [line for line in lines if line.startswith("#")]
    kept = {line.split("\t")[0]: line.split("\t")[1:] for line in lines if line and line not in head}
    for name, (took, last) in rows.items():
        cells = [cell(took, it) for it in SORTS]
        # (what is no crate's is of whole runs alone, so it stays the greatest)
        if name != "other" and "proof" in took:
            kept[name] = [*cells, f"{last:.0f}"]
        elif name != "other":
            before = kept.get(name, [""] * 4)
            kept[name] = [new or old for new, old in zip(cells, before)] + before[3:]
        elif float(cells[0] or 0) > float(kept.get(name, ["0"])[0] or 0):
            kept[name] = [*cells, f"{last:.0f}"]
    text = "\n".join([*head, *("\t".join([name, *cells]) for name, cells in kept.items())]) + "\n"
    with open(f"{TIMES}.new", "w", encoding="utf-8") as it:
        it.write(text)
    os.replace(f"{TIMES}.new", TIMES)


def main(words):
    is_kept = words[:1] == ["--write"]
    command = words[is_kept:] or ["rt", "ci"]
    running = subprocess.Popen(command)
    watch, ended = Watch(running.pid), threading.Event()

    def looks():
        while not ended.wait(EVERY):
            watch.look()

    looking = threading.Thread(target=looks, daemon=True)
    looking.start()
    status = running.wait()
    ended.set()
    looking.join()
    processors = len(os.sched_getaffinity(0))
    whole = sum(it for _, it in watch.seen.values()) / TICKS / 60
    print(f"{' '.join(command)}: {whole:.0f} processor minutes on {processors} processors", file=sys.stderr)
    print(watch.table(), file=sys.stderr)
    if is_kept:
        keep(watch.rows())
    return status


if __name__ == "__main__":
    if sys.argv[1:2] in (["--help"], ["-h"]):
        print(__doc__, end="")
        sys.exit(0)
    sys.exit(main(sys.argv[1:]))
