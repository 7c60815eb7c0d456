#!/usr/bin/env -S python3 -B
"""Refuses in turn each growth of memory that a turn meets which joins with eight kids, at a node that holds 4,000 frames and more.

Usage: tests/join_growths.py PROGRAM, where PROGRAM is `play`.

The turn may meet at most 100 growths, however many frames there are: nothing that the node holds is copied for it. Where one of them
is refused, the turn has to be answered E63, and then the same turn as ever, and all that is ready has to be what it is where none is
refused.
"""
import os
import sys
import tempfile
from concurrent.futures import ThreadPoolExecutor

import play_all
from common import module_in

MOST = 100
# (so many joins leave 4,089 frames, of which 3,578 are ready; the next one that joins is the one of this index)
JOINS = 511


def lines_of(node):
    """The transcript up to the turn, the turn, and what shows the node behind it."""
    threads = node.PROGRAM
    numbers = (0, JOINS + 1, 0)
    before = [
        f"program {threads}",
        f"input {' '.join(map(str, numbers))}",
        "job 7",
        "start 2",
        "give 2 Roster epoch=1 version=1 members=2..3:live to=2 job=7",
        "ask 2 house",
        f"give 2 Grant seq=1 grant=house:1/1 thread=0 at=- on={','.join(map(str, numbers))} to=2 job=7",
        *(f"exec 2 house:1/1 {node.frame(index)}" for index in range(JOINS)),
        "subs 2",
    ]
    return before, [f"exec 2 house:1/1 {node.frame(JOINS)}"], ["subs 2"]


def main(words):
    if len(words) != 1:
        print(__doc__, file=sys.stderr)
        return 2
    program = os.path.realpath(words[0])
    before, turn, behind = lines_of(module_in("bench", "node"))
    with tempfile.TemporaryDirectory(prefix="join-growths-") as folder, ThreadPoolExecutor(os.cpu_count()) as pool:
        heap = play_all.compiled(folder)

        def file_of(name, lines):
            path = f"{folder}/{name}"
            with open(path, "w", encoding="utf-8") as out:
                out.writelines(f"{line}\n" for line in lines)
            return path

        whole = file_of("whole", before + turn + behind)
        first, last = (int(play_all.played(program, file_of(name, lines), heap)[2]) for name, lines in (("before", before), ("turn", before + turn)))
        status, wanted, fault = play_all.played(program, whole)
        shown = [line for line in wanted.split(b"\n") if line.startswith(b"> sub ")]
        ready = [line.split(b" ready=")[1].split(b" ")[0].split(b",") for line in shown]
        # (the node is as large as is said, and the turn is one that joins)
        is_such = (status, fault) == (0, b"") and [len(it) for it in ready] == [7 * JOINS + 1, 7 * JOINS + 8]
        if not is_such:
            print(f"the turn is not as it was to be: {[len(it) for it in ready]} ready, {fault.decode(errors='replace')}", file=sys.stderr)
            return 1
        refused = range(first + 1, last + 1)
        answer = wanted.split(turn[0].encode() + b"\n")
        right = (turn[0].encode() + b"\n> E63\n").join(answer)
        got = list(pool.map(lambda it: play_all.played(program, whole, heap, it), refused))
        # (the program may find no memory to read the turn's own line, and ends there)
        unread = [it for it in got if it[0] == 3 and it[2] == b"E9\n" and answer[0].startswith(it[1])]
        failed = [it for it, seen in zip(refused, got) if seen != (0, right, b"") and seen not in unread]
    told = len(refused) - len(failed) - len(unread)
    print(f"a join with eight kids among {8 * JOINS + 1} frames: {len(refused)} growths, {told} refused with E63, {len(unread)} before the turn, {len(failed)} failed")
    for it in failed:
        print(f"growth {it - first} of the turn", file=sys.stderr)
    return 1 if failed or len(unread) > 1 or not 1 < len(refused) <= MOST else 0


if __name__ == "__main__":
    sys.exit(main(sys.argv[1:]))
