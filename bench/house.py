"""Times of calls of a clearinghouse, by how many members are listed; see bench/house. A round of a transcript opens a clearinghouse
anew, lists its members, and calls it. In the transcript beside it the packets are of another job, which a clearinghouse ignores
when it has read them, and the moments are none, so that the making, the words and the reading of packets fall out."""
import os
import re
import shutil
import struct
import subprocess
import sys
import tempfile
import time
from dataclasses import dataclass
from typing import Callable
import played

PROGRAM = (
    "thread main(k, n) { if n < 2 { send_argument(k, n); } else { spawn_next sum(k, ?x, ?y); spawn main(x, n - 1); "
    "spawn main(y, n - 2); } } thread sum(k, x, y) { send_argument(k, x + y); }"
)
# So long a member may be silent; at the other moment all are dead.
LIMIT = 1_000_000_000
FAR = 1_000_000_000_000
MEMBERS = (4, 64, 1_024, 4_096)
# How many clearinghouses are called as often as their members allow, and how often one is called that takes any number of calls.
ROUNDS = {4: 20_000, 64: 1_000, 1_024: 20, 4_096: 5}
CALLS = {4: 100_000, 64: 100_000, 1_024: 20_000, 4_096: 5_000}
TRIES = 7
FILE_ROUNDS = 200
SYSTEM_CALLS = "pread64,pwrite64,ftruncate,fsync,fdatasync"


def steal(word, seq):
    return f"hear Steal from={word} seq={seq} to=house:1 job=7"


def leave(word, heir):
    return f"hear Leave from={word} heir={heir} to=house:1 job=7"


def join(word):
    return f"hear Join from={word} to=house job=7"


def beat(word, version):
    return f"hear Beat from={word} version={version} to=house:1 job=7"


def middle(n):
    return n // 2 + 1


def in_turn(count):
    """So many members leave, each to the next one."""
    return [leave(word, word + 1) for word in range(1, count + 1)]


def chained(n):
    """How many members are in the chain of heirs: three of four, of which the last lives."""
    return n - n // 4


@dataclass
class Kind:
    """A call that is timed, by the members of a clearinghouse and the number of calls before it, and what it is answered; how many
    calls a clearinghouse takes, None for any number; how many members it has, and what comes before the calls."""
    name: str
    call: Callable[[int, int], str]
    wanted: str
    limit: Callable[[int], int] | None = None
    members: Callable[[int], int] = lambda n: n
    before: Callable[[int], list] = lambda n: []


def all_steal(n):
    """All members ask for work: the root task is granted to the first of them."""
    return [steal(word, 1) for word in range(1, n + 1)]


def is_granted(_):
    return [steal(1, 1)]


def chain(n):
    return [steal(1, 1), *in_turn(chained(n) - 1)]


def quarter(n):
    return n // 4


KINDS = [
    Kind("Join of a new member", lambda n, i: join(chained(n) + 1 + i), "Roster", limit=quarter, members=chained),
    Kind("Join of a listed one", lambda n, i: join(middle(n)), "Roster"),
    Kind("Beat, answered by a Roster", lambda n, i: beat(middle(n), 1), "Roster"),
    Kind("Beat, not answered", lambda n, i: beat(middle(n), n + 1), "nothing"),
    Kind("Steal that is refused", lambda n, i: steal(middle(n), i + 2), "Refuse", before=all_steal),
    Kind("the same Steal again", lambda n, i: steal(middle(n), 1), "Refuse", before=all_steal),
    Kind("Leave to the next", lambda n, i: leave(i + 1, i + 2), "Roster", limit=lambda n: n - 1, before=is_granted),
    Kind("Leave through 3 of 4", lambda n, i: leave(chained(n) + 1 + i, 1), "Roster", limit=quarter, before=chain),
    Kind("Leave of one that left", lambda n, i: leave(1, 2), "Roster", before=lambda n: in_turn(1)),
    Kind("moment, nobody dead", lambda n, i: f"tick {i + 1}", "nothing"),
    Kind("moment, all dead", lambda n, i: f"tick {FAR}", "Abort", limit=lambda n: 1, before=is_granted),
]


def ignored(call):
    """What stands in the place of a call where it isn't timed."""
    return "tick none" if call.startswith("tick") else call.replace(" job=7", " job=8")


def begun(is_brief):
    return [f"house program {PROGRAM}", "house input 10", "house job 7"] + ["house brief"] * is_brief


def texts(kind, n, rounds, count, is_brief):
    """The transcripts without and with so many calls of a kind, by some clearinghouses of some members."""
    made = ["disk new", "store format 7", f"house open {LIMIT}", f"house joins 1 {kind.members(n)}"]
    made += [f"house {it}" for it in kind.before(n)]
    calls = [kind.call(n, i) for i in range(count)]
    for called in ([ignored(it) for it in calls], calls):
        yield begun(is_brief) + (made + [f"house {it}" for it in called]) * rounds


def call_seconds(program, kind, n):
    """The processor time of one call."""
    count, rounds = (kind.limit(n), ROUNDS[n]) if kind.limit else (CALLS[n], 1)
    return played.call_seconds(program, list(texts(kind, n, rounds, count, True)), count * rounds, TRIES)


def check(program, kind, n):
    """The calls are answered as is wanted."""
    count = kind.limit(n) if kind.limit else 3
    seen = played.more_answers(program, list(texts(kind, n, 1, count, False)))
    played.demand(kind.name, seen, {kind.wanted: count})


def roster_in_python(members, i, moment):
    """A listed worker is heard, and the Roster is written."""
    members[i] = (members[i][0], moment)
    head = struct.pack(">3sBQQQQH", b"CN\x01", 2, 7, i, 1, len(members) + 1, len(members))
    return head + b"".join(struct.pack(">QB", it, members[it][0]) for it in sorted(members))


def python_seconds(n):
    """The processor time of that in CPython, by the least of some tries."""
    members, least, calls = {i: (1, 0) for i in range(1, n + 1)}, float("inf"), max(50_000 // n, 20)
    for _ in range(TRIES):
        start = time.process_time()
        for moment in range(calls):
            roster_in_python(members, n // 2 + 1, moment)
        least = min(least, time.process_time() - start)
    return least / calls


# What is done over a file in each round, how the line is named, and what is done beside it where that isn't timed.
FORMAT = ["store format 7"]
OPEN = [*FORMAT, f"house open {LIMIT}", "house close"]
GRANTED = ["house open 1000000000", f"house {join(3)}", f"house {steal(3, 1)}"]
RESULT = "house hear Result from=3 grant=house:1/1 outcome=55 to=house:1 job=7"
DEEDS = [
    ("open", FORMAT, OPEN),
    ("a recorded outcome", [*FORMAT, *GRANTED, ignored(RESULT), "house close"], [*FORMAT, *GRANTED, RESULT, "house close"]),
]


def deed_text(deed, rounds):
    return begun(True) + ["file new -", "disk file"] + deed * rounds


def system_calls(program, file):
    """How often a run makes each call of the system, by strace; None where that doesn't run."""
    words = ["strace", "-f", "-c", "-e", f"trace={SYSTEM_CALLS}", program]
    with open(file, "rb") as text:
        ran = subprocess.run(words, stdin=text, stdout=subprocess.DEVNULL, stderr=subprocess.PIPE, text=True)
    lines = re.findall(r"^ *[\d.]+ +[\d.]+ +\d+ +(\d+) +(?:\d+ +)?(\w+)$", ran.stderr, re.M)
    return {name: int(count) for count, name in lines if name != "total"} if ran.returncode == 0 else None


def more_system_calls(program, folder, before, deed):
    """Which calls of the system a deed makes beside those of the one before it, in words."""
    if not shutil.which("strace"):
        return "strace isn't installed"
    files = [played.file_of(folder, f"deed-{i}", deed_text(it, 10)) for i, it in enumerate((before, deed))]
    counts = [system_calls(program, it) for it in files]
    if None in counts:
        return "strace doesn't run"
    more = {it: (counts[1].get(it, 0) - counts[0].get(it, 0)) / 10 for it in counts[0] | counts[1]}
    return ", ".join(f"{it} {more[it]:g}" for it in sorted(more) if more[it])


def on_file(program, folder):
    """Prints what each deed takes over a file, which is made in the folder, and which calls of the system it makes."""
    os.environ["TMPDIR"] = folder
    print(f"\n{'over a file':32}{'ms':>8}  calls of the system")
    for name, before, deed in DEEDS:
        both = [deed_text(it, FILE_ROUNDS) for it in (before, deed)]
        took = played.call_seconds(program, both, FILE_ROUNDS, TRIES, time.perf_counter)
        print(f"{name:32}{took * 1e3:8.3f}  {more_system_calls(program, folder, before, deed)}", flush=True)


def main():
    program = sys.argv[1]
    for kind in KINDS:
        check(program, kind, MEMBERS[0])
    print(f"{os.cpu_count()} processors; microseconds a call, by the members that are listed")
    print(f"{'':32}" + "".join(f"{n:>10,}" for n in MEMBERS))
    for kind in KINDS:
        cells = [call_seconds(program, kind, n) * 1e6 for n in MEMBERS]
        print(f"{kind.name:32}" + "".join(f"{cell:10.2f}" for cell in cells), flush=True)
    print(f"{'CPython: heard, and a Roster':32}" + "".join(f"{python_seconds(n) * 1e6:10.2f}" for n in MEMBERS))
    with tempfile.TemporaryDirectory(dir=os.getcwd()) as folder:
        on_file(program, folder)


main()
