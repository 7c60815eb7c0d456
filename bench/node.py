"""Times of calls of a node, by how many frames its subcomputation holds, and by how many records; see bench/node. Worker 2 builds
a subcomputation and leaves with it to worker 3. Each round of a transcript starts worker 3 anew, gives it that Offer, and calls it
for an eighth as many times as it holds frames, or, by records, some times. In the transcript beside it these calls are of worker
1, who isn't up, so that the making and the lines fall out."""
import os
import sys
import played

# A tree whose threads `main` are numbered level by level: those below a limit join with 8 kids each, and the others join with one
# where the last number isn't 0, and send where it is.
KIDS = "abcdefgh"
PROGRAM = (
    "thread main(k, i, limit, joins) { if i < limit { spawn_next sum(k, " + ", ".join(f"?{it}" for it in KIDS) + "); "
    + " ".join(f"spawn main({it}, 8 * i + {n}, limit, joins);" for n, it in enumerate(KIDS, 1))
    + " } else { if joins { spawn_next same(k, ?a); spawn main(a, i, limit, 0); } else { send_argument(k, i); } } } "
    + "thread sum(k, " + ", ".join(KIDS) + ") { send_argument(k, " + " + ".join(KIDS) + "); } "
    + "thread same(k, a) { send_argument(k, a); }"
)
ROSTERS = 16
RESENDS = 400
# What is called, how the line is named, and what a call is answered.
FRAME_KINDS = [
    ("leaf", "a turn that sends", {"fill": 1}),
    ("join", "a turn that joins, the newest", {"nothing": 1}),
    ("oldest", "a turn that joins, the oldest", {"nothing": 1}),
    ("steal", "a Steal answered by a Grant", {"Grant": 1}),
    ("result", "a Result that fills a slot", {"ResultAck": 1, "fill": 1}),
]
RECORD_KINDS = [
    ("roster", "a Roster", {"nothing": 1}),
    ("resend", "resend of one that leaves", {"Beat": 1, "Offer": 1, "Grant": 5}),
]
# For each size how many nodes are made, and how often that is tried.
FRAMES = {10: (20_000, 9), 100: (1_000, 7), 1_000: (20, 5), 8_000: (1, 3)}
RECORDS = {10: (200, 9), 100: (20, 9), 1_000: (2, 9)}


def frame(index):
    """The number of the frame of the thread `main` of an index: each join takes one for its sum and 8 for its kids."""
    return 9 * ((index - 1) // 8) + 2 + (index - 1) % 8 if index else 0


def built(joins, is_join, last):
    """Worker 2 runs so many joins, level by level, and leaves to worker 3. Its Join, its Steal and its Offer are sent."""
    numbers = (0, joins, int(is_join))
    return [
        f"program {PROGRAM}",
        f"input {' '.join(map(str, numbers))}",
        "job 7",
        "start 2",
        f"give 2 Roster epoch=1 version=1 members=2..{last}:live to=2 job=7",
        "ask 2 house",
        f"give 2 Grant seq=1 grant=house:1/1 thread=0 at=- on={','.join(map(str, numbers))} to=2 job=7",
        *(f"exec 2 house:1/1 {frame(index)}" for index in range(joins)),
        "depart 2 3",
    ]


class Packets:
    """Packets to worker 3 that are made by hand, by the lines that make them."""

    def __init__(self):
        self.lines = []

    def made(self, words):
        """The number of one, behind the three that were sent."""
        self.lines.append(f"make {words} to=3 job=7")
        return f"#{len(self.lines) + 3}"


def chain(before, last):
    """The roster behind the first one and so many others, by which all workers behind 3, and one more for each roster before, have
    left, each to the next one, and the last of these lives."""
    left = ",".join(f"{word}:left:{word + 1}" for word in range(4, last + before))
    return f"Roster epoch=1 version={before + 2} members=2..3:live,{left},{last + before}:live"


def calls_of(kind, size, joins, last, packets):
    """What comes before the calls of a kind, and these, of a worker that is named later."""
    has_holders = kind in ("roster", "resend")
    count = size if has_holders else joins
    if kind == "leaf":
        return [], ["run {}"] * count
    if kind == "join":
        # (the newest frame of its level first, as a node takes them)
        return [], [f"exec {{}} house:1/1 {frame(8 * joins - it)}" for it in range(count)]
    if kind == "oldest":
        return [], [f"exec {{}} house:1/1 {frame(joins + it)}" for it in range(count)]
    thieves = [(4 + it, 1) if has_holders else (4, 1 + it) for it in range(count)]
    steals = [f"give {{}} {packets.made(f'Steal from={thief} seq={seq}')}" for thief, seq in thieves]
    if kind == "steal":
        return [], steals
    before = [it.format(3) for it in steals]
    if kind == "result":
        made = (packets.made(f"Result from=4 grant=3/{1 + it} outcome=1") for it in range(count))
        return before, [f"give {{}} {it}" for it in made]
    if kind == "roster":
        return before, [f"give {{}} {packets.made(chain(it, last))}" for it in range(ROSTERS)]
    acks = (packets.made(f"OfferAck from={4 + it} grant=3/{1 + it} hop=0") for it in range(count // 2))
    return before + [f"depart 3 {last}"] + [f"give 3 {it}" for it in acks], ["resend {}"] * RESENDS


def texts(kind, size, rounds, brief):
    """The transcripts without and with the calls of a kind, and how many these are."""
    has_holders = kind in ("roster", "resend")
    joins, last = (size // 7 + 1, 4 * size + 3) if has_holders else (size // 8, 4)
    packets = Packets()
    listed = packets.made(f"Roster epoch=1 version=1 members=2..{last}:live")
    before, calls = calls_of(kind, size, joins, last, packets)
    begun = built(joins, kind in ("join", "oldest"), last) + packets.lines + brief + ["start 3", f"give 3 {listed}", "give 3 #3", *before]
    again = ["crash 3", "start 3", f"give 3 {listed}", "give 3 #3", *before]
    both = []
    for worker in (1, 3):
        called = [it.format(worker) for it in calls]
        both.append(begun + called + (again + called) * (rounds - 1))
    return both, len(calls) * rounds


def check(program, kinds, size):
    """The calls of the smallest size are answered as is wanted."""
    for kind, _, wanted in kinds:
        both, calls = texts(kind, size, 1, [])
        played.demand(kind, played.more_answers(program, both), {it: count * calls for it, count in wanted.items()})


def microseconds(program, kind, size, rounds, tries):
    """The microseconds of a call."""
    both, calls = texts(kind, size, rounds, ["brief"])
    return played.call_seconds(program, both, calls, tries) * 1e6


def counted(program, kind, size, _rounds, _tries):
    """The instructions of a call, by one round."""
    both, calls = texts(kind, size, 1, ["brief"])
    return played.call_instructions(program, both, calls)


def table(program, kinds, sizes, of_what, of_a_call=microseconds):
    check(program, kinds, min(sizes))
    print(f"{of_what:32}" + "".join(f"{size:>10,}" for size in sizes))
    for kind, name, _ in kinds:
        cells = (of_a_call(program, kind, size, *often) for size, often in sizes.items())
        print(f"{name:32}" + "".join(f"{cell:10,.2f}" for cell in cells), flush=True)


def main():
    program = sys.argv[1]
    if sys.argv[2:] == ["instructions"]:
        print("instructions a call")
        table(program, FRAME_KINDS, FRAMES, "frames", counted)
        table(program, RECORD_KINDS, RECORDS, "records, by four times the members", counted)
        return
    print(f"{os.cpu_count()} processors; microseconds a call")
    if sys.argv[2:] != ["records"]:
        table(program, FRAME_KINDS, FRAMES, "frames")
    table(program, RECORD_KINDS, RECORDS, "records, by four times the members")


if __name__ == "__main__":
    main()
