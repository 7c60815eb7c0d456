"""Times of Offers in Pieces; see bench/pieces. Worker 2 builds a tree of frames, whose places have 900 steps, until these take so
many bytes, and leaves with them to worker 3. Four transcripts are played: one up to there, one in which worker 2 leaves as well, one in which each Piece is
then given to worker 1, who isn't up, and one in which it is given to worker 3. What one takes beyond the one before it is the
cutting and sending, and the joining and taking. Beside each Offer in Pieces stand as many bytes in Offers of one packet each: worker 2 holds
as many subcomputations then, each with a tree of its own."""
import os
import re
import subprocess
import sys
import tempfile
import played

KIDS = "abcdefgh"
PROGRAM = (
    "thread main(k, n) { spawn_next sum(k, " + ", ".join(f"?{it}" for it in KIDS) + "); "
    + " ".join(f"spawn main({it}, n + 1);" for it in KIDS)
    + " } thread sum(k, " + ", ".join(KIDS) + ") { send_argument(k, " + " + ".join(KIDS) + "); }"
)
CLOCK = "/usr/bin/time"
PART = 65_536
MB = 1_000_000
STEPS = 900
# So many bytes does a turn add: eight frames, and one more of a sum in the place of its own.
TURN_BYTES = 8_486
MEMBERS = "members=2..4:live"
# So many turns are offered in one packet.
OF_PACKET = PART // TURN_BYTES


def tree(turns):
    """The numbers of the frames that so many turns take, level by level and the newest of each first, as a node finds it fastest."""
    level, below, next_number, numbers = [0], [], 1, []
    while len(numbers) < turns:
        if not level:
            level, below = below, []
        numbers.append(level.pop())
        below += range(next_number + 1, next_number + 9)
        next_number += 9
    return numbers


BEGUN = [f"program {PROGRAM}", "input 0", "job 7", "brief"]


def built(subs, turns, steps=STEPS):
    """The lines up to the departure of worker 2, who holds so many subcomputations, in each what so many turns left."""
    lines, numbers = ["start 2", f"give 2 Roster epoch=1 version=1 {MEMBERS} to=2 job=7"], tree(turns)
    for number in range(1, subs + 1):
        lines += ["ask 2 4", f"give 2 Grant seq={number} grant=4/{number} thread=0 at=1*{steps} on=0 to=2 job=7"]
        lines += (f"exec 2 4/{number} {it}" for it in numbers)
    return lines


def given(worker, numbers):
    """The lines by which worker 3 comes, and so many packets come to a worker."""
    return ["start 3", f"give 3 Roster epoch=1 version=1 {MEMBERS} to=3 job=7", *(f"give {worker} #{it}" for it in numbers)]


def printed(program, lines):
    """What is printed of a transcript."""
    with tempfile.TemporaryDirectory() as folder, open(played.file_of(folder, "text", lines), "rb") as text:
        return subprocess.run([program], stdin=text, stdout=subprocess.PIPE, check=True, text=True).stdout


def sent(program, subs, turns):
    """How many bytes the Offers have, and the numbers of the packets in which they go, which have to be taken by the heir."""
    leaves = BEGUN + built(subs, turns) + ["full", "depart 2 3"]
    numbers = re.findall(r"^> #(\d+) (?:Piece|Offer) ", printed(program, leaves), re.M)
    out = printed(program, leaves + [f"hex #{it}" for it in numbers] + given(3, numbers))
    spelled = [len(it) // 2 for it in re.findall(r"^> ([0-9a-f]{40,})$", out, re.M)]
    # (a Piece has 56 bytes beside its part)
    size = sum(spelled) - (56 * len(spelled) if len(spelled) > subs else 0)
    if len(spelled) != len(numbers) or out.count("OfferAck") != subs:
        sys.exit(f"{subs} times {turns} turns: {len(numbers)} packets, {len(spelled)} of them spelled, {out.count('OfferAck')} times accepted")
    return size, numbers


def peak(program, file):
    """The peak memory in bytes of a program that plays this, by GNU time, or nothing without that."""
    if not os.path.exists(CLOCK):
        return 0
    with open(file, "rb") as text:
        ran = subprocess.run([CLOCK, "-f", "%M", program], stdin=text, stdout=subprocess.DEVNULL, stderr=subprocess.PIPE, check=True, text=True)
    return int(ran.stderr.split()[-1]) * 1024


def row(program, name, subs, turns, rounds, tries):
    """A row: MB/s of both ways, and the peak memory of each beyond that of what comes before, as so many times the Offers' bytes."""
    size, numbers = sent(program, subs, turns)
    steps = [BEGUN + (built(subs, turns) + leaves + ["crash 2"]) * rounds for leaves in ([], ["depart 2 3"])]
    # (only what isn't told in brief is kept)
    left = BEGUN + built(subs, turns) + ["full", "depart 2 3", "brief"]
    steps += [left + (given(worker, numbers) + ["crash 3"]) * rounds for worker in (1, 3)]
    with tempfile.TemporaryDirectory() as folder:
        files = [played.file_of(folder, f"text-{i}", lines) for i, lines in enumerate(steps)]
        times = played.least_seconds(program, files, tries)
        memory = [peak(program, it) for it in files]
    cells = [f"{rounds * size / (late - early) / MB:9.0f}" for early, late in (times[:2], times[2:])]
    cells += [f"{(late - early) / size:9.2f}" for early, late in (memory[:2], memory[2:])]
    print(f"{name:24} {size:>12,} {len(numbers):>7,} {' '.join(cells)}", flush=True)


def main():
    program = sys.argv[1]
    sizes = [int(it) for it in sys.argv[2:]] or [1, 10, 100]
    print(f"{'Offers':24} {'bytes':>12} {'packets':>7} {'cut MB/s':>9} {'taken':>9} {'memory':>9} {'memory':>9}")
    row(program, "one in one packet", 1, OF_PACKET, 300, 5)
    for size in sizes:
        turns, rounds, tries = size * MB // TURN_BYTES, max(20 // size, 1), 5 if size < 50 else 3
        row(program, f"one of {size} MB", 1, turns, rounds, tries)
        row(program, f"{size} MB, a packet each", turns // OF_PACKET, OF_PACKET, rounds, tries)


if __name__ == "__main__":
    main()
