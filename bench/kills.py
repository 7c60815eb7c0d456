"""A run that is killed again and again over one store: see bench/kills."""
import os
import random
import re
import shutil
import subprocess
import sys
import tempfile
import time

PROGRAM, EXAMPLES = sys.argv[1:3]
WORDS = sys.argv[3:]
INPUT = int(WORDS[0]) if WORDS else 47
KILLS = int(WORDS[1]) if len(WORDS) > 1 else 20
MOST_SECONDS = float(WORDS[2]) if len(WORDS) > 2 else 25.0
EVERY = int(WORDS[3]) if len(WORDS) > 3 else 5
FIB = f"{EXAMPLES}/fib.ck"
NODES = ("--nodes", "4", "--turns", "1000000000000")
SEED = 7
# Where the large slots of a store begin, their bytes, and those of an entry of one.
SLOTS, SLOT, ENTRY = (136, 2248), 2112, 32


def turns(n):
    """How many turns FIB of n takes: one for each call, and one for each sum."""
    calls, sums = [1, 1], [0, 0]
    for i in range(2, n + 1):
        calls.append(1 + calls[i - 1] + calls[i - 2])
        sums.append(1 + sums[i - 1] + sums[i - 2])
    return calls[n] + sums[n]


def outcome():
    """What a run answers that ends."""
    value, behind = 0, 1
    for _ in range(INPUT):
        value, behind = behind, value + behind
    return f"value {value}\n"


def saved_in(path):
    """The places of the values that a store has: the steps from the root on."""
    with open(path, "rb") as it:
        content = it.read()
    if len(content) < SLOTS[1] + SLOT:
        return []
    slots = [content[at:at + SLOT] for at in SLOTS]
    newest = max((it for it in slots if it[0] == 0xA5), key=lambda it: int.from_bytes(it[1:9], "big"), default=bytes(SLOT))
    entries = (newest[64 + ENTRY * number:][:ENTRY] for number in range(newest[36]))
    return [tuple(it[1:1 + it[0]]) for it in entries]


def share(places):
    """For which share of the turns the values stand: those of places below another one's aren't counted again."""
    tops = [it for it in places if not any(it[:len(other)] == other for other in places if len(other) < len(it))]
    return sum(turns(max(0, INPUT - sum(it))) for it in tops) / turns(INPUT)


def ended(path):
    """A run to its end, whose outcome has to be the right one: its seconds, and the turns that it took."""
    start = time.monotonic()
    done = subprocess.run((PROGRAM, "run", FIB, *NODES, "--stats", "--store", path, str(INPUT)), capture_output=True, text=True)
    seconds = time.monotonic() - start
    if (done.returncode, done.stdout) != (0, outcome()):
        sys.exit(f"a run to its end answers {done.returncode} {done.stdout}{done.stderr}")
    taken = sum(int(it) for it in re.findall(r"(?m)^(?:turns|turns in them) (\d+)$", done.stderr))
    return seconds, taken


def to_go(path, copy):
    """What a run over a copy of a store still does: its turns and its seconds."""
    for ending in ("", ".job"):
        if os.path.exists(f"{path}{ending}"):
            shutil.copyfile(f"{path}{ending}", f"{copy}{ending}")
    seconds, taken = ended(copy)
    return f"{taken:,} in {seconds:.1f} s"


def killed(path, wait):
    """Whether a run over a store is killed behind so many seconds. One that ends before has to answer the right outcome."""
    run = subprocess.Popen((PROGRAM, "run", FIB, *NODES, "--store", path, str(INPUT)), stdout=subprocess.PIPE, stderr=subprocess.PIPE, text=True)
    try:
        answer = (*run.communicate(timeout=wait), run.returncode)
    except subprocess.TimeoutExpired:
        run.kill()
        run.communicate()
        return True
    if answer != (outcome(), "", 0):
        sys.exit(f"a run that wasn't killed answers {answer}")
    return False


def main():
    dice = random.Random(SEED)
    with tempfile.TemporaryDirectory(prefix="kills-") as folder:
        path = f"{folder}/store"
        print("| run | killed after | saved | stands for | turns still to go |\n|---|---|---|---|---|")
        for number in range(1, KILLS + 1):
            wait = dice.uniform(0, MOST_SECONDS)
            if not killed(path, wait):
                print(f"| {number} | ended | | all | |")
                break
            places = saved_in(path) if os.path.exists(path) else []
            left = to_go(path, f"{folder}/copy {number}") if number % EVERY == 0 else ""
            print(f"| {number} | {wait:.1f} s | {len(places)} | {100 * share(places):.1f} % | {left} |", flush=True)
        for name, store in (("the run behind them", path), ("one over a new store", f"{folder}/new")):
            seconds, taken = ended(store)
            print(f"{name}: {outcome().strip()}, {seconds:.1f} s, {taken:,} turns", flush=True)
        print(f"all turns of the job: {turns(INPUT):,}")


main()
