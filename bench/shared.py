"""Times of what threads share without waiting; see bench/shared. The program does one thing so often by so many threads; two
counts of rounds are compared, so that its start and that of its threads fall out."""
import os
import subprocess
import sys
import time

THREADS = (1, 2, 4)
# What is done, whether each thread does all rounds (else they share them), and how many.
KINDS = [
    ("draws", "start words drawn", True, 40_000_000),
    ("adds", "fetch_add on a bare word", True, 40_000_000),
    ("tickets", "tickets offered and stolen", False, 2_000_000),
    ("reads", "a published board read", True, 400_000_000),
    ("loads", "load of a bare word", True, 400_000_000),
]


def run_seconds(program, kind, threads, rounds, wanted, tries=5):
    """The least wall time of some tries."""
    best = float("inf")
    for _ in range(tries):
        start = time.perf_counter()
        run = subprocess.run([program, kind, str(threads), str(rounds)], stdout=subprocess.PIPE, check=True, text=True)
        best = min(best, time.perf_counter() - start)
        if int(run.stdout) != wanted(rounds):
            sys.exit(f"{kind} by {threads} threads, {rounds} rounds: {run.stdout.strip()}")
    return best


def millions(program, kind, threads, each, rounds):
    """How many millions a second, over all threads."""
    times = threads if each else 1
    wanted = lambda rounds: times * rounds
    long = run_seconds(program, kind, threads, 2 * rounds, wanted)
    short = run_seconds(program, kind, threads, rounds, wanted)
    return times * rounds / (long - short) / 1e6


def main():
    program = sys.argv[1]
    print(f"{os.cpu_count()} processors; millions a second, over all threads")
    titles = " ".join(f"{n:>4} thread{'s' if n > 1 else ' '}" for n in THREADS)
    print(f"{'':28} {titles}")
    for kind, name, each, rounds in KINDS:
        cells = [f"{millions(program, kind, n, each, rounds // n if each else rounds):12.1f}" for n in THREADS]
        print(f"{name:28} {' '.join(cells)}")


main()
