"""Runs on processes that reach each other over UDP, timed: see bench/machines."""
import os
import signal
import socket
import statistics
import subprocess
import sys
import tempfile
import time

PROGRAM, FOLDER, EXAMPLES = sys.argv[1:4]
INPUT = sys.argv[4] if len(sys.argv) > 4 else "36"
TIMES = int(sys.argv[5]) if len(sys.argv) > 5 else 9
FIB = f"{EXAMPLES}/fib.ck"
NODE = f"{FOLDER}/cilknow-node"
MOST_WORKERS = 3
MANY, IDLE_SECONDS = 64, 5


def free_port():
    with socket.socket(socket.AF_INET, socket.SOCK_DGRAM) as it:
        it.bind(("127.0.0.1", 0))
        return it.getsockname()[1]


def serial(copies=1):
    """The time of so many evaluators at once, which tell what as many cores give just then."""
    begun = time.monotonic()
    words = PROGRAM, "serial", FIB, "--turns", "1000000000000", INPUT
    for it in [subprocess.Popen(words, stdout=subprocess.DEVNULL) for _ in range(copies)]:
        it.wait()
    return time.monotonic() - begun


class Run:
    def __init__(self, inputs, folder):
        at, self.key = f"127.0.0.1:{free_port()}", f"{folder}/key"
        with open(self.key, "wb") as it:
            it.write(os.urandom(32))
        self.join = ("worker", "--join", at, "--key", self.key, "--grace", "1", "--stats")
        self.house = subprocess.Popen((NODE, "house", FIB, *inputs, "--store", f"{folder}/store", "--listen", at, "--key", self.key, "--silence", "100"),
                                      stdout=subprocess.PIPE, text=True)
        # (so that no worker has to ask a second time)
        time.sleep(0.2)

    def worker(self):
        return subprocess.Popen((NODE, *self.join), stderr=subprocess.PIPE, text=True)


def answers(workers):
    """How long requests for work waited for their answers, in microseconds, as each of the workers counted it: the least, and its median."""
    found = []
    for worker in workers:
        counts = dict(line.rpartition(" ")[::2] for line in worker.communicate()[1].splitlines())
        if "microseconds to an answer, median" in counts:
            found.append([int(counts[f"microseconds to an answer, {it}"]) for it in ("least", "median")])
    return found


def machines(count, number=INPUT):
    """The time of a run from when its workers begin, the processor time that its house took, both in seconds, and how long answers took."""
    with tempfile.TemporaryDirectory() as folder:
        run = Run((number,), folder)
        before, begun = ticks(run.house.pid), time.monotonic()
        workers = [run.worker() for _ in range(count)]
        run.house.stdout.readline()
        took, of_house = time.monotonic() - begun, (ticks(run.house.pid) - before) / 100
        waited = answers(workers)
        run.house.wait()
        return took, of_house, waited


def ticks(number):
    """The processor time that a process has taken, in hundredths of a second."""
    with open(f"/proc/{number}/stat", encoding="ascii") as it:
        return sum(map(int, it.read().rpartition(")")[2].split()[11:13]))


def idle(count):
    """Of so many workers that find nothing to do, each: the processor time in a second; and that of the house, and how long answers took."""
    with tempfile.TemporaryDirectory() as folder:
        run = Run(("70",), folder)
        holder = run.worker()
        time.sleep(0.5)
        holder.send_signal(signal.SIGSTOP)
        workers = [run.worker() for _ in range(count)]
        time.sleep(3)
        watched = [run.house.pid, *(it.pid for it in workers)]
        before = [ticks(it) for it in watched]
        time.sleep(IDLE_SECONDS)
        took = [(ticks(it) - was) / 100 / IDLE_SECONDS for it, was in zip(watched, before)]
        for process in workers:
            process.terminate()
        waited = answers(workers)
        for process in (holder, run.house):
            process.kill()
            process.communicate()
        return took[0], sum(took[1:]) / count, waited


def told(waited):
    """The least of all, and the middle one of the workers' medians."""
    medians = sorted(it[1] for it in waited)
    return f"least {min(it[0] for it in waited)}, median {medians[len(medians) // 2]} microseconds" if waited else "none was answered"


# (all of them one after the other, and that some times, so that each sees the same machine)
tries = [[(serial(workers), *machines(workers)) for workers in range(1, MOST_WORKERS + 1)] for _ in range(TIMES)]
at_once, runs = ([statistics.median(each[at][which] for each in tries) for at in range(MOST_WORKERS)] for which in (0, 1))
answered = [[it for each in tries for it in each[at][3]] for at in range(MOST_WORKERS)]
print(f"FIB {INPUT}: serial {at_once[0]:.2f} s")
for workers, together, took, waited in zip(range(1, MOST_WORKERS + 1), at_once, runs, answered):
    print(f"a house and {workers} workers: {took:.2f} s, {at_once[0] / took:.2f} times as fast as serial, {together / workers / took:.2f} of as many evaluators "
          f"at once; a request for work and its answer: {told(waited)}")
large = str(int(INPUT) + 4)
took, of_house, _ = machines(MANY, large)
print(f"FIB {large}, a house and {MANY} workers on {os.cpu_count()} processors: {took:.2f} s, of which the house takes {100 * of_house / took:.2f} % of a core")
for workers in (2, MANY):
    house, each, waited = idle(workers)
    print(f"{workers} workers without work: {100 * each:.2f} % of a core each, and the house {100 * house:.2f} %; a request for work and its answer: {told(waited)}")
