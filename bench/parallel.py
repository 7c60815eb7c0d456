"""What runs on nodes gain where tasks are evaluated whole: see bench/parallel."""
import os
import re
import shutil
import statistics
import subprocess
import sys
import tempfile
import time

PROGRAM, EXAMPLES = sys.argv[1:3]
TRIES = 9
MOST_AT_ONCE = 4
MANY = "100000000000"
# As many tasks as calls; with a cut-off a programmer would write none below it.
TASKS = r"""
#include <stdio.h>
#include <stdlib.h>

static long cut;

static long fib(long n) {
  long x, y;
  if (n < 2) return n;
  if (n < cut) return fib(n - 1) + fib(n - 2);
#pragma omp task shared(x)
  x = fib(n - 1);
  y = fib(n - 2);
#pragma omp taskwait
  return x + y;
}

int main(int count, char **words) {
  long value;
  cut = atol(words[2]);
#pragma omp parallel
#pragma omp single
  value = fib(atol(words[1]));
  printf("%ld\n", value);
}
"""
# Some thousand levels, each with a FIB of 15 beside it; and nine levels of five kids.
COMB = (
    "thread main(k,n){if n<1{send_argument(k,0);}else{spawn_next sum(k,?x,?y);spawn main(x,n-1);spawn fib(y,15);}}"
    "thread sum(k,x,y){send_argument(k,x+y);}"
    "thread fib(k,n){if n<2{send_argument(k,n);}else{spawn_next sum(k,?x,?y);spawn fib(x,n-1);spawn fib(y,n-2);}}"
)
WIDE = (
    "thread main(k,n){if n<1{send_argument(k,1);}else{spawn_next sum(k,?a,?b,?c,?d,?e);"
    "spawn main(a,n-1);spawn main(b,n-1);spawn main(c,n-1);spawn main(d,n-1);spawn main(e,n-1);}}"
    "thread sum(k,a,b,c,d,e){send_argument(k,a+b+c+d+e);}"
)


def timed(*words, env=None):
    """The median of a command's wall times in seconds."""
    return statistics.median(once(*words, env=env)[0] for _ in range(TRIES))


def once(*words, env=None, copies=1):
    """Wall time in seconds of a command, of which so many copies run at once, and what the first one told."""
    start = time.monotonic()
    children = [subprocess.Popen(words, stdout=subprocess.DEVNULL, stderr=subprocess.PIPE, text=True, env=env) for _ in range(copies)]
    told = [child.communicate()[1] for child in children]
    wall = time.monotonic() - start
    return None if any(child.returncode for child in children) else (wall, told[0])


def count(told, name):
    found = re.search(rf"^{name} (\d+)$", told, re.M)
    return int(found.group(1)) if found else 0


HOWS = [["--bodies", str(it)] for it in range(1, MOST_AT_ONCE + 1)] + [["--nodes", str(it)] for it in range(2, MOST_AT_ONCE + 1)]


def row(name, file, inputs):
    """Rows of a job: serially, and on nodes. All of them are run one after the other, and that some times, so that each sees the same machine;
    the median of each is told. (Cores that others share have two speeds: the least of some tries is chance.) So many evaluators at once tell
    what as many cores give: the part of it that a run has is the last column."""
    serially = (PROGRAM, "serial", file, "--turns", MANY)
    # (counting takes a tenth of a serial turn)
    needed = count(subprocess.run((*serially, "--stats", *inputs), capture_output=True, text=True).stderr, "turns")
    commands = {" ".join(how): (PROGRAM, "run", file, "--turns", MANY, "--grain", "100000", *how) for how in HOWS}
    at_once = {copies: [] for copies in range(1, MOST_AT_ONCE + 1)}
    tries = {how: [] for how in commands}
    for _ in range(TRIES):
        for copies, each in at_once.items():
            each.append(once(*serially, *inputs, copies=copies)[0])
        for how, words in commands.items():
            tries[how].append(once(*words, *inputs))
    at_once = {copies: statistics.median(each) for copies, each in at_once.items()}
    took = {how: statistics.median(it[0] for it in each) if all(each) else None for how, each in tries.items()}
    alone = at_once[1]
    print(f"| {name} | `serial` | {alone * 1e3:.0f} | 1.00 | {needed:,} | | 1.00 |", flush=True)
    for how, words in commands.items():
        if took[how] is None:
            print(f"| {name} | `run {how}` | no outcome | | | | |")
            continue
        stats = subprocess.run((*words, "--stats", *inputs), capture_output=True, text=True).stderr
        turns, wholes = count(stats, "turns"), count(stats, "tasks evaluated whole")
        spent = (turns + count(stats, "turns in them") + count(stats, "turns evaluated in vain")) / max(needed, 1)
        threads = int(how.split()[1])
        part = at_once[threads] / threads / took[how]
        print(f"| {name} | `run {how}` | {took[how] * 1e3:.0f} | {alone / took[how]:.2f} | {spent:.3f} | {turns + wholes:,} | {part:.2f} |", flush=True)


def openmp(folder):
    """The same recursion by OpenMP's tasks."""
    cc = shutil.which("gcc") or shutil.which("clang")
    if not cc:
        return
    source, program = f"{folder}/tasks.c", f"{folder}/tasks"
    with open(source, "w", encoding="utf-8") as out:
        out.write(TASKS)
    if subprocess.run((cc, "-O2", "-fopenmp", source, "-o", program), capture_output=True).returncode:
        return
    print("\n| OpenMP's tasks, FIB 36 | threads | ms | times as fast as one |\n|---|---|---|---|")
    for name, cut in ("with a cut-off at 18", "18"), ("without", "0"):
        first = None
        for threads in 1, 2, 3, 4:
            took = timed(program, "36", cut, env={**os.environ, "OMP_NUM_THREADS": str(threads)})
            first = first or took
            print(f"| {name} | {threads} | {took * 1e3:.0f} | {first / took:.2f} |", flush=True)


def crashed():
    """How much later the answer comes where one of four nodes crashes or leaves, soon or in the midst, and where each crashes twice."""
    words = (PROGRAM, "run", f"{EXAMPLES}/fib.ck", "--turns", MANY, "--grain", "100000", "--nodes", "4")
    print("\n| FIB 36 on 4 nodes | ms |\n|---|---|")
    stats = subprocess.run((*words, "--stats", "36"), capture_output=True, text=True).stderr
    # (some two events come for each that carries out a frame)
    midst = "--after", str(count(stats, "turns") + count(stats, "tasks evaluated whole"))
    for name, *faults in (
        ("no fault",), ("one crashes after 50 events", "--crash", "1"), ("each crashes twice, one every 50 events", "--crash", "8"),
        ("one crashes in the midst", "--crash", "1", *midst), ("one leaves in the midst", "--depart", "1", *midst),
    ):
        print(f"| {name} | {timed(*words, *faults, '36') * 1e3:.0f} |", flush=True)


print("| job | how | ms | times as fast as `serial` | turns, or evaluated for each needed | events that carry out frames | of as many evaluators at once |")
print("|---|---|---|---|---|---|---|")
with tempfile.TemporaryDirectory() as here:
    for title, text in ("comb", COMB), ("wide", WIDE):
        with open(f"{here}/{title}.ck", "w", encoding="utf-8") as it:
            it.write(text)
    fib = f"{EXAMPLES}/fib.ck"
    for n in 27, 30, 33, 36:
        row(f"FIB {n}", fib, [str(n)])
    for n in 9, 10, 11:
        row(f"queens {n}", f"{EXAMPLES}/queens.ck", [str(n)])
    row("a comb of 990 levels", f"{here}/comb.ck", ["990"])
    row("9 levels of 5 kids", f"{here}/wide.ck", ["9"])
    row("Ackermann 2 450", f"{EXAMPLES}/ackermann.ck", ["2", "450"])
    openmp(here)
crashed()
