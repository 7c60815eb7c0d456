"""Times of the program on Fibonacci numbers, beside the same recursion elsewhere; see bench/serial."""
import os
import re
import shutil
import subprocess
import sys
import tempfile
import time

PYTHON = """
import sys
def fib(n):
    if n < 2:
        return n
    return fib(n - 1) + fib(n - 2)
print(fib(int(sys.argv[1])))
"""
LUA = """
local function fib(n)
  if n < 2 then return n end
  return fib(n - 1) + fib(n - 2)
end
print(fib(tonumber(arg[1])))
"""
# As many tasks as the program has turns: one for each call, and one for each sum.
TASKS = r"""
#include <stdio.h>
#include <stdlib.h>

static long fib(long n) {
  long x, y, sum;
  if (n < 2) return n;
#pragma omp task shared(x)
  x = fib(n - 1);
#pragma omp task shared(y)
  y = fib(n - 2);
#pragma omp taskwait
#pragma omp task shared(x, y, sum)
  sum = x + y;
#pragma omp taskwait
  return sum;
}

int main(int count, char **words) {
  long value;
#pragma omp parallel
#pragma omp single
  {
#pragma omp task shared(value)
    value = fib(atol(words[1]));
#pragma omp taskwait
  }
  printf("%ld\n", value);
}
"""

INPUT = 27
TRIES = 5
# As many for a check, which takes a few milliseconds.
CHECKS = 200
SERIAL, RUN, NODE, OPENMP, LUA_ROW = "cilknow serial", "cilknow run", "run on one node", "OpenMP tasks", "Lua 5.4"
# The inputs whose difference is counted in instructions.
COUNTED = (15, 20)
LEVELS = (0, 1_000)
CLOCK = "/usr/bin/time"

# What `serial` is timed on beside FIB: a program, an input that takes next to no turns, and the input.
PROGRAMS = [
    ("tak", (0, 0, 0), (24, 16, 8)),
    ("queens", (1,), (11,)),
    ("binomial", (0, 0), (22, 11)),
    ("knary", (0, 0, 0), (11, 3, 1)),
    ("ackermann", (0, 0), (2, 450)),
]


def used_by(words):
    """The processor time and the wall time of a command, in seconds."""
    start = time.perf_counter()
    child = subprocess.Popen(words, stdout=subprocess.DEVNULL)
    _, status, used = os.wait4(child.pid, 0)
    wall = time.perf_counter() - start
    child.returncode = os.waitstatus_to_exitcode(status)
    if child.returncode != 0:
        raise SystemExit(f"{words}: status {child.returncode}")
    return used.ru_utime + used.ru_stime, wall


def least(commands, tries=TRIES):
    """The least processor time and the least wall time of each of some commands, which run in turns."""
    best = [(float("inf"), float("inf"))] * len(commands)
    for _ in range(tries):
        best = [tuple(map(min, before, used_by(words))) for before, words in zip(best, commands)]
    return best


def between(rows, small, large, tries=TRIES):
    """What each of some commands takes on an input more than on a small one: processor time and wall time, in seconds."""
    taken = least([[*words, *map(str, numbers)] for words in rows for numbers in (small, large)], tries)
    return [tuple(max(b - a, 1e-6) for a, b in zip(*pair)) for pair in zip(taken[::2], taken[1::2])]


def memory_of(words):
    """The peak memory in KiB, by GNU time where it is installed."""
    if not os.path.exists(CLOCK):
        return "-"
    done = subprocess.run([CLOCK, "-f", "%M", *words], stdout=subprocess.DEVNULL, stderr=subprocess.PIPE, check=True)
    return int(done.stderr.split()[-1])


def instructions_of(words, folder):
    """How many instructions a command takes, by valgrind."""
    words = ["valgrind", "--tool=callgrind", f"--callgrind-out-file={folder}/counted", *words]
    done = subprocess.run(words, stdout=subprocess.DEVNULL, stderr=subprocess.PIPE, check=True, text=True)
    return int(re.search(r"Collected : (\d+)", done.stderr)[1])


def fib(n):
    a, b = 0, 1
    for _ in range(n):
        a, b = b, a + b
    return a


def turns(n):
    """The bodies that the program runs: those of main, and those of sum."""
    return 2 * fib(n + 1) - 1 + fib(n + 1) - 1


def long_texts():
    """Programs of nearly 65,536 bytes: one of many short `let`s, and one of `let`s with longer expressions."""
    for name, value in (("short lets", "n"), ("longer expressions", "(n * 3 + 1) % 97 ^ n << 2 | n - 5 & 12 < n")):
        text, i = "thread main(k, n) {\n", 0
        while len(text) < 65_400:
            text, i = text + f"let a{i} = {value};\n", i + 1
        yield name, text + "send_argument(k, n);\n}\n"


def levels():
    """A program of n levels, at each of which eight kids are made: the last one goes on, and seven wait until it has ended."""
    kids = "abcdefgh"
    return (
        "thread main(k, n) { if n < 1 { send_argument(k, 1); } else { spawn_next sum(k, " + ", ".join(f"?{it}" for it in kids) + "); "
        + " ".join(f"spawn leaf({it});" for it in kids[:-1]) + " spawn main(h, n - 1); } } thread leaf(k) { send_argument(k, 1); } "
        + "thread sum(k, " + ", ".join(kids) + ") { send_argument(k, " + " + ".join(kids) + "); }"
    )


def written(folder, name, text):
    path = os.path.join(folder, name)
    with open(path, "w", encoding="utf-8") as out:
        out.write(text)
    return path


def beside(folder):
    """The same recursion elsewhere, as far as there is what runs it."""
    rows = {"CPython " + sys.version.split()[0]: [sys.executable, "-c", PYTHON]}
    if shutil.which("lua5.4"):
        rows[LUA_ROW] = ["lua5.4", written(folder, "fib.lua", LUA)]
    if shutil.which("gcc"):
        tasks = os.path.join(folder, "tasks")
        subprocess.run(["gcc", "-O2", "-fopenmp", "-o", tasks, written(folder, "tasks.c", TASKS)], check=True)
        # (no other row reads it)
        os.environ["OMP_NUM_THREADS"] = "1"
        rows[OPENMP] = [tasks]
    return rows


def show_fib(rows, folder):
    """FIB by all rows, and the ratios that are told as goals."""
    taken = dict(zip(rows, between(rows.values(), (0,), (INPUT,))))
    count = turns(INPUT)
    print(f"FIB {INPUT}: {count:,} turns\n\n{'':22} processor ms   wall ms   M turns/s   us a turn")
    for name, (busy, wall) in taken.items():
        print(f"  {name:20} {busy * 1e3:12.1f} {wall * 1e3:9.1f} {count / busy / 1e6:11.2f} {busy / count * 1e6:11.3f}")
    print()
    for over, under in ((SERIAL, LUA_ROW), (RUN, OPENMP), (NODE, RUN)):
        if under in taken:
            busy, wall = (a / b for a, b in zip(taken[over], taken[under]))
            print(f"  {over + ' / ' + under:36} {busy:7.2f} of processor time, {wall:.2f} of wall time")
    few, many = (memory_of([*rows[NODE], str(n)]) for n in (0, INPUT))
    if few != "-":
        print(f"  {NODE}: {many:,} KiB at most, {(many - few) * 1024 / count:.0f} bytes a turn with the trace")
    if shutil.which("valgrind"):
        show_instructions(rows, folder)


def show_instructions(rows, folder):
    """The instructions of a turn, which tell the same whatever else the machine does. (A node's threads wait for one another for so long
    as it takes, so theirs are left out.)"""
    counted = {}
    for name, words in rows.items():
        if name != NODE:
            few, many = (instructions_of([*words, str(n)], folder) for n in COUNTED)
            counted[name] = (many - few) / (turns(COUNTED[1]) - turns(COUNTED[0]))
    print(f"\n  instructions a turn, FIB {COUNTED[1]} less FIB {COUNTED[0]}")
    for name, each in counted.items():
        print(f"  {name:20} {each:9,.0f}")
    for over, under in ((SERIAL, LUA_ROW), (RUN, OPENMP)):
        if under in counted:
            print(f"  {over + ' / ' + under:36} {counted[over] / counted[under]:7.2f}")


def show_programs(programs, examples):
    """`serial` on more programs, by the program and perhaps by another build."""
    print("\nserial on               ms" + "    other's ms   ratio" * (len(programs) - 1))
    for name, small, large in PROGRAMS:
        text = os.path.join(examples, f"{name}.ck")
        own, *others = [it[0] for it in between([[program, "serial", text] for program in programs], small, large)]
        row = f"  {' '.join([name, *map(str, large)]):16} {own * 1000:7.1f}"
        print(row + "".join(f" {it * 1000:13.1f} {own / it:7.2f}" for it in others))


def show_growth(rows):
    print("\ninput      turns    serial ms   serial KiB       run ms      run KiB")
    for n in range(20, INPUT + 1):
        commands = [[*rows[name], str(n)] for name in (SERIAL, RUN)]
        cells = (f"{busy * 1000:12.1f} {memory_of(words):>12}" for (busy, _), words in zip(least(commands, 3), commands))
        print(f"{n:5} {turns(n):10} {' '.join(cells)}")


def show_levels(program, folder):
    text = written(folder, "levels.ck", levels())
    [(busy, _)] = between([[program, "run", text]], *((it,) for it in LEVELS))
    print(f"\nrun of {LEVELS[1]:,} levels of 8 kids: {busy * 1e3:.1f} ms, {busy / (9 * LEVELS[1]) * 1e6:.2f} us a turn")


def show_checks(program, folder):
    print("\ntext                    bytes    check ms")
    texts = [(name, len(text), written(folder, name, text)) for name, text in long_texts()]
    taken = least([[program, "check", file] for _, _, file in texts], CHECKS)
    for (name, size, _), (busy, _) in zip(texts, taken):
        print(f"{name:20} {size:8} {busy * 1000:11.1f}")


def measure(folder):
    program, examples, *others = sys.argv[1:]
    text = os.path.join(examples, "fib.ck")
    rows = {SERIAL: [program, "serial", text], RUN: [program, "run", text]}
    rows[NODE] = [program, "run", text, "--nodes", "1", "--trace", os.path.join(folder, "trace")]
    rows |= beside(folder)
    for other in others:
        rows |= {"other's serial": [other, "serial", text], "other's run": [other, "run", text]}
    print(f"{os.cpu_count()} processors; each is the least of {TRIES} tries in turns, less that of the smallest input\n")
    show_fib(rows, folder)
    show_levels(program, folder)
    show_programs([program, *others], examples)
    show_growth(rows)
    show_checks(program, folder)


if __name__ == "__main__":
    with tempfile.TemporaryDirectory() as made:
        measure(made)
