"""What body workers gain, by how long a body takes; see bench/workers. A program adds up a tree of leaves, each the same long
expression of its number. How long a leaf takes is seen by `serial` with twice as many of them."""
import os
import subprocess
import sys
import tempfile
import time

WORKERS = (1, 2, 3)
TRIES = 5
# operations of a leaf, and how many leaves
SIZES = [(2_000, 8_000), (20_000, 1_000)]
SHORT = 20_000
# Leaves of so many nanoseconds of work that no compiler leaves out, added up by tasks.
TASKS = r"""
#include <stdio.h>
#include <stdlib.h>
#include <time.h>

static long spins;

static long leaf(long n) {
  volatile long it = n;
  for (long i = 0; i < spins; i++) it = it * 3 + 1;
  return it & 1;
}

static long all(long n) {
  long left, right;
  if (n < 2) return leaf(n);
#pragma omp task shared(left)
  left = all(n / 2);
#pragma omp task shared(right)
  right = all(n - n / 2);
#pragma omp taskwait
  return left + right;
}

static double now(void) {
  struct timespec it;
  clock_gettime(CLOCK_MONOTONIC, &it);
  return it.tv_sec + it.tv_nsec * 1e-9;
}

int main(int count, char **words) {
  double wanted = atof(words[1]), least = 1e9, start;
  long leaves = atol(words[2]), sum = 0;
  // (the slope over two lengths)
  double seen[2];
  for (int k = 0; k < 2; k++) {
    seen[k] = 1e9;
    spins = 10000L << k;
    for (int i = 0; i < 200; i++) { start = now(); sum += leaf(i); if (now() - start < seen[k]) seen[k] = now() - start; }
  }
  spins = wanted / ((seen[1] - seen[0]) / 10000);
  for (int i = 0; i < 5; i++) {
    start = now();
#pragma omp parallel
#pragma omp single
    sum += all(leaves);
    if (now() - start < least) least = now() - start;
  }
  printf("%.9f %ld\n", least, sum & 1);
}
"""


def program_of(operations):
    """The text of a tree of leaves with about so many operations each: `let`s, each of a chain that is as deep as a text may have it."""
    lets, last = [], "n"
    for number in range(max(1, operations // 60)):
        chain = "+3*n-5" * min(20, max(1, operations // 3))
        lets.append(f"let a{number}={last}{chain};")
        last = f"a{number}"
    return (
        f"thread main(k,n){{if n<2{{{''.join(lets)}send_argument(k,{last});}}else{{spawn_next sum(k,?x,?y);spawn main(x,n/2);spawn main(y,n-n/2);}}}}"
        "thread sum(k,x,y){send_argument(k,x+y);}"
    )


def seconds(*words, tries=TRIES):
    """The least wall time of a command, which prints the same each time, and what that is."""
    least, printed = float("inf"), set()
    for _ in range(tries):
        start = time.perf_counter()
        ran = subprocess.run(words, stdout=subprocess.PIPE, check=True, text=True)
        least = min(least, time.perf_counter() - start)
        printed.add(ran.stdout)
    if len(printed) > 1:
        sys.exit(f"{' '.join(words)}: {printed}")
    return least, printed.pop()


def main():
    program = sys.argv[1]
    print(f"{os.cpu_count()} processors; the least of {TRIES} runs, and in brackets how many times as fast as one worker\n")
    titles = " | ".join(f"{it} worker{'s' if it > 1 else ''}" for it in WORKERS)
    print(f"| a body | leaves | | {titles} |\n|---|---|---|" + "---|" * len(WORKERS))
    with tempfile.TemporaryDirectory() as folder:
        source, tasks, text = f"{folder}/tasks.c", f"{folder}/tasks", f"{folder}/text"
        with open(source, "w", encoding="utf-8") as out:
            out.write(TASKS)
        subprocess.run(["gcc", "-O2", "-fopenmp", "-o", tasks, source], check=True)
        for operations, leaves in SIZES:
            with open(text, "w", encoding="utf-8") as out:
                out.write(program_of(operations))
            once, _ = seconds(program, "serial", text, str(leaves))
            twice, outcome = seconds(program, "serial", text, str(2 * leaves))
            body = (twice - once) / leaves
            runs = []
            for workers in WORKERS:
                took, printed = seconds(program, "run", text, "--bodies", str(workers), "--trace", os.devnull, str(2 * leaves))
                runs.append(took)
                if printed != outcome:
                    sys.exit(f"{workers} workers: {printed}, and serially {outcome}")
            beside = []
            for workers in WORKERS:
                env = {**os.environ, "OMP_NUM_THREADS": str(workers)}
                ran = subprocess.run([tasks, str(body), str(2 * leaves)], stdout=subprocess.PIPE, check=True, text=True, env=env)
                beside.append(float(ran.stdout.split()[0]))
            for name, took in (("`cilknow run`", runs), ("OpenMP tasks", beside)):
                cells = " | ".join(f"{it * 1e3:.0f} ms ({took[0] / it:.2f})" for it in took)
                print(f"| {body * 1e6:.1f} us | {2 * leaves:,} | {name} | {cells} |")
        with open(text, "w", encoding="utf-8") as out:
            out.write(program_of(4))
        one, outcome = seconds(program, "run", text, str(SHORT))
        for workers in WORKERS:
            took, printed = seconds(program, "run", text, "--bodies", str(workers), "--trace", os.devnull, str(SHORT))
            if printed != outcome:
                sys.exit(f"{workers} workers: {printed}")
            # (each leaf but one has a sum and a join)
            turns = 3 * SHORT - 2
            print(f"\na turn with a short body by {workers} worker{'s' if workers > 1 else ''}: {took / turns * 1e9:.0f} ns; by the one evaluator {one / turns * 1e9:.0f} ns", end="")
    print()


main()
