#!/usr/bin/env -S python3 -B
"""Plays the transcripts: gives each file of tests/transcripts/*/ to the program `play`, which has to print it again as it is.

Usage: tests/play_all.py [--growth] PROGRAM [FILE..], where FILE.. are transcripts, by default all.

With --growth each transcript is played once more for each time that the program asks the heap for memory, and that one is
refused; those that ask more than 7,000 times, or plan that a call of the disk fails, are left out, and named. Then the program may print `> E9`, `> E63` or `> E72` besides, the refusal of a call that it makes again, or say E9 and
end with status 3, behind the lines that it printed until then; else it has to print the transcript as ever.
"""
import difflib
import glob
import os
import re
import subprocess
import sys
import tempfile
from concurrent.futures import ThreadPoolExecutor

from common import TOP

LIMIT = 20
MOST_GROWTHS = 7_000
REFUSALS = (b"> E9", b"> E63", b"> E72")
PLANNED = re.compile(rb"^\w+ (arm|fails|failing) ", re.M)
# It stands in front of the C heap, counts the calls, and refuses the one whose number is in REFUSED, and so many in all as TIMES says. For 0 it
# tells the count.
HEAP = r"""
typedef unsigned long size;
void *__libc_malloc(size);
void *__libc_realloc(void *, size);
char *getenv(const char *);
long atol(const char *);
int dprintf(int, const char *, ...);

static long calls, refused = -1, times;

static int is_refused(void) {
  if (refused < 0) {
    refused = atol(getenv("REFUSED"));
    times = atol(getenv("TIMES"));
  }
  ++calls;
  return refused && calls >= refused && calls < refused + times;
}

void *malloc(size bytes) { return is_refused() ? 0 : __libc_malloc(bytes); }
void *realloc(void *old, size bytes) { return is_refused() ? 0 : __libc_realloc(old, bytes); }

__attribute__((destructor)) static void end(void) {
  if (refused == 0) dprintf(2, "%ld", calls);
}
"""


def compiled(folder, text=HEAP):
    """A library in front of the C heap, the one that refuses by default, compiled by the toolchain."""
    page = subprocess.run(["rt", "doc"], stdout=subprocess.PIPE, text=True, check=True).stdout.strip()
    tools = f"{os.path.dirname(page)}/toolchain/bin"
    with open(f"{folder}/heap.c", "w", encoding="utf-8") as it:
        it.write(text)
    how = ["-O1", "-shared", "-fPIC", "-nostdlib", f"--ld-path={tools}/ld.lld"]
    subprocess.run([f"{tools}/clang", *how, "-o", f"{folder}/heap.so", f"{folder}/heap.c"], check=True)
    return f"{folder}/heap.so"


def played(program, file, heap=None, refused=0, times=1):
    """What a program prints of a transcript, where a growth of memory is refused, or so many in a row: its status, its output and its faults."""
    env = {"LD_PRELOAD": heap, "REFUSED": str(refused), "TIMES": str(times)} if heap else None
    how = {"stdout": subprocess.PIPE, "stderr": subprocess.PIPE, "env": env, "timeout": LIMIT, "close_fds": False}
    try:
        with open(file, "rb") as it:
            ran = subprocess.run([program], stdin=it, **how)
    except subprocess.TimeoutExpired:
        return "none", b"", b"it does not end"
    return ran.returncode, ran.stdout, ran.stderr


def differs(wanted, printed):
    """How what was printed differs."""
    lines = [it.decode(errors="replace").split("\n") for it in (wanted, printed)]
    return "\n".join(difflib.unified_diff(*lines, "transcript", "printed", lineterm=""))


def is_right(wanted, status, printed, fault):
    """Whether a run in which memory was refused printed the transcript, but for refusals, or ended for want of memory."""
    if (status, fault) not in ((0, b""), (3, b"E9\n")):
        return False
    rest = wanted
    for line in printed.splitlines(keepends=True):
        if rest.startswith(line):
            rest = rest[len(line) :]
        elif line.rstrip(b"\n") not in REFUSALS:
            return False
    return status == 3 or not rest


def is_played(program, file):
    """Whether a transcript is printed as it is."""
    with open(file, "rb") as it:
        wanted = it.read()
    status, printed, fault = played(program, file)
    if (status, printed, fault) == (0, wanted, b""):
        return True
    print(f"{file}: status {status}, {fault.decode(errors='replace')}\n{differs(wanted, printed)}", file=sys.stderr)
    return False


def refused_in_turn(program, file, heap, pool):
    """How many growths of memory a transcript takes, of how many the refusal is answered otherwise, and whether they were counted."""
    with open(file, "rb") as it:
        wanted = it.read()
    count = int(played(program, file, heap)[2])
    failed = 0
    # (a call that fails as planned can't be told from one that found no memory)
    if count > MOST_GROWTHS or PLANNED.search(wanted):
        print(f"{os.path.relpath(file, TOP)}: {count} growths, which aren't refused in turn")
        return 0, 0, True
    runs = pool.map(lambda refused: played(program, file, heap, refused), range(1, count + 1))
    for refused, (status, printed, fault) in enumerate(runs, 1):
        if not is_right(wanted, status, printed, fault):
            failed += 1
            seen = f"status {status}, {fault.decode(errors='replace')}\n{differs(wanted, printed)}"
            print(f"{file}: growth {refused} of {count} refused: {seen}", file=sys.stderr)
    return count, failed, count >= 10


def main(words):
    is_growth = words[:1] == ["--growth"]
    words = words[is_growth:]
    if not words:
        print(__doc__, file=sys.stderr)
        return 2
    program = os.path.realpath(words[0]) if os.path.exists(words[0]) else words[0]
    files = words[1:] or sorted(glob.glob(f"{TOP}/tests/transcripts/*/*.txt"))
    passed = failed = runs = 0
    with tempfile.TemporaryDirectory(prefix="play-all-") as folder, ThreadPoolExecutor(os.cpu_count()) as pool:
        heap = compiled(folder) if is_growth else None
        for file in files:
            well = is_played(program, file)
            if well and is_growth:
                count, wrong, is_counted = refused_in_turn(program, file, heap, pool)
                runs += count
                # (so that a heap that counts nothing is seen)
                well = wrong == 0 and is_counted
            passed, failed = passed + well, failed + (not well)
    if is_growth:
        print(f"{runs} growths refused")
    print(f"{passed} passed, {failed} failed")
    return 1 if failed or not passed else 0


if __name__ == "__main__":
    sys.exit(main(sys.argv[1:]))
