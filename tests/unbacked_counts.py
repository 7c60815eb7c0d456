#!/usr/bin/env -S python3 -B
"""Looks what memory the reading of a packet takes where a count of items says more than its bytes back: none for these items.

Usage: tests/unbacked_counts.py PLAY, where PLAY is the program `play`.

Each packet of the run of tests/changed_packets.py is cut off behind each of its counts, and that is set to 1, to the most that it may be, and to
the most that its bytes can say. `play` decodes these: they are refused as too short (E31), or as a count outside its range (E35). A library in
front of the C heap adds up all bytes that are asked for: those of the greater counts have to be as many as those of the count 1.

The last line counts; the status is 1 where anything failed.
"""
import os
import subprocess
import sys
import tempfile

import changed_packets
import play_all
from common import are_told

LIMIT = 20
# It stands in front of the C heap, and tells how many bytes were asked for.
HEAP = r"""
typedef unsigned long size;
void *__libc_malloc(size);
void *__libc_realloc(void *, size);
int dprintf(int, const char *, ...);

static size asked;

void *malloc(size bytes) { asked += bytes; return __libc_malloc(bytes); }
void *realloc(void *old, size bytes) { asked += bytes; return __libc_realloc(old, bytes); }

__attribute__((destructor)) static void end(void) { dprintf(2, "%lu", asked); }
"""


def decoded(program, heap, content):
    """What `play` answers to bytes that it decodes, and for how many bytes of memory it asked."""
    env = {"LD_PRELOAD": heap}
    line = f"decode {content.hex()}\n"
    done = subprocess.run([program], input=line.encode(), stdout=subprocess.PIPE, stderr=subprocess.PIPE, env=env, timeout=LIMIT)
    if done.returncode or not done.stderr.isdigit():
        raise SystemExit(f"play ends with {done.returncode}: {done.stderr.decode(errors='replace')}")
    return done.stdout.decode()[len(line):].strip(), int(done.stderr)


def fault_of(program, heap, front, size, most):
    """What is wrong where a packet ends with a count of so many bytes, which may be so much."""
    _, for_one = decoded(program, heap, front + (1).to_bytes(size, "big"))
    # (a finished subcomputation may have no items: there is no greater count than the most)
    for count in {most, (1 << 8 * size) - 1} - {0}:
        answer, asked = decoded(program, heap, front + count.to_bytes(size, "big"))
        wanted = "> E31" if count <= most else "> E35"
        if (answer, asked) != (wanted, for_one):
            return f"the count {count}: {answer}, {asked} bytes are asked for, not {wanted} and {for_one}"
    return None


def main(words):
    if len(words) != 1:
        print(__doc__, file=sys.stderr)
        return 2
    program = os.path.realpath(words[0])
    # (each front of a packet that ends before a count, once)
    counts = {}
    for content in changed_packets.packets_of_the_run(program):
        for at, size, most in changed_packets.fields_in(content).counts:
            counts.setdefault(content[:at], (content, size, most))
    faults = []
    with tempfile.TemporaryDirectory(prefix="unbacked-counts-") as folder:
        heap = play_all.compiled(folder, HEAP)
        for front, (content, size, most) in counts.items():
            fault = fault_of(program, heap, front, size, most)
            faults += [f"{changed_packets.read(content).words}: {fault}"] if fault else []
    for fault in faults:
        print(fault, file=sys.stderr)
    print(f"{len(counts) - len(faults)} passed, {len(faults)} failed")
    return 1 if faults or not are_told("unbacked_counts.py", len(counts)) else 0


if __name__ == "__main__":
    sys.exit(main(sys.argv[1:]))
