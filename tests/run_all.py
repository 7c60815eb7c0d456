"""Passes all tests: the gate of proofs, and what is tried on the programs that it built.

usage: bin/test          all, as the merge gate does: the first run proves everything, which takes an hour and more
       bin/test NAME..   these checks alone, on the programs that are there
       bin/test --list   the names, each with its command

What the machine lacks is told first, by name, with status 2. Then come the checks of pages and lists, which take
seconds; then `rt ci`, which proves each crate, tries the must-fail edits and runs the tests and programs
(docs/GATE.md); then the others, by the programs that it built, so that nothing is proved again: those that wait for
nobody beside the rest. It stops where a check fails, with its status. Standard error tells how long each took. The
last line is the gate's own: `N passed, M failed`.
"""
import os
import shutil
import subprocess
import sys
import threading
import time

from common import TOP, module_in

CILKNOW, NOWSIM, PLAY, HELD = (f"crates/{it}/out/{it}" for it in ("cilknow", "nowsim", "play", "shared_times"))
MACHINES = "out/machines"
# What the gate is called by.
GATE = "gate"
# Each check with its words, in their order.
CHECKS = {
    "count": "bin/count",
    "promises": "bin/lock_promises",
    "definitions": "bin/definitions --look",
    "paths": "tests/check_paths.py",
    "tried_edits": "bin/wrong_bodies --look",
    "protocols": "bin/wrong_protocols --look",
    GATE: "bench/gate rt ci",
    "examples": f"tests/run_examples {CILKNOW}",
    "answers": f"tests/check_answers {CILKNOW}",
    "commands": f"tests/run_commands.py {CILKNOW} {NOWSIM}",
    "help": f"tests/check_help.py {CILKNOW} {NOWSIM}",
    "pictures": f"tests/check_pictures.py {CILKNOW}",
    "progress": f"tests/check_progress.py {CILKNOW} {NOWSIM}",
    "scripts": f"tests/run_scripts {NOWSIM}",
    "scripts_by_cilknow": f"tests/run_scripts {CILKNOW} replay",
    "wholes": f"tests/whole_scripts.py {CILKNOW} {NOWSIM}",
    "nodes": f"tests/run_nodes.py {CILKNOW} {NOWSIM} {HELD}",
    "stores": f"tests/run_stores.py {CILKNOW}",
    "library": "make -s -C machines all tests sanitized",
    "machines": f"tests/run_machines.py {MACHINES} {CILKNOW} 50",
    "broken_stores": f"tests/broken_stores.py {CILKNOW}",
    "calls": f"tests/refuse_calls.py {CILKNOW}",
    "transcripts": f"tests/play_all.py {PLAY}",
    "packets": f"tests/changed_packets.py {PLAY}",
    "changed_pieces": f"tests/changed_packets.py {PLAY} --kind Piece",
    "counts_of_packets": f"tests/unbacked_counts.py {PLAY}",
    "growths_of_transcripts": f"tests/play_all.py --growth {PLAY}",
    "pieces": f"tests/offers_in_pieces.py {PLAY}",
    "growths_of_joins": f"tests/join_growths.py {PLAY}",
    "growths_of_nodes": f"tests/node_growths.py {PLAY}",
    "growths": "tests/refuse_growth --built",
}
# Checks that wait for nothing and nobody, in two lists: where there are four processors, these go on beside the others.
BESIDE = (
    "transcripts packets changed_pieces counts_of_packets growths_of_transcripts pieces growths_of_joins growths_of_nodes",
    "examples answers commands help pictures scripts scripts_by_cilknow wholes broken_stores calls growths",
)
# The commands that they call, and the files of a system that they read or write.
COMMANDS = "rt python3 bash cmp cp find mktemp readlink realpath seq tr make cc ar".split()
FILES = ("/dev/full", "/dev/null", "/proc/self/stat", "/proc/net/udp")
LEAST_PYTHON = (3, 9)


def lacking():
    """What the machine lacks, each by its name."""
    found = [f"the command `{it}`" for it in COMMANDS if shutil.which(it) is None]
    found += [it for it in FILES if not os.path.exists(it)]
    if sys.version_info < LEAST_PYTHON:
        found.append(f"python3 from {'.'.join(map(str, LEAST_PYTHON))} on: this one is {sys.version.split()[0]}")
    if shutil.which("rt"):
        page = subprocess.run(["rt", "doc"], stdout=subprocess.PIPE, text=True, check=False).stdout.strip()
        tools = f"{os.path.dirname(page)}/toolchain/bin"
        for it in ("clang", "ld.lld"):
            found += [] if os.access(f"{tools}/{it}", os.X_OK) else [f"{tools}/{it}, of the toolchain"]
    return found


def ran(name, tells=True):
    """Runs a check; its status, and the last line that it wrote. What it says is told at once, or when it has ended."""
    print(f"-- {name}: {CHECKS[name]}", file=sys.stderr, flush=True)
    last, told, begun = b"", [], time.monotonic()
    how = {"cwd": TOP, "stdout": subprocess.PIPE, "stderr": None if tells else subprocess.STDOUT}
    with subprocess.Popen(CHECKS[name].split(" "), **how) as check:
        for line in check.stdout:
            last = line
            if tells:
                sys.stdout.buffer.write(line)
                sys.stdout.buffer.flush()
            else:
                told.append(line)
    sys.stdout.buffer.write(b"".join(told))
    sys.stdout.buffer.flush()
    print(f"-- {name}: {time.monotonic() - begun:.0f} s", file=sys.stderr, flush=True)
    return check.returncode, last


class Failures:
    """The checks that failed, each with its status: after the first one no further check begins."""

    def __init__(self):
        self.found = []

    def passed(self, name, tells=True):
        """Runs a check, and tells whether it passed."""
        status, last = ran(name, tells)
        if status:
            print(f"failed: {name} ({CHECKS[name]}), status {status}", file=sys.stderr)
            self.found.append(status if status > 0 else 1)
        return None if status else last

    def pass_all(self, names, tells=True):
        try:
            for name in names:
                if self.found or self.passed(name, tells) is None:
                    return
        except BaseException:
            self.found.append(1)
            raise


def main(words):
    if words == ["--list"]:
        for name, command in CHECKS.items():
            print(f"{name:24}{command}")
        return 0
    if not {*words} <= {*CHECKS}:
        print(__doc__, file=sys.stderr if words != ["--help"] else sys.stdout)
        return 0 if words == ["--help"] else 2
    missing = lacking()
    for it in missing:
        print(f"missing: {it}", file=sys.stderr)
    if missing:
        return 2
    names = words or [*CHECKS]
    failures, last = Failures(), b""
    first = names[: names.index(GATE) + 1] if GATE in names else []
    for name in first:
        last = failures.passed(name)
        if last is None:
            return failures.found[0]
    if first:
        # (so that bin/proved takes what the gate has proved and built, and bin/library what is below the library for C)
        for it in (CILKNOW, NOWSIM, PLAY, HELD):
            module_in("bin", "prove").mark(f"{TOP}/{it}")
        module_in("bin", "prove").stamp_libraries("cilknow_c")
    rest = names[len(first) :]
    lists = [[it for it in rest if it in these.split()] for these in BESIDE if len(os.sched_getaffinity(0)) >= 4]
    beside = [threading.Thread(target=failures.pass_all, args=(these, False)) for these in lists]
    for it in beside:
        it.start()
    failures.pass_all([it for it in rest if not any(it in these for these in lists)])
    for it in beside:
        it.join()
    if failures.found:
        return failures.found[0]
    sys.stdout.buffer.write(last)
    return 0


if __name__ == "__main__":
    try:
        sys.exit(main(sys.argv[1:]))
    except KeyboardInterrupt:
        sys.exit(130)
