#!/usr/bin/env -S python3 -B
"""Looks whether long replays and runs tell on a terminal how far they have come, and only there.

Usage: tests/check_progress.py [CILKNOW [NOWSIM]], by default bin/cilknow and bin/nowsim.

A replay of some three seconds is made of one long packet that is delivered again and again. Where standard error is a terminal it has to
write lines of the form `N events, N a second, N packets`, each over the last one, whose events grow and whose last one is taken away, and
the four lines of a replay on standard output, as ever; where standard error is a file, or `--packets` is asked for, nothing is written
there. A run on nodes that takes long tells such lines too. What takes less than two seconds tells none, whether it has an outcome, is
refused, or may make no second thread. The last line counts; the status is 1 where anything failed.
"""
import os
import re
import resource
import shutil
import subprocess
import sys
import tempfile
import time

from common import EXAMPLES, TOP, Tally, Terminal

CILKNOW, NOWSIM = map(os.path.abspath, [*sys.argv[1:], *[f"{TOP}/bin/{it}" for it in ("cilknow", "nowsim")][len(sys.argv) - 1:]])
FIB = f"{EXAMPLES}/fib.ck"
# So many workers start, so that a roster of them is long, and it is delivered so many times at first. A replay is to take so many seconds,
# of which it reads for some, and tells nothing for the first two of the others.
WORKERS, TIMES, SECONDS, LEAST = 300, 10_000, 5.0, 4.0
LINE = rb"\r(\d+) events, (\d+) a second, (\d+) packets\x1b\[K"
WIPED = rb"\r\x1b\[K"

CHECKS = Tally()
tell = CHECKS.tell


class OnTerminal:
    """A program whose standard error is a terminal of its own."""

    def __init__(self, *words, out=subprocess.PIPE, before=None):
        self.terminal, self.began = Terminal(), time.monotonic()
        how = {"stdin": subprocess.DEVNULL, "stdout": out, "stderr": self.terminal.given, "preexec_fn": before, "cwd": "/"}
        self.program = subprocess.Popen(words, **how)

    def ended(self):
        """Its status, what it wrote and told, and how many seconds it took."""
        try:
            out, _ = self.program.communicate(timeout=30)
        except subprocess.TimeoutExpired:
            self.program.kill()
            out, _ = self.program.communicate()
        took = time.monotonic() - self.began
        return self.program.returncode, out, self.terminal.ended(), took


def write_script(path, times):
    """Workers that start, are listed and crash; a last one, and the roster that comes to it so many times. How many events there are."""
    lines = ["house-restart"]
    for i in range(WORKERS):
        lines += [f"start 0 {i + 1}", f"house-deliver {2 * i}", "crash 0"]
    lines += [f"start 0 {WORKERS + 1}", f"house-deliver {2 * WORKERS}", *[f"deliver 0 {2 * WORKERS + 1}"] * times]
    with open(path, "w") as it:
        it.writelines(f"{line}\n" for line in lines)
    return len(lines)


def answer_of(events):
    return f"events {events}\npackets {2 * WORKERS + 2}\nfills 0\noutcome none\n".encode()


def first_times(path):
    """How often the roster has to be delivered so that a replay takes long enough, as far as a short one shows it."""
    events = write_script(path, TIMES)
    began = time.monotonic()
    ran = subprocess.run([NOWSIM, FIB, path, "25"], stdin=subprocess.DEVNULL, capture_output=True)
    took = time.monotonic() - began
    tell((ran.returncode, ran.stdout, ran.stderr) == (0, answer_of(events), b""), f"a replay: {ran.returncode} {ran.stdout} {ran.stderr}")
    return int(TIMES * max(1, SECONDS / took))


def is_told(told, events, packets):
    """Whether lines were told, of ever more events, and the last one was taken away."""
    if not re.fullmatch(b"(?:" + LINE + b")+" + WIPED, told):
        return False
    lines = [[*map(int, it)] for it in re.findall(LINE, told)]
    counts = [it[0] for it in lines]
    return 0 < counts[0] and counts == sorted(counts) and counts[-1] <= events and all(0 < it[1] <= it[0] and it[2] <= packets for it in lines)


def replays(path, err):
    """A replay by both programs on a terminal, one by nowsim into a file, and one with a line for each event, which is broken off behind them."""
    with open(err, "wb") as it:
        in_file = subprocess.Popen([NOWSIM, FIB, path, "25"], stdin=subprocess.DEVNULL, stdout=subprocess.PIPE, stderr=it)
    shown = OnTerminal(NOWSIM, FIB, path, "25"), OnTerminal(CILKNOW, "replay", FIB, path, "25")
    in_lines = OnTerminal(NOWSIM, FIB, path, "--packets", "25", out=subprocess.DEVNULL)
    ended = [it.ended() for it in shown]
    in_lines.program.kill()
    out, _ = in_file.communicate(timeout=30)
    return ended, in_lines.ended(), (in_file.returncode, out)


def long_replays(folder):
    """A long replay, and what of it is told where."""
    path, err = f"{folder}/long.script", f"{folder}/err"
    times = first_times(path)
    for _ in range(3):
        events = write_script(path, times)
        shown, in_lines, in_file = replays(path, err)
        if min(it[3] for it in shown) >= LEAST:
            break
        # (the first one was slower than these are)
        times *= 2
    for name, (status, out, told, took) in zip(("nowsim", "cilknow replay"), shown):
        tell((status, out) == (0, answer_of(events)), f"{name}: {status} {out}")
        tell(is_told(told, events, 2 * WORKERS + 2), f"{name}: after {took:.1f} s it has told {told[-200:]}")
    tell(in_lines[2] == b"" and in_lines[3] > LEAST, f"--packets: after {in_lines[3]:.1f} s it has told {in_lines[2][-200:]}")
    tell(in_file == (0, answer_of(events)), f"into a file: {in_file}")
    tell(os.path.getsize(err) == 0, "into a file: something is told there")


def long_run():
    """A run on nodes that would take minutes: a line is told, and then it is ended from outside."""
    run = OnTerminal(CILKNOW, "run", FIB, "--nodes", "2", "40")
    while run.program.poll() is None and time.monotonic() < run.began + 20 and not re.match(LINE, run.terminal.told):
        time.sleep(0.05)
    run.program.kill()
    _, out, told, took = run.ended()
    lines = re.fullmatch(b"(?:" + LINE + b")+", told)
    tell(lines and out == b"" and int(lines[1]) > 0 and int(lines[3]) > 0, f"on nodes: after {took:.1f} s it has told {told[-200:]}")


def short(folder):
    """What ends at once: nothing is told, but a fault."""
    def without_threads():
        os.setgroups([])
        os.setgid(65534)
        os.setuid(65534)
        resource.setrlimit(resource.RLIMIT_NPROC, (1, 1))

    script = f"{EXAMPLES}/scripts/crash.script"
    four = b"events 29\npackets 17\nfills 2\noutcome value 1\n"
    store = f"{folder}/store"
    built = NOWSIM if len(sys.argv) > 2 else f"{TOP}/crates/nowsim/out/nowsim"
    rows = [
        ((NOWSIM, FIB, script, "2"), 0, four, b""),
        ((CILKNOW, "replay", FIB, script, "2"), 0, four, b""),
        ((NOWSIM, FIB, FIB, "2"), 1, b"", b"nowsim: line 1\r\n"),
        ((CILKNOW, "run", FIB, "7"), 0, b"value 13\n", b""),
        ((CILKNOW, "run", FIB, "--nodes", "2", "7"), 0, b"value 13\n", b""),
        ((CILKNOW, "run", FIB, "--store", store, "7"), 0, b"value 13\n", b""),
        ((CILKNOW, "run", FIB, "--store", store, "7"), 0, b"value 13\n", b""),
        ((CILKNOW, "run", FIB, "--nodes", "2", "--turns", "100", "20"), 3, b"", b"cilknow: E95\r\n"),
    ]
    for words, *wanted in rows:
        *given, _ = OnTerminal(*words).ended()
        tell(given == wanted, f"{' '.join(words[1:])}: {given}")
    if os.getuid() == 0:
        # (only root can become another user here, so else it isn't tried)
        os.chmod(folder, 0o755)
        copies = [shutil.copy(it, folder) for it in (built, FIB, script)]
        os.chmod(copies[0], 0o755)
        *given, _ = OnTerminal(*copies, "2", before=without_threads).ended()
        tell(given == [0, four, b""], f"without a second thread: {given}")


def main():
    for program in (CILKNOW, NOWSIM):
        # so that it is built
        if subprocess.run([program, "--version"], stdout=subprocess.DEVNULL).returncode:
            return 1
    with tempfile.TemporaryDirectory(prefix="cilknow-progress-") as folder:
        short(folder)
        long_replays(folder)
    long_run()
    return CHECKS.end()


if __name__ == "__main__":
    sys.exit(main())
