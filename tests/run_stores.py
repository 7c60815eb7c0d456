#!/usr/bin/env -S python3 -B
"""Runs jobs over a store that keeps their outcome, and looks what is in it after runs that are killed.

Usage: tests/run_stores.py [PROGRAM [KILLS]], by default bin/cilknow and 30.

A run is killed so many times, each time a little later after it began. Each time the file is empty, or a store as it is made, of the older
form, or has the record of the job without outcome or with the right one, of an epoch that never falls; a run that comes to its end answers the right outcome, and the next one answers
that at once; and the file beside the store has its whole line where the store has a byte. Then come runs that are stopped in the midst while the
store, the file beside it or both are removed, and runs under faults over stores of the older form. Then come a store of another job, of another
program and of another input, files that are no store, one that another run has, folders, a device that is full, files that are named twice, and
options that disagree: each is refused, and no record changes. The last line counts; the status is 1 where anything failed.
"""
import fcntl
import hashlib
import os
import resource
import shutil
import signal
import subprocess
import sys
import tempfile
import time

import broken_stores
from common import EXAMPLES, TOP, Tally

PROGRAM = os.path.abspath(sys.argv[1]) if len(sys.argv) > 1 else f"{TOP}/bin/cilknow"
KILLS = int(sys.argv[2]) if len(sys.argv) > 2 else 30
FIB = f"{EXAMPLES}/fib.ck"
DEEP = f"{EXAMPLES}/too_deep.ck"
# A run of the Fibonacci number of so much takes a few tenths of a second.
INPUT, VALUE = "18", 2584
# So many turns: a run under faults that takes more ends with E95.
TURNS = "100000000"
NONE, IS_VALUE, TOO_DEEP = broken_stores.NONE, broken_stores.IS_VALUE, broken_stores.TOO_DEEP
# What a run makes first of all of a new store of job 1, and builds that know the older form alone left so.
OLD = broken_stores.file_of(broken_stores.slot_of(broken_stores.Record(1, 0, NONE, 0, 0, broken_stores.SMALL)), bytes(64))

CHECKS = Tally()
tell = CHECKS.tell


def called(*words, **how):
    done = subprocess.run((PROGRAM, "run", *words), capture_output=True, text=True, timeout=300, **how)
    return done.returncode, done.stdout, done.stderr


def bytes_of(path):
    with open(path, "rb") as it:
        return it.read()


def content_of(path):
    return bytes_of(path) if os.path.exists(path) else None


def line_of(text, *inputs):
    """The line beside a store of a program, by its one form, and an input."""
    form = subprocess.run((PROGRAM, "print", text), stdout=subprocess.PIPE, check=True).stdout
    digest = hashlib.sha256(form + " ".join(("inputs", *inputs)).encode() + b"\n").hexdigest()
    return f"cilknow-job 1 {digest}\n".encode()


def written(path, content):
    with open(path, "wb") as it:
        it.write(content)
    return path


def changed(content, at, byte):
    return content[:at] + bytes([byte]) + content[at + 1:]


def record(content):
    """The job, the epoch, and the tag and value of the outcome that a store of the newer form keeps; none where it is no such store."""
    found = broken_stores.read_store(content)
    if isinstance(found, int) or found.form != broken_stores.LARGE:
        return None
    return found.job, found.epoch, found.tag, found.value


def is_begun(content):
    """Whether a file is a store as it is made, of the older form, or one that was opened and isn't one of the newer form yet."""
    return broken_stores.read_store(content) == broken_stores.read_store(OLD)


def kills(folder):
    """Runs that are killed, each a little later than the one before, until an outcome is kept; then over a new store."""
    path = f"{folder}/killed"
    beside, line = f"{path}.job", line_of(FIB, INPUT)
    words = (FIB, "--nodes", "2", "--store", path, INPUT)
    begun = time.monotonic()
    tell(called(*words) == (0, f"value {VALUE}\n", ""), "a run over a new store")
    long = time.monotonic() - begun
    killed = kept = epoch = 0
    for turn in range(10 * KILLS):
        if killed == KILLS:
            break
        run = subprocess.Popen((PROGRAM, "run", *words), stdout=subprocess.PIPE, stderr=subprocess.PIPE, text=True)
        time.sleep(long * 1.2 * turn / KILLS % (1.2 * long))
        run.kill()
        out, err = run.communicate()
        killed += run.returncode == -signal.SIGKILL
        # (the line is told in one call, so a run that is killed has told it whole or not at all)
        tell((out, err) in (("", ""), (f"value {VALUE}\n", "")), f"kill {turn}: {out}{err}")
        content = bytes_of(path) if os.path.exists(path) else b""
        found = record(content) or (1, 0, NONE, 0)
        is_store = record(content) or is_begun(content) or not content
        tell(is_store and found[0] == 1 and found[1] >= epoch, f"kill {turn}: the file has {content.hex()}")
        said = content_of(beside)
        tell(said == line or not content and (said is None or line.startswith(said)), f"kill {turn}: beside the file lies {said}")
        epoch = found[1]
        tell(found[2:] == (IS_VALUE, VALUE) or found[2:] == (NONE, 0) and not out, f"kill {turn}: {found} is kept")
        if found[2] != NONE:
            kept += 1
            tell(called(*words[:-1], "--turns", "1", INPUT) == (0, f"value {VALUE}\n", ""), f"kill {turn}: the outcome isn't answered at once")
            tell(bytes_of(path) == content, f"kill {turn}: an outcome that was kept is written again")
            os.remove(path)
            if turn % 2:
                os.remove(beside)
            epoch = 0
    tell(killed == KILLS and kept >= 1, f"{killed} of {KILLS} runs were killed, {kept} outcomes kept")
    tell(called(*words) == (0, f"value {VALUE}\n", ""), "the run after all kills")
    tell(record(bytes_of(path))[2:] == (IS_VALUE, VALUE), "the store after all kills")


def ends(folder):
    """Outcomes that are kept, turns that don't suffice, and a log."""
    path, log = f"{folder}/ends", f"{folder}/ends log"
    for epoch in (1, 2):
        tell(called(FIB, "--store", path, "--turns", "5", INPUT) == (3, "", "cilknow: E95\n"), "5 turns suffice")
        tell(record(bytes_of(path)) == (1, epoch, NONE, 0), f"no outcome is kept, by the epoch {epoch}")
    tell(called(FIB, "--store", path, "--log", log, INPUT) == (0, f"value {VALUE}\n", ""), "a run with a log")
    tell(record(bytes_of(path)) == (1, 3, IS_VALUE, VALUE), "its outcome is kept")
    tell(bytes_of(log).startswith(b"[INFO  cilknow] start 0 "), "its log has no start")
    tell(called(FIB, "--store", path, "--log", log, INPUT) == (0, f"value {VALUE}\n", ""), "a run whose outcome is kept")
    tell(bytes_of(log) == b"", "a run whose outcome is kept has a log")
    path = f"{folder}/deep"
    for _ in range(2):
        tell(called(DEEP, "--nodes", "2", "--job", "77", "--store", path, "1025") == (0, "too deep\n", ""), "too deep")
        tell(record(bytes_of(path)) == (77, 1, TOO_DEEP, 0), "too deep is kept")
    path = written(f"{folder}/empty", b"")
    tell(called(FIB, "--store", path, "7") == (0, "value 13\n", ""), "an empty file is made a store")


def fib(n):
    before, value = 0, 1
    for _ in range(n - 1):
        before, value = value, before + value
    return value


def state_of(run, how=0):
    """How a run stopped or ended; none where it goes on and isn't waited for."""
    found = os.waitid(os.P_PID, run.pid, os.WEXITED | os.WSTOPPED | os.WNOWAIT | how)
    return found and found.si_code


def has_begun(path):
    found = record(content_of(path) or b"")
    return found is not None and found[1] > 0


def in_the_midst(path, change):
    """A run over a new store that is stopped while it computes, goes on behind a change, and ends: its input, and what it answers. Of inputs that
    grow the first one is taken whose run is long enough."""
    for number in range(18, 60, 2):
        with subprocess.Popen(
                (PROGRAM, "run", FIB, "--nodes", "2", "--store", path, str(number)), stdout=subprocess.PIPE, stderr=subprocess.PIPE, text=True) as run:
            try:
                while state_of(run, os.WNOHANG) is None and not has_begun(path):
                    time.sleep(0.001)
                os.kill(run.pid, signal.SIGSTOP)
                is_caught = state_of(run) == os.CLD_STOPPED and record(bytes_of(path)) == (1, 1, NONE, 0)
                if is_caught:
                    change()
                os.kill(run.pid, signal.SIGCONT)
                answer = (*run.communicate(timeout=300), run.returncode)
            except BaseException:
                run.kill()
                raise
        if is_caught:
            return number, answer
        os.remove(path)
        os.remove(f"{path}.job")
    raise SystemExit("no run is long enough to be stopped in the midst")


def removed(folder):
    """Files that are removed in the midst of a run: it ends with its outcome, and makes none of them anew. Over no store the next run begins
    anew; over one without the file beside it, it answers at once, and tells that."""
    for what, gone in (("the store", ("",)), ("the file beside it", (".job",)), ("both", ("", ".job"))):
        path = f"{folder}/without {what}"
        number, answer = in_the_midst(path, lambda: [os.remove(f"{path}{it}") for it in gone])
        right, line = f"value {fib(number)}\n", line_of(FIB, str(number))
        words, few = (FIB, "--store", path, str(number)), (FIB, "--store", path, "--turns", "5", str(number))
        tell(answer == (right, "", 0), f"{what} is removed: {answer}")
        tell(os.path.exists(path) == ("" not in gone), f"{what} is removed: a store is there, or none")
        tell(content_of(f"{path}.job") == (None if ".job" in gone else line), f"{what} is removed: {content_of(f'{path}.job')} lies there")
        if "" in gone:
            tell(called(*few) == (3, "", "cilknow: E95\n"), f"{what} is removed: the next run doesn't begin anew")
            tell(record(bytes_of(path)) == (1, 1, NONE, 0), f"{what} is removed: the next run doesn't begin with the first epoch")
            tell(called(*words) == (0, right, "") and bytes_of(f"{path}.job") == line, f"{what} is removed: the run behind that")
            tell(record(bytes_of(path)) == (1, 2, IS_VALUE, fib(number)), f"{what} is removed: the run behind that keeps another record")
        else:
            kept = bytes_of(path)
            tell(record(kept) == (1, 1, IS_VALUE, fib(number)), f"{what} is removed: the outcome isn't kept")
            told = f"cilknow: {path} doesn't say whose it is\n"
            tell(called(*few) == (0, right, told), f"{what} is removed: the outcome isn't answered at once")
            tell(bytes_of(path) == kept and not os.path.exists(f"{path}.job"), f"{what} is removed: the next run changes a file")


def replaced(folder):
    """A store in whose place something else comes in the midst of a run, which ends with its outcome and leaves that alone; and one that is emptied,
    of which the run tells no outcome."""
    path = f"{folder}/replaced"

    def other_run():
        os.remove(path)
        tell(called(FIB, "--store", path, "7") == (0, "value 13\n", ""), "a run over the name of a store that was removed")

    number, answer = in_the_midst(path, other_run)
    tell(answer == (f"value {fib(number)}\n", "", 0), f"another run takes the name of a store: {answer}")
    tell(record(bytes_of(path)) == (1, 1, IS_VALUE, 13) and bytes_of(f"{path}.job") == line_of(FIB, "7"), "the files of that other run")
    path, other = f"{folder}/moved over", written(f"{folder}/moved", b"mine\n")
    number, answer = in_the_midst(path, lambda: os.replace(other, path))
    tell(answer == (f"value {fib(number)}\n", "", 0), f"a file is moved over a store: {answer}")
    tell(bytes_of(path) == b"mine\n", "a file that was moved over a store")
    refused_as(path, 3, "E71", FIB, "--store", path, str(number))
    path = f"{folder}/emptied"
    number, answer = in_the_midst(path, lambda: os.truncate(path, 0))
    tell(answer == ("", "cilknow: E72\n", 3), f"a store is emptied: {answer}")
    refused_as(path, 3, "E71", FIB, "--store", path, str(number))
    os.mkdir(f"{folder}/whole")
    path = f"{folder}/whole/store"
    number, answer = in_the_midst(path, lambda: shutil.rmtree(f"{folder}/whole"))
    tell(answer == (f"value {fib(number)}\n", "", 0), f"the folder of a store is removed: {answer}")
    tell(called(FIB, "--store", path, str(number)) == (4, "", "cilknow: file\n"), "a store in a folder that was removed")


def faults(folder):
    """Runs under faults, over stores of the older form without outcome: those that end have the right one, and behind the others, which spent their
    turns, so has the next run."""
    ended = 0
    for word in range(1, 21):
        path = written(f"{folder}/faults {word}", OLD)
        told = f"cilknow: {path} doesn't say whose it is\n"
        if word % 2:
            written(f"{path}.job", line_of(FIB, "12"))
            told = ""
        status, out, err = called(
            FIB, "--nodes", "4", "--lose", "3", "--repeat", "3", "--crash", "2", "--depart", "1", "--faults", str(word), "--turns", TURNS, "--store", path,
            "12")
        found, epoch = record(bytes_of(path)), 1
        if status == 3:
            tell((out, err, found) == ("", f"{told}cilknow: E95\n", (1, 1, NONE, 0)), f"faults {word}: {out}{err}{found}")
            epoch = 2
        else:
            ended += 1
            tell((status, out, err, found) == (0, "value 144\n", told, (1, 1, IS_VALUE, 144)), f"faults {word}: {status} {out}{err}{found}")
        tell(called(FIB, "--store", path, "12") == (0, "value 144\n", told), f"faults {word}: the next run")
        tell(record(bytes_of(path)) == (1, epoch, IS_VALUE, 144), f"faults {word}: the store behind it")
    tell(ended >= 10, f"faults: {ended} of 20 runs ended")


def refused_as(path, status, told, *words):
    """A run over a file is refused, and neither the file nor the one beside it changes."""
    before = bytes_of(path), content_of(f"{path}.job")
    words = words or (FIB, "--store", path, INPUT)
    tell(called(*words) == (status, "", f"cilknow: {told}\n"), f"{os.path.basename(path)}: not {told}")
    tell((bytes_of(path), content_of(f"{path}.job")) == before, f"{os.path.basename(path)}: a file changed")


def whose(folder):
    """Stores of which another program, or another input, is run."""
    path = f"{folder}/whose"
    beside = f"{path}.job"
    tell(line_of(FIB, "10").decode() in open(f"{TOP}/docs/FORMATS.md", encoding="utf-8").read(), "the line in docs/FORMATS.md is another one")
    tell(called(FIB, "--store", path, "5") == (0, "value 5\n", ""), "a store of the input 5")
    tell(bytes_of(beside) == line_of(FIB, "5"), "the file beside it")
    refused_as(path, 3, "E70", FIB, "--store", path, "6")
    refused_as(path, 3, "E70", DEEP, "--store", path, "5")
    told = f"cilknow: E70\n{path} is the store of another program or another input: name another file, or remove {path} and {beside}\n"
    tell(called(FIB, "--store", path, "--explain", "6") == (3, "", told), "another input isn't explained")
    # (its text may be written otherwise)
    with open(FIB, encoding="utf-8") as it:
        text = written(f"{folder}/fib.ck", f"// Fibonacci\n{it.read()}\n".replace(" ", "  ").encode())
    tell(called(text, "--store", path, "--nodes", "3", "5") == (0, "value 5\n", ""), "the same program with other blanks")
    # (what is made of a missing store, and of an empty one, is whosesoever run it is)
    for remade in (os.remove, lambda it: written(it, b"")):
        remade(path)
        tell(called(FIB, "--store", path, "6") == (0, "value 8\n", ""), "a store that is made again")
        tell(bytes_of(beside) == line_of(FIB, "6"), "the file beside a store that is made again")
        remade(path)
        tell(called(FIB, "--store", path, "5") == (0, "value 5\n", ""), "a store that is made again for another input")
        tell(bytes_of(beside) == line_of(FIB, "5"), "the file beside it for another input")
    written(beside, b"mine\n")
    refused_as(path, 3, "E71", FIB, "--store", path, "5")
    told = f"cilknow: E71\n{beside} doesn't say whose store {path} is: name another file, or remove {path} and {beside}\n"
    tell(called(FIB, "--store", path, "--explain", "5") == (3, "", told), "a file beside a store isn't explained")
    os.remove(beside)
    told = f"cilknow: {path} doesn't say whose it is\n"
    tell(called(FIB, "--store", path, "5") == (0, "value 5\n", told), "a store that doesn't say whose it is")
    tell(not os.path.exists(beside), "a file comes beside a store")
    os.mkdir(beside)
    tell(called(FIB, "--store", path, "5") == (4, "", "cilknow: file\n"), "a folder beside a store")
    told = f"cilknow: file\n{beside}: Is a directory (os error 21)\n"
    tell(called(FIB, "--store", path, "--explain", "5") == (4, "", told), "a folder beside a store isn't explained")
    os.remove(path)
    tell(called(FIB, "--store", path, "5") == (4, "", "cilknow: file\n"), "a folder beside a new store")
    tell(not os.path.exists(path), "a store is made, and it isn't said whose")
    os.rmdir(beside)
    line = line_of(FIB, "5")
    # (a file of another kind isn't written over; what a kill may leave is)
    for other in (b"mine\n", line.upper(), line[:40] + b"g" + line[41:], line + b"\n"):
        written(beside, other)
        tell(called(FIB, "--store", path, "5") == (3, "", "cilknow: E71\n"), f"{other} beside no store")
        tell(bytes_of(beside) == other and not os.path.exists(path), f"{other} beside no store is written over")
    for part in (b"", line[:5], line[:50], line[:-1]):
        written(beside, part)
        tell(called(FIB, "--store", path, "5") == (0, "value 5\n", ""), f"{part} beside no store")
        tell(bytes_of(beside) == line, f"{part} beside no store stays")
        os.remove(path)


def long_forms(folder):
    """A program whose one form would be too long: its text stands for it."""
    text = written(f"{folder}/long.ck", b"thread main(k,n){let a=" + b"+".join([b"n"] * 60) + b";send_argument(k,a);}"
                   + b"".join(b"thread f%d(k){spawn_next f(k);}" % it for it in range(20)) + b"thread f(k){send_argument(k,1);}")
    path = f"{folder}/a long form"
    tell(called(text, "--store", path, "1") == (0, "value 60\n", ""), "a program of many threads")
    tell(bytes_of(f"{path}.job") == line_of(text, "1"), "the file beside a store of many threads")
    bodies = b"".join(b"thread f%d(k,a){let b=" % it + b"+".join([b"a"] * 64) + b";" + b"".join(
        b"let c%d=" % n + b"+".join([b"b"] * 60) + b";" for n in range(6)) + b"send_argument(k,b);}" for it in range(62))
    text = written(text, b"thread main(k,n){send_argument(k,n);}" + bodies)
    done = subprocess.run((PROGRAM, "print", text), capture_output=True, text=True)
    tell(len(bytes_of(text)) <= 65536 and (done.returncode, done.stderr) == (1, "cilknow: E3\n"), f"a long form: {len(bytes_of(text))} {done.stderr}")
    path = f"{folder}/longer"
    tell(called(text, "--store", path, "1") == (0, "value 1\n", ""), "a program of a long form")
    content = bytes_of(text)
    digest = hashlib.sha256(b"text %d\n" % len(content) + content + b"inputs 1\n").hexdigest()
    tell(bytes_of(f"{path}.job") == f"cilknow-job 1 {digest}\n".encode(), "the file beside a store of a long form")
    refused_as(path, 3, "E70", text, "--store", path, "2")


def named_twice(folder):
    """Files that are named twice, by one path or two: a fault of usage, and nothing changes."""
    os.mkdir(f"{folder}/twice")
    os.symlink(f"{folder}/twice", f"{folder}/link")
    os.symlink(f"{folder}/twice/none", f"{folder}/twice/to none")
    path = written(f"{folder}/twice/text.ck", bytes_of(FIB))
    os.link(path, f"{folder}/twice/hard.ck")
    os.symlink(path, f"{folder}/twice/soft.ck")
    new, again = f"{folder}/twice/new", f"{folder}/link/new"
    before = sorted(os.listdir(f"{folder}/twice"))
    same = [("--log", path), ("--trace", path), ("--store", path), ("--log", f"{folder}//twice/./text.ck"), ("--log", f"{folder}/twice/hard.ck"),
            ("--trace", f"{folder}/twice/soft.ck"), ("--store", f"{folder}/link/text.ck"), ("--trace", new, "--log", new), ("--trace", new, "--log", again),
            ("--store", new, "--log", f"{folder}/./twice//new"), ("--store", again, "--log", f"{new}.job"), ("--store", f"{folder}/twice/none", "--log",
            f"{folder}/twice/none.job"), ("--trace", f"{folder}/twice/to none", "--log", f"{folder}/twice/none")]
    for words in same:
        tell(called(path, *words, "5") == (2, "", "cilknow: usage\n"), f"{words}: no fault of usage")
        tell(bytes_of(path) == bytes_of(FIB), f"{words}: the text changed")
    left = sorted(os.listdir(f"{folder}/twice"))
    tell(left in (before, sorted([*before, "none"])), f"named twice: {left}")
    tell(called(path, "--log", new, "--explain", "--trace", again, "5") == (2, "", "cilknow: usage\n`--trace` and `--log` are one file\n"), "explained")
    done = called("fib.ck", "--log", "log", "--store", "./log", "5", cwd=EXAMPLES)
    tell(done == (2, "", "cilknow: usage\n") and not os.path.exists(f"{EXAMPLES}/log"), f"two paths without folder: {done}")
    tell(called(FIB, "--log", os.devnull, "--trace", "/dev/full", "--nodes", "2", "5") == (4, "value 5\n", "cilknow: file\n"), "devices")


def outputs(folder):
    """Files for a trace and a log are open before a run begins, and are written once its outcome was told."""
    trace, log, none = f"{folder}/a trace", f"{folder}/a log", f"{folder}/none/file"
    slow = ("--nodes", "2", "--turns", "1000000000", "40")
    for words, reason in ((("--trace", none), "No such file or directory (os error 2)"), (("--log", folder), "Is a directory (os error 21)"),
                          (("--trace", trace, "--log", none), "No such file or directory (os error 2)")):
        begun = time.monotonic()
        told = f"cilknow: file\n{words[-1]}: {reason}\n"
        tell(called(FIB, "--explain", *words, *slow) == (4, "", told) and time.monotonic() - begun < 20, f"{words}: it isn't refused at once")
    tell(not os.path.exists(trace), "a trace is left that was made for nothing")
    few = (FIB, "--trace", trace, "--log", log, "--nodes", "2", "--turns", "50", "12")
    tell(called(*few) == (3, "", "cilknow: E95\n") and not os.path.exists(trace) and not os.path.exists(log), "files are left without an outcome")
    written(trace, b"before\n" * 1000)
    tell(called(*few) == (3, "", "cilknow: E95\n") and bytes_of(trace) == b"before\n" * 1000 and not os.path.exists(log), "a file is cut without an outcome")
    tell(called(*few[:-3], "3") == (0, "value 2\n", ""), "a run with a trace and a log")
    tell(bytes_of(trace).startswith(b"# nodes 64\n") and b"before" not in bytes_of(trace), "the trace of a run")
    tell(bytes_of(log).startswith(b"[INFO  cilknow] start "), "the log of a run")
    # (the outcome is told also where they can't be written; and where it can't be told nothing is written)
    for option in ("--trace", "--log"):
        told = "cilknow: file\n/dev/full: No space left on device (os error 28)\n"
        tell(called(FIB, option, "/dev/full", "--explain", "7") == (4, "value 13\n", told), f"{option} on a full device")
    os.remove(trace)
    with open("/dev/full", "w") as full:
        done = subprocess.run((PROGRAM, "run", FIB, "--trace", trace, "--explain", "7"), stdout=full, stderr=subprocess.PIPE, text=True)
    told = "cilknow: file\nstandard output: No space left on device (os error 28)\n"
    tell((done.returncode, done.stderr) == (4, told) and bytes_of(trace) == b"", f"an outcome that can't be told: {done.stderr}")


def limited():
    """Files can be no longer than 3,000 bytes, and a write behind that fails."""
    signal.signal(signal.SIGXFSZ, signal.SIG_IGN)
    resource.setrlimit(resource.RLIMIT_FSIZE, (3000, 3000))


def refusals(folder):
    """Stores of another job, files that are none, files that can't be had, and a device that is full."""
    path = f"{folder}/store"
    tell(called(FIB, "--store", path, "--turns", "5", INPUT) == (3, "", "cilknow: E95\n"), "5 turns suffice")
    good = bytes_of(path)
    refused_as(path, 3, "E70", FIB, "--job", "2", "--store", path, INPUT)
    refused_as(written(f"{folder}/name", changed(good, 0, 0)), 3, "E71")
    refused_as(written(f"{folder}/version", changed(good, 7, 2)), 3, "E73")
    refused_as(written(f"{folder}/gates", changed(changed(good, 8, 0), 72, 0)), 3, "E71")
    refused_as(written(f"{folder}/short", good[:135]), 3, "E71")
    refused_as(written(f"{folder}/long", good + b"\0"), 3, "E71")
    refused_as(written(f"{folder}/text", b"a text\n"), 3, "E71")
    with open(path, "r+b") as held:
        fcntl.flock(held, fcntl.LOCK_EX)
        refused_as(path, 4, "file")
    # (the epoch fits in the first slot; the outcome is to go to the second one, which can't be written to its end, and it isn't told)
    tell(called(FIB, "--store", path, INPUT, preexec_fn=limited) == (3, "", "cilknow: E72\n"), "a store that can be written no more")
    tell(record(bytes_of(path)) == (1, 2, NONE, 0), "a store that can be written no more keeps something else")
    if os.geteuid() != 0:
        os.chmod(path, 0o400)
        refused_as(path, 4, "file")
        os.chmod(path, 0o600)
    tell(called(FIB, "--store", path, INPUT) == (0, f"value {VALUE}\n", ""), "the run after all refusals")
    for none in (folder, "/", f"{folder}/none/store", f"{path}/store", ""):
        tell(called(FIB, "--store", none, INPUT) == (4, "", "cilknow: file\n"), f"a store in {none or 'no file'}")
    trace = f"{folder}/trace"
    tell(called(FIB, "--store", path, "--trace", trace, INPUT) == (2, "", "cilknow: usage\n"), "a store and a trace")
    tell(not os.path.exists(trace), "a trace is written")
    tell(called(f"{folder}/none", "--store", f"{folder}/unmade", INPUT) == (4, "", "cilknow: file\n"), "no program")
    tell(called(FIB, "--store", f"{folder}/unmade", "1", "2") == (1, "", "cilknow: E21\n"), "two inputs")
    tell(not os.path.exists(f"{folder}/unmade"), "a store is made of what is no job")


with tempfile.TemporaryDirectory() as folder:
    kills(folder)
    ends(folder)
    removed(folder)
    replaced(folder)
    faults(folder)
    refusals(folder)
    whose(folder)
    long_forms(folder)
    named_twice(folder)
    outputs(folder)
sys.exit(CHECKS.end())
