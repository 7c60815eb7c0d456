"""Transcripts that are timed, for bench/node, bench/house and bench/codec: texts of commands, which the proved program `play`
plays. Two that differ only in what is timed are compared, so that the start of the program, the reading of lines and all that is
made before fall out."""
import collections
import os
import re
import resource
import subprocess
import sys
import tempfile


def processor_time():
    """The processor time of all programs that ran until now."""
    used = resource.getrusage(resource.RUSAGE_CHILDREN)
    return used.ru_utime + used.ru_stime


def file_of(folder, name, lines):
    """A file of these lines."""
    path = os.path.join(folder, name)
    with open(path, "w", encoding="utf-8") as out:
        out.writelines(f"{line}\n" for line in lines)
    return path


def seconds(program, file, clock=processor_time):
    """The time in which a transcript is played."""
    start = clock()
    with open(file, "rb") as text:
        subprocess.run([program], stdin=text, stdout=subprocess.DEVNULL, check=True)
    return clock() - start


def least_seconds(program, files, tries, clock=processor_time):
    """The least time of each of some transcripts, which are played in turns."""
    least = [float("inf")] * len(files)
    for _ in range(tries):
        for i, file in enumerate(files):
            least[i] = min(least[i], seconds(program, file, clock))
    return least


def answers(program, lines):
    """How often a transcript is answered by what: the kind of a packet, or the first word."""
    with tempfile.TemporaryDirectory() as folder, open(file_of(folder, "text", lines), "rb") as text:
        printed = subprocess.run([program], stdin=text, stdout=subprocess.PIPE, check=True, text=True).stdout
    words = (line.split(" ")[1:] for line in printed.split("\n") if line.startswith("> "))
    # (a packet that was made by hand is its number alone)
    return collections.Counter(it[1] if it[0].startswith("#") and len(it) > 1 else it[0] for it in words)


def more_answers(program, texts):
    """What the second of two texts is answered beside the first one, where those are not timed."""
    before, after = (answers(program, lines) for lines in texts)
    return dict(after - before)


def call_seconds(program, texts, calls, tries, clock=processor_time):
    """The time of a call of which the second of two texts makes so many."""
    with tempfile.TemporaryDirectory() as folder:
        files = [file_of(folder, f"text-{i}", lines) for i, lines in enumerate(texts)]
        before, after = least_seconds(program, files, tries, clock)
    return (after - before) / calls


def instructions(program, file):
    """How many instructions the playing of a transcript takes, by valgrind."""
    with open(file, "rb") as text:
        words = ["valgrind", "--tool=callgrind", f"--callgrind-out-file={file}.counted", program]
        said = subprocess.run(words, stdin=text, stdout=subprocess.DEVNULL, stderr=subprocess.PIPE, check=True, text=True).stderr
    return int(re.search(r"Collected : (\d+)", said)[1])


def call_instructions(program, texts, calls):
    """The instructions of a call of which the second of two texts makes so many."""
    with tempfile.TemporaryDirectory() as folder:
        before, after = (instructions(program, file_of(folder, f"text-{i}", lines)) for i, lines in enumerate(texts))
    return (after - before) / calls


def demand(kind, seen, wanted):
    """Ends the run where the calls of a kind aren't answered as is wanted."""
    if seen != wanted:
        sys.exit(f"{kind}: {seen} where {wanted} is wanted")
