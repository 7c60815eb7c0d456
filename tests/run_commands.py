#!/usr/bin/env -S python3 -B
"""Compares what the programs answer to command lines with the tables of tests/command_tables.

A table's first line names the program: `program cilknow`, `program nowsim`, or `program replay` for both (nowsim, and cilknow with
the word replay in front). Then come lines of these forms:

    # COMMENT
    text: BYTES            the file F has these bytes from here on
    text of NAME           the file F has those of examples/NAME
    script: EVENT|EVENT    the file S has these events, a line each; the word G stands for 2^63 + 1, and an event that ends with
                           `FROM..TO by STEP` for one with each of these numbers
    script of NAME         the file S has those of examples/scripts/NAME
    script bytes: BYTES    the file S has these bytes
    line: LINE             what the next row gives begins with this line, behind those of `line:` before it; G as in an event
    last: LINE             so it does with what stands before the row's own text, behind those of `last:` before it: what is
                           ahead of them isn't looked at
    told: LINE             the next row tells this line on standard error, behind those of `told:` before it
    WORDS => STATUS TEXT   a row: these words, parted by single blanks, end with this status and give this text
    WORDS => room N        the answer has N bytes: it is written whole where there is room for it, and is a fault of the file else

In BYTES, \\n, \\t, \\r, \\\\, \\xHH are escapes, and [PIECE*TIMES] stands for so many pieces. In a row, F and S are the files, N is one
that isn't there, and D is a folder. A text of status 0 stands for a line on standard output, with \\n for a line's end in it, and
four words of numbers and an outcome, as `12 6 2 value 1`, for the four lines of a replay; `help` is any text with the program's
usage in it, `picture L A` a picture with so many lanes and so many arrows that aren't dashed, and `nothing` no output. A text of another
status is the fault, one line on standard error behind the program's name, with \\n and \\t for a line's end and a tab where it is
explained; standard output is empty then.

Usage: tests/run_commands.py [CILKNOW [NOWSIM]], by default bin/cilknow and bin/nowsim.
"""
import os
import re
import resource
import signal
import subprocess
import sys
import tempfile
import xml.etree.ElementTree as xml

from common import EXAMPLES, TOP

TABLES = f"{TOP}/tests/command_tables"
HOUSE = str(2**63 + 1)
LIMIT = 20


def bytes_of(text):
    text = re.sub(r"\[([^\]*]+)\*(\d+)\]", lambda it: it[1] * int(it[2]), text)
    escapes = {"n": b"\n", "t": b"\t", "r": b"\r", "\\": b"\\"}
    parts = re.split(r"\\(x[0-9a-f]{2}|.)", text)
    found = parts[0].encode()
    for escape, plain in zip(parts[1::2], parts[2::2]):
        found += bytes([int(escape[1:], 16)]) if len(escape) == 3 else escapes[escape]
        found += plain.encode()
    return found


def line_of(words):
    return (" ".join(HOUSE if word == "G" else word for word in words.split(" ")) + "\n").encode()


def each_of(event):
    many = re.fullmatch(r"(.*) (\d+)\.\.(\d+) by (\d+)", event)
    return [f"{many[1]} {number}" for number in range(int(many[2]), int(many[3]) + 1, int(many[4]))] if many else [event]


def script_of(events):
    return b"".join(line_of(each) for it in events.split("|") if it for each in each_of(it))


def content_of(path):
    with open(path, "rb") as it:
        return it.read()


def asked(program, words, out=subprocess.PIPE, err=subprocess.PIPE, room=None):
    """Runs a program; with a room its output may have so many bytes."""

    def limited():
        signal.signal(signal.SIGPIPE, signal.SIG_IGN)
        if room is not None:
            signal.signal(signal.SIGXFSZ, signal.SIG_IGN)
            resource.setrlimit(resource.RLIMIT_FSIZE, (room, room))

    how = {"stdin": subprocess.DEVNULL, "stdout": out, "stderr": err, "preexec_fn": limited, "timeout": LIMIT}
    return subprocess.run([*program, *words], **how)


def given(ran):
    return f"status {ran.returncode}, {ran.stdout!r}, {ran.stderr!r}"


def named(told, files):
    """What was told, with the words of a table in the place of the files' names."""
    for word, path in sorted(files.items(), key=lambda it: -len(it[1])):
        told = told.replace(path.encode(), word.encode())
    return told


def is_answered(name, ran, status, text, files, ahead, last, told):
    """Whether a program has ended with a status and told a text, on standard output behind the lines that stand ahead, or behind some and
    those that come last, and told those lines on standard error."""
    if ran.returncode != int(status):
        return False
    if status != "0":
        lines = text.replace("\\n", "\n").replace("\\t", "\t")
        return ran.stdout == ahead and named(ran.stderr, files) == f"{name}: {lines}\n".encode()
    if text == "help":
        return not ran.stderr and f"Usage: {name}".encode() in ran.stdout and ran.stdout.endswith(b"\n")
    if text.startswith("picture "):
        classes = [it.get("class", "").split(" ") for it in xml.fromstring(ran.stdout).iter()]
        lanes, arrows = (sum(word in it and "again" not in it for it in classes) for word in ("lane", "arrow"))
        return not ran.stderr and text == f"picture {lanes} {arrows}"
    if text == "nothing":
        return not ran.stderr and not ran.stdout
    four = re.fullmatch(r"(\d+) (\d+) (\d+) (value -?\d+|too deep|none)", text)
    lines = "events {}\npackets {}\nfills {}\noutcome {}\n".format(*four.groups()) if four else text.replace("\\n", "\n") + "\n"
    if last:
        return ran.stderr == told and ran.stdout.endswith(b"\n" + last + lines.encode())
    return ran.stderr == told and ran.stdout == ahead + lines.encode()


def is_whole(name, program, words, length, folder):
    """Whether an answer is written whole where there is room for it; to a full device and to a closed pipe it is a fault."""
    fault = (4, f"{name}: file\n".encode())
    for room in range(length + 2):
        with open(f"{folder}/out", "wb") as out:
            ran = asked(program, words, out=out, room=room)
        wanted = (0, b"") if room >= length else fault
        if (ran.returncode, ran.stderr) != wanted:
            return False
        if room >= length and os.path.getsize(f"{folder}/out") != length:
            return False
    with open("/dev/full", "wb") as out:
        ran = asked(program, words, out=out)
    if (ran.returncode, ran.stderr) != fault:
        return False
    reader, writer = os.pipe()
    os.close(reader)
    ran = asked(program, words, out=writer)
    os.close(writer)
    return (ran.returncode, ran.stderr) == fault


def play(table, programs, folder):
    """Plays a table, and returns how many rows passed and how many failed."""
    passed = failed = 0
    ahead = last = told = b""
    files = {"F": f"{folder}/text.ck", "S": f"{folder}/events.script", "N": f"{folder}/no folder/no file", "D": folder}
    with open(table, encoding="utf-8") as it:
        lines = it.read().split("\n")
    which = lines[0].removeprefix("program ")
    chosen = [("nowsim", programs["nowsim"]), ("cilknow", [*programs["cilknow"], "replay"])] if which == "replay" else [(which, programs[which])]
    for number, line in enumerate(lines[1:], 2):
        if not line or line.startswith("#"):
            continue
        if line.startswith("line: "):
            ahead += line_of(line[6:])
            continue
        if line.startswith("last: "):
            last += line_of(line[6:])
            continue
        if line.startswith("told: "):
            told += line[6:].encode() + b"\n"
            continue
        if line.startswith("text of "):
            content = content_of(f"{EXAMPLES}/{line[8:]}")
        elif line.startswith("script of "):
            content = content_of(f"{EXAMPLES}/scripts/{line[10:]}")
        elif line.startswith(("text: ", "text:", "script bytes:")):
            content = bytes_of(re.sub(r"^[a-z ]+: ?", "", line))
        elif line.startswith("script:"):
            content = script_of(re.sub(r"^script: ?", "", line))
        else:
            content = None
        if content is not None:
            with open(files["S" if line.startswith("script") else "F"], "wb") as it:
                it.write(content)
            continue
        row = re.fullmatch(r"(.*) => (\d+|room) (.*)", line)
        if not row:
            print(f"{os.path.basename(table)}:{number}: no row", file=sys.stderr)
            failed += 1
            continue
        words = [files.get(word, word) for word in row[1].split(" ")] if row[1] != "none" else []
        for name, program in chosen:
            if row[2] == "room":
                well, seen = is_whole(name, program, words, int(row[3]), folder), "it is written otherwise"
            else:
                ran = asked(program, words)
                well, seen = is_answered(name, ran, row[2], row[3], files, ahead, last, told), given(ran)
                # a fault that can't be told is still told by the status
                if row[2] != "0" and well:
                    with open("/dev/full", "wb") as err:
                        well = asked(program, words, err=err).returncode == int(row[2])
            passed, failed = passed + well, failed + (not well)
            if not well:
                print(f"{os.path.basename(table)}:{number}: {name}: {line}: {seen}", file=sys.stderr)
        ahead = last = told = b""
    return passed, failed


def main(words):
    cilknow = words[0] if words else f"{TOP}/bin/cilknow"
    nowsim = words[1] if len(words) > 1 else f"{TOP}/bin/nowsim"
    programs = {"cilknow": [cilknow], "nowsim": [nowsim]}
    for program in (cilknow, nowsim):
        # so that it is built
        if subprocess.run([program, "--version"], stdout=subprocess.DEVNULL).returncode:
            return 1
    passed = failed = 0
    with tempfile.TemporaryDirectory(prefix="cilknow-commands-") as folder:
        for name in sorted(os.listdir(TABLES)):
            well, ill = play(f"{TABLES}/{name}", programs, folder)
            passed, failed = passed + well, failed + ill
    print(f"{passed} passed, {failed} failed")
    return 1 if failed else 0


if __name__ == "__main__":
    sys.exit(main(sys.argv[1:]))
