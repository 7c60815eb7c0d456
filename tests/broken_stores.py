#!/usr/bin/env -S python3 -B
"""Breaks the files of stores byte by byte, and looks what the program says of each and what a run makes of it.

Usage: tests/broken_stores.py [CILKNOW], by default bin/cilknow.

A store without outcome and one with it, both of a run that stopped or ended, are cut at many lengths and made longer, and have each byte that
says something, and some others, set to 00, 01, 02, 03, a5 and ff. Then come stores of both forms that are written here, slot by slot: gates that
are closed, sequences that are equal or the last ones, fields outside their ranges, records of other jobs, saved values of all kinds. Beside each
file lies one that says whose it is. A reader of this script's own, made of docs/FORMATS.md, says what each file is. Then

- `cilknow store` prints that record, or refuses the file as no store (E71) or as one of another version (E73), and changes nothing;
- `cilknow run --store` answers the outcome that is kept at once; or makes the store of an empty file, begins the next epoch, and keeps
  the outcome beside what is saved; or refuses the file, of another job (E70) or as above, or where no epoch or commit is left (E62). What
  is refused by E70, E71 or E73 stays byte for byte, and so does the file beside a store. One of the older form that isn't refused so, and
  whose sequence isn't spent, becomes one of the newer form.

Runs that carry out each frame alone take fewer turns by what is saved, and believe it. Then the file beside a store is broken byte by byte:
another digest is refused (E70), what is no line of one too (E71), and one that isn't there is told. The last line counts; the status is 1
where anything failed.
"""
import collections
import hashlib
import os
import subprocess
import sys
import tempfile
from concurrent.futures import ThreadPoolExecutor

from common import EXAMPLES, TOP, are_told

FIB = f"{EXAMPLES}/fib.ck"
INPUT, VALUE = "7", 13
JOB = 1
LIMIT = 60
SIZE, OLD_SIZE, NAME, VERSION, OPEN = 4360, 136, b"CNOWCKP", 1, 0xA5
# Where the two slots of a form begin, the bytes of one, and the number that is written in it.
Form = collections.namedtuple("Form", "slots size length")
SMALL, LARGE = Form((8, 72), 64, 25), Form((136, 2248), 2112, 2101)
MOST_SAVED, MOST_STEPS = 64, 23
# The tags of an outcome in a record.
NONE, IS_VALUE, TOO_DEEP, MOVED = 0, 1, 2, 3
LAST_SEQUENCE, LAST_EPOCH = (1 << 64) - 1, (1 << 63) - 1
OTHERS = (0x00, 0x01, 0x02, 0x03, 0xA5, 0xFF)

# What is saved is (place, value), a place being the steps from the root on.
Record = collections.namedtuple("Record", "job epoch tag value sequence form saved", defaults=(LARGE, ()))


# What the bytes of a file say, by docs/FORMATS.md.


def number(content):
    return int.from_bytes(content, "big")


def in_entry(entry):
    """A saved value; none where it is none."""
    length, steps, value = entry[0], entry[1:24], int.from_bytes(entry[24:], "big", signed=True)
    place = tuple(steps[:length])
    if not 1 <= length <= MOST_STEPS or any(steps[length:]) or max(place) > 8 or place[-1] == 0:
        return None
    return place, value


def in_slot(slot, form):
    """The record of an open slot; none where a field is outside the table."""
    sequence, length, job, epoch, tag = (number(slot[a:b]) for a, b in ((1, 9), (9, 11), (11, 19), (19, 27), (27, 28)))
    value = int.from_bytes(slot[28:36], "big", signed=True)
    last = MOVED if form == SMALL else TOO_DEEP
    if length != form.length or epoch > LAST_EPOCH or tag > last or tag != IS_VALUE and value:
        return None
    saved = ()
    if form == LARGE:
        count = slot[36]
        saved = tuple(in_entry(slot[at:at + 32]) for at in range(64, 64 + 32 * min(count, MOST_SAVED), 32))
        order = [(len(it[0]), it[0]) for it in saved if it]
        if count > MOST_SAVED or None in saved or order != sorted(set(order)):
            return None
    return Record(job, epoch, tag, value, sequence, form, saved)


def newest(content, form):
    """What the slots of a form say; none where they say nothing."""
    found = [in_slot(content[at:at + form.size], form) for at in form.slots if content[at] == OPEN]
    if not found or None in found or len({it.sequence for it in found}) < len(found):
        return None
    return max(found, key=lambda it: it.sequence)


def read_store(content):
    """The current record of a file, or the number of the refusal."""
    if len(content) < 8 or content[:7] != NAME:
        return 71
    if content[7] != VERSION:
        return 73
    if not OLD_SIZE <= len(content) <= SIZE:
        return 71
    small = newest(content, SMALL)
    if small is None:
        return 71
    if small.tag != MOVED:
        return small
    return len(content) == SIZE and newest(content, LARGE) or 71


def entry_of(place, value):
    """The bytes of a saved value."""
    return bytes([len(place), *place]) + bytes(MOST_STEPS - len(place)) + (value % (1 << 64)).to_bytes(8, "big")


def slot_of(record, gate=OPEN, length=None, rest=None):
    """The bytes of a slot."""
    length = record.form.length if length is None else length
    fields = ((record.sequence, 8), (length, 2), (record.job, 8), (record.epoch, 8), (record.tag, 1), (record.value % (1 << 64), 8))
    front = bytes([gate]) + b"".join(value.to_bytes(size, "big") for value, size in fields)
    if rest is None:
        rest = bytes([len(record.saved)]) + bytes(27) + b"".join(entry_of(*it) for it in record.saved)
    return (front + rest + bytes(record.form.size))[:record.form.size]


FRONT = slot_of(Record(JOB, 0, MOVED, 0, 0, SMALL)) + bytes(64)


def file_of(first, second, version=VERSION, front=FRONT):
    """A file of two slots, of the older form or, behind its small slots, of the newer one."""
    return NAME + bytes([version]) + (front if len(first) == LARGE.size else b"") + first + second


def bytes_of(path):
    with open(path, "rb") as it:
        return it.read()


def written(path, content):
    with open(path, "wb") as it:
        it.write(content)
    return path


def beside(path):
    """The file that says whose a store is."""
    return f"{path}.job"


def line_of(form, *inputs):
    """The line that says that a store is of a program, by its one form, and of an input."""
    digest = hashlib.sha256(form + " ".join(("inputs", *inputs)).encode() + b"\n").hexdigest()
    return f"cilknow-job 1 {digest}\n".encode()


def form_of(program, text):
    """A program's one form, as it is printed."""
    return subprocess.run((program, "print", text), stdout=subprocess.PIPE, check=True).stdout


def called(program, *words):
    """What a command of the program answers: its status, its output and its faults."""
    how = {"stdin": subprocess.DEVNULL, "stdout": subprocess.PIPE, "stderr": subprocess.PIPE, "close_fds": False, "timeout": LIMIT}
    done = subprocess.run((program, *words), text=True, **how)
    return done.returncode, done.stdout, done.stderr


def outcome_line(record):
    return {NONE: "none", IS_VALUE: f"value {record.value}", TOO_DEEP: "too deep"}[record.tag]


def refusal(number):
    return 3, "", f"cilknow: E{number}\n"


def shown(found):
    """What `cilknow store` has to answer of a file."""
    if isinstance(found, int):
        return refusal(found)
    return 0, f"job {found.job}\nepoch {found.epoch}\noutcome {outcome_line(found)}\nsaved {len(found.saved)}\n", ""


def ran(content, found):
    """What `cilknow run --store` has to answer over a file, and the record that has to be there then; none where nothing changes."""
    if not content:
        return (0, f"value {VALUE}\n", ""), Record(JOB, 1, IS_VALUE, VALUE, 2)
    if isinstance(found, int):
        return refusal(found), None
    if found.job != JOB:
        return refusal(70), None
    moved = None
    if found.form == SMALL:
        if found.sequence == LAST_SEQUENCE:
            return refusal(62), None
        moved = found = found._replace(form=LARGE, sequence=0)
    if found.tag != NONE:
        return (0, f"{outcome_line(found)}\n", ""), moved
    if found.epoch == LAST_EPOCH or found.sequence == LAST_SEQUENCE:
        return refusal(62), moved
    begun = found._replace(epoch=found.epoch + 1, sequence=found.sequence + 1)
    if begun.sequence == LAST_SEQUENCE:
        return refusal(62), begun
    # (so small a job is evaluated in one step, which asks for nothing that is saved)
    return (0, f"value {VALUE}\n", ""), begun._replace(tag=IS_VALUE, value=VALUE, sequence=begun.sequence + 1)


def is_well(program, line, path, name, content):
    """Whether the program answers of a file and over it as it has to; if not, that is told."""
    found = read_store(content)
    written(path, content)
    written(beside(path), line)
    faults = []
    told = called(program, "store", path)
    if told != shown(found):
        faults.append(f"store answers {told}, not {shown(found)}")
    if bytes_of(path) != content:
        faults.append("store changes the file")
    answer, after = ran(content, found)
    told = called(program, "run", FIB, "--store", path, INPUT)
    if told != answer:
        faults.append(f"a run answers {told}, not {answer}")
    left = bytes_of(path)
    if after is None and left != content:
        faults.append(f"a run changes the file to {left.hex()}")
    if after is not None and read_store(left) != after:
        faults.append(f"a run leaves {left.hex()}, not {after}")
    if bytes_of(beside(path)) != line:
        faults.append("a run changes the file beside it")
    if faults:
        print(f"{name}: {content.hex() or 'no byte'}: {'; '.join(faults)}", file=sys.stderr)
    os.remove(path)
    os.remove(beside(path))
    return not faults


def is_refused_by(program, path, content, name, line, wanted):
    """Whether a run over a store, beside which these bytes lie, is refused, and neither file changes."""
    written(path, content)
    written(beside(path), line)
    told = called(program, "run", FIB, "--store", path, INPUT)
    well = (told, bytes_of(path), bytes_of(beside(path))) == (refusal(wanted), content, line)
    if not well:
        print(f"{name}: {line}: a run answers {told}", file=sys.stderr)
    os.remove(path)
    os.remove(beside(path))
    return well


def is_served(program, path, line, saved, value, turns):
    """Whether a run that carries out each frame alone computes with what is saved, whatever that is, and takes so many turns."""
    written(path, file_of(slot_of(Record(JOB, 5, NONE, 0, 9, saved=saved)), bytes(LARGE.size)))
    written(beside(path), line)
    status, out, err = called(program, "run", FIB, "--store", path, "--grain", "0", "--stats", INPUT)
    told = status, out, err.split("\n")[0], read_store(bytes_of(path))
    wanted = 0, f"value {value}\n", f"turns {turns}", Record(JOB, 6, IS_VALUE, value, 11, saved=saved)
    if told != wanted:
        print(f"{saved} are saved: a run answers {told}, not {wanted}", file=sys.stderr)
    os.remove(path)
    os.remove(beside(path))
    return told == wanted


def is_nobodys(program, path, content, found):
    """Whether of a store beside which no file lies it is told that it doesn't say whose it is, and no file comes there."""
    written(path, content)
    (status, out, err), _ = ran(content, found)
    told = called(program, "run", FIB, "--store", path, INPUT)
    wanted = status, out, f"cilknow: {path} doesn't say whose it is\n{err}"
    well = told == wanted and not os.path.exists(beside(path))
    if not well:
        print(f"a store beside which no file lies: a run answers {told}, not {wanted}", file=sys.stderr)
    os.remove(path)
    return well


# The files.


def lines(line):
    """What may lie beside a store in the place of its line, and the number of the refusal."""
    yield from ((f"the line, {length} bytes", line[:length], 71) for length in range(len(line)))
    yield from ((f"the line and {more}", line + more, 71) for more in (b"\0", b"\n", line))
    for at, old in enumerate(line):
        for other in b"\0\n 01afgAF\xff":
            is_digit = 14 <= at < len(line) - 1 and other in b"0123456789abcdef"
            if other != old:
                yield f"{other:02x} at {at}", line[:at] + bytes([other]) + line[at + 1:], 70 if is_digit else 71


def cuts(name, content):
    """A file that is cut at each length near which something ends, and one that is longer by a byte."""
    lengths = [length for length in range(SIZE + 1) if any(end - 70 <= length <= end + 70 for end in (0, OLD_SIZE, 2248, SIZE))]
    yield from ((f"{name}, {length} bytes", content[:length]) for length in lengths)
    yield f"{name}, a byte more", content + b"\0"


def changes(name, content):
    """A file of which a byte is another: one in front of the entries of a slot, or in the first two of these, or the last one of a slot."""
    for at in (*range(136 + 128), 2247, *range(2248, 2248 + 128), SIZE - 1):
        for other in OTHERS:
            if content[at] != other:
                yield f"{name}, {other:02x} at {at}", content[:at] + bytes([other]) + content[at + 1:]


def fronts():
    """Files of the newer form with other small slots."""
    kept = slot_of(Record(JOB, 5, IS_VALUE, 21, 9))
    moved = Record(JOB, 4, MOVED, 0, 8, SMALL)
    old = moved._replace(tag=NONE)
    small = [
        ("moved twice", slot_of(moved) + slot_of(moved._replace(sequence=9))),
        ("moved twice under one sequence", slot_of(moved) + slot_of(moved)),
        ("moved in the second slot", bytes(64) + slot_of(moved)),
        ("moved behind a record", slot_of(old) + slot_of(moved._replace(sequence=9))),
        ("moved before a record", slot_of(old._replace(sequence=9)) + slot_of(moved)),
        ("moved, with a value", slot_of(moved._replace(value=1)) + bytes(64)),
        ("moved, of another job", slot_of(moved._replace(job=2)) + bytes(64)),
        ("moved, of the last epoch", slot_of(moved._replace(epoch=LAST_EPOCH)) + bytes(64)),
        ("moved, of an epoch of 2^63", slot_of(moved._replace(epoch=LAST_EPOCH + 1)) + bytes(64)),
        ("moved, of the last sequence", slot_of(moved._replace(sequence=LAST_SEQUENCE)) + bytes(64)),
        ("moved, with 2,101 bytes", slot_of(moved, length=2101) + bytes(64)),
        ("moved, with other bytes behind", slot_of(moved, rest=b"\xa5" * 28) + bytes(64)),
        ("moved, and closed", slot_of(moved, gate=0) + bytes(64)),
        ("a record alone", slot_of(old) + bytes(64)),
        ("nothing", bytes(128)),
    ]
    for name, front in small:
        yield f"before a large slot: {name}", file_of(kept, bytes(LARGE.size), front=front)
        yield f"before large slots of zeros: {name}", file_of(bytes(LARGE.size), bytes(LARGE.size), front=front)
        yield f"{name}, and no more", NAME + bytes([VERSION]) + front


def saved_lists():
    """Files of the newer form with values that are saved."""
    places = [(hole,) for hole in range(1, 9)] + [(step, hole) for step in range(7) for hole in range(1, 9)]
    kept = Record(JOB, 5, NONE, 0, 9)
    lists = [((place, value),) for place in ((1,), (8,), (9,), (0,), (255,), (1, 0), (0, 8), (0,) * 22 + (1,), (8,) * 23) for value in (0, -1, 1 << 62)]
    lists += [tuple((place, at) for at, place in enumerate(some)) for some in (places, places[::-1], places[:2], places[1::-1], places[8:10])]
    lists += [(((1,), 1), ((1,), 1)), (((1,), 1), ((1,), 2)), (((0, 1), 1), ((2,), 1))]
    for saved in lists:
        yield f"{len(saved)} values, the first of place {saved[0][0]}", file_of(slot_of(kept._replace(saved=saved)), bytes(LARGE.size))
    whole = slot_of(kept._replace(saved=tuple((place, 5) for place in places)))
    for count in (0, 1, 2, 63, 64, 65, 128, 255):
        yield f"64 values, of which {count} are counted", file_of(whole[:36] + bytes([count]) + whole[37:], bytes(LARGE.size))
        one = slot_of(kept._replace(saved=(((1,), 5),)))
        yield f"one value, and {count} are counted", file_of(one[:36] + bytes([count]) + one[37:], bytes(LARGE.size))
    for length in (0, 2, 23, 24, 31, 255):
        one = slot_of(kept._replace(saved=(((1,), 5),)))
        yield f"a place of one step, and of {length} by its number", file_of(one[:64] + bytes([length]) + one[65:], bytes(LARGE.size))


def pairs(form):
    """Files of two slots of a form, which are written here."""
    old, new = Record(JOB, 4, NONE, 0, 8, form), Record(JOB, 5, NONE, 0, 9, form)
    kept, deep = new._replace(tag=IS_VALUE, value=21), new._replace(tag=TOO_DEEP)
    closed = slot_of(old, gate=0)
    size = form.size
    yield "both gates are closed", file_of(closed, slot_of(new, gate=0))
    yield "zeros", file_of(bytes(size), bytes(size))
    yield "ones", file_of(b"\xff" * size, b"\xff" * size)
    yield "open gates and zeros", file_of(b"\xa5" + bytes(size - 1), b"\xa5" + bytes(size - 1))
    for gate in (0, 1, 0xA4, 0xA6, 0x5A, 0xFF):
        yield f"the newer gate is {gate:02x}", file_of(slot_of(old), slot_of(kept, gate=gate))
    # (what stands in a slot, what it is named, and whether a file may have it in an open one)
    slots = [
        ("no outcome", slot_of(new)),
        ("a value", slot_of(kept)),
        ("the least value", slot_of(kept._replace(value=-(1 << 63)))),
        ("the greatest value", slot_of(kept._replace(value=(1 << 63) - 1))),
        ("too deep", slot_of(deep)),
        ("another job", slot_of(kept._replace(job=2))),
        ("another job, without outcome", slot_of(new._replace(job=(1 << 64) - 1))),
        ("the sequence of the other slot", slot_of(kept._replace(sequence=8))),
        ("the sequence before", slot_of(kept._replace(sequence=7))),
        ("the sequence 0", slot_of(kept._replace(sequence=0))),
        ("the last sequence", slot_of(kept._replace(sequence=LAST_SEQUENCE))),
        ("the last sequence, without outcome", slot_of(new._replace(sequence=LAST_SEQUENCE))),
        ("the last sequence but one, without outcome", slot_of(new._replace(sequence=LAST_SEQUENCE - 1))),
        ("the last sequence but two, without outcome", slot_of(new._replace(sequence=LAST_SEQUENCE - 2))),
        ("a sequence of the upper half", slot_of(new._replace(sequence=1 << 63))),
        ("the epoch 0", slot_of(new._replace(epoch=0))),
        ("the last epoch but one", slot_of(new._replace(epoch=LAST_EPOCH - 1))),
        ("the last epoch", slot_of(new._replace(epoch=LAST_EPOCH))),
        ("the last epoch and a value", slot_of(kept._replace(epoch=LAST_EPOCH))),
        ("an epoch of 2^63", slot_of(new._replace(epoch=LAST_EPOCH + 1))),
        ("a value without its tag", slot_of(new._replace(value=21))),
        ("a value beside too deep", slot_of(deep._replace(value=-1))),
        ("the tag 3", slot_of(new._replace(tag=3))),
        ("the tag 4", slot_of(new._replace(tag=4))),
        ("a byte less", slot_of(kept, length=form.length - 1)),
        ("a byte more", slot_of(kept, length=form.length + 1)),
        ("25 bytes in the other order", slot_of(kept, length=25 << 8)),
        ("the length of the other form", slot_of(kept, length=SMALL.length + LARGE.length - form.length)),
        ("other bytes behind", slot_of(kept, rest=b"\0" + b"\xa5" * (size - 37))),
    ]
    for name, slot in slots:
        yield f"{name} in the second slot", file_of(slot_of(old), slot)
        yield f"{name} in the first slot", file_of(slot, slot_of(old))
        yield f"{name} alone", file_of(slot, closed)
        yield f"{name} in a closed slot", file_of(b"\0" + slot[1:], slot_of(old))
        yield f"{name} twice", file_of(slot, slot)
        yield f"{name}, of version 2", file_of(slot_of(old), slot, version=2)
    whole = file_of(slot_of(old), slot_of(kept))
    for version in (0, 2, 0xA5, 0xFF):
        for length in (7, 8, 9, 135, 136, 137, 4359, 4360):
            yield f"version {version}, {length} bytes", (NAME + bytes([version]) + whole[8:])[:length]
    yield "a store behind a store", whole + whole
    yield "as many bytes as a store may have", whole + b"\xa5" * (SIZE - len(whole))
    yield "a store behind a byte", b"\0" + whole[:-1]
    yield "many bytes", whole + bytes(10_000)
    yield "a text", b"thread main(k, n) { send_argument(k, n); }\n"


def files(program, folder):
    """All files, with their names."""
    path = f"{folder}/made"
    wanted = ((3, "", "cilknow: E95\n"), Record(JOB, 1, NONE, 0, 1)), ((0, f"value {VALUE}\n", ""), Record(JOB, 2, IS_VALUE, VALUE, 3))
    for name, more, (answer, record) in zip(("without outcome", "with an outcome"), (("--turns", "5"), ()), wanted):
        told = called(program, "run", FIB, "--store", path, *more, INPUT)
        content = bytes_of(path)
        if told != answer or read_store(content) != record:
            raise SystemExit(f"a store {name} isn't made: {told}, {content.hex()}")
        yield from cuts(name, content)
        yield from changes(name, content)
    yield from pairs(SMALL)
    yield from pairs(LARGE)
    yield from fronts()
    yield from saved_lists()


def main(words):
    program = words[0] if words else f"{TOP}/bin/cilknow"
    if called(program, "--version")[0]:
        # (so that it is built, and is there)
        return 1
    form = form_of(program, FIB)
    line = line_of(form, INPUT)
    with tempfile.TemporaryDirectory(prefix="broken-stores-") as folder, ThreadPoolExecutor(os.cpu_count()) as pool:
        all_files = list(files(program, folder))
        tried = [bytes_of(beside(f"{folder}/made")) == line]
        tried += pool.map(lambda it: is_well(program, line, f"{folder}/{it[0]}", *it[1]), enumerate(all_files))
        stores = [content for name, content in all_files if name in ("a value alone", "no outcome alone")]
        others = [(f"inputs {' '.join(it)}", line_of(form, *it), 70) for it in ((), ("8",), ("-7",), ("7", "7"), ("77",))]
        others += [("another program", line_of(form[:-1], INPUT), 70), *lines(line)]
        broken = [(it, *other) for it in stores for other in others]
        tried += pool.map(lambda it: is_refused_by(program, f"{folder}/line {it[0]}", *it[1]), enumerate(broken))
        tried += (is_nobodys(program, f"{folder}/nobody's", it, read_store(it)) for it in stores)
        # (the numbers of turns are those of 7 and of 4 to 6)
        served = [((), VALUE, 61), ((((1,), 8),), 13, 24), ((((2,), 5),), 13, 39), ((((1,), 8), ((2,), 5)), 13, 2), ((((1, 2), 3),), 13, 48)]
        served += [((((1,), 100), ((2,), 5)), 105, 2), ((((3,), 1), ((1, 3), 1)), 13, 61)]
        tried += (is_served(program, f"{folder}/served", line, *it) for it in served)
        missing = f"{folder}/none"
        tried.append(called(program, "store", missing) == (4, "", "cilknow: file\n") and not os.path.exists(missing))
    kinds = collections.Counter("a store" if isinstance(read_store(it), Record) else f"E{read_store(it)}" for _, it in all_files)
    print(f"{len(all_files)} files: {', '.join(f'{count} {kind}' for kind, count in sorted(kinds.items()))}; {len(broken)} files beside a store")
    tried.append(are_told("broken_stores.py", len(all_files), len(broken), *kinds.values()))
    print(f"{sum(tried)} passed, {len(tried) - sum(tried)} failed")
    return 0 if all(tried) else 1


if __name__ == "__main__":
    sys.exit(main(sys.argv[1:]))
