#!/usr/bin/env -S python3 -B
"""Refuses in turn each call that a run makes on the file of its store and the one beside it, and looks what it answers, what the files have
then, and what the next run makes of that.

Usage: tests/refuse_calls.py [CILKNOW], by default bin/cilknow.

A small library that stands in front of the C library's calls on files counts those on the store, on the file beside it that says whose it is,
and on their folder, and of each run refuses one: it fails, before or after it was carried out, is interrupted, carries out a part of what it was asked for (each part of what is written), with
or without a failure behind, or the run is killed before it, after it, or behind each part. Each run has to give the right outcome, or to say
E72 and end with status 3, or say that the file can't be had (status 4), which it hasn't written to then. No run changes a store but to the next
record or the one behind it, none touches one with an outcome, but that one of the older form becomes one of the newer form, and no outcome is told that isn't kept. What a run refuses by
the record or by the file beside it stays as it is. The next run with no refusal gives the
right outcome, unless the first 136 bytes of a store were written by half: then it is no store (E71), which has to be removed.

Then come files that can be no longer than so many bytes, a device that is full, one that is to be read only, and files that can't be had. The
last line counts; the status is 1 where anything failed.
"""
import collections
import fcntl
import itertools
import os
import shutil
import signal
import subprocess
import sys
import tempfile
import time
from concurrent.futures import ThreadPoolExecutor

import broken_stores
import play_all
from common import TOP

LIMIT = 60
NOBODY = {"user": 65534, "group": 65534, "extra_groups": []}
# It counts the calls on the files STORE and BESIDE and on their folder, and does to the one of the number AT what HOW says; what it does is
# written to the file TOLD. For 0 each call is written there, in words.
CALLS = r"""
typedef unsigned long size;
typedef long ssize;
typedef long off;
char *getenv(const char *);
long atol(const char *);
int strcmp(const char *, const char *);
void *dlsym(void *, const char *);
int *__errno_location(void);
ssize readlink(const char *, char *, size);
int snprintf(char *, size, const char *, ...);
int dprintf(int, const char *, ...);
int open(const char *, int, ...);
int close(int);
int getpid(void);
int kill(int, int);
int setrlimit(int, const unsigned long *);
void (*signal(int, void (*)(int)))(int);

enum { EINTR = 4, EIO = 5, ENOSPC = 28, NOTHING = 0, FAIL, LATE, SHORT, TORN, KILL };
static long count, at = -1, part, error;
static int how;
static int is_behind; /* a part was written, and the rest fails */

static void *real(const char *name) { return dlsym((void *)-1, name); }

static void read_plan(void) {
  const char *word = getenv("HOW");
  at = atol(getenv("AT"));
  part = atol(getenv("PART"));
  error = EIO;
  if (!strcmp(word, "nospace")) how = FAIL, error = ENOSPC;
  if (!strcmp(word, "failed")) how = FAIL;
  if (!strcmp(word, "interrupted")) how = FAIL, error = EINTR;
  if (!strcmp(word, "late")) how = LATE;
  if (!strcmp(word, "short")) how = SHORT;
  if (!strcmp(word, "torn")) how = TORN, error = ENOSPC;
  if (!strcmp(word, "killed")) how = KILL;
}

static int has_path(int fd, const char *name) {
  char link[64], path[4096];
  const char *wanted = getenv(name);
  ssize length;
  snprintf(link, sizeof link, "/proc/self/fd/%d", fd);
  length = readlink(link, path, sizeof path - 1);
  if (!wanted || length < 0) return 0;
  path[length] = 0;
  return !strcmp(path, wanted);
}

static int is_file(int fd) { return has_path(fd, "STORE") || has_path(fd, "BESIDE"); }

static void tell(const char *name, const char *on, size length) {
  /* 02001 | 0100: written behind what is there, and made if it isn't */
  int fd = open(getenv("TOLD"), 02001 | 0100, 0600);
  dprintf(fd, "%s %s %lu\n", name, on, length);
  close(fd);
}

/* what is to be done to a call on a descriptor */
static int plan(int fd, const char *name, size length) {
  const char *on = has_path(fd, "STORE") ? "store" : has_path(fd, "BESIDE") ? "beside" : has_path(fd, "FOLDER") ? "folder" : 0;
  if (!on) return NOTHING;
  if (at < 0) read_plan();
  ++count;
  if (at == 0 || count == at) tell(name, on, length);
  return count == at ? how : NOTHING;
}

static int fail(int number) {
  *__errno_location() = number;
  return -1;
}

static int ends(void) {
  kill(getpid(), 9);
  for (;;) {}
}

/* files can be no longer than so many bytes, and a write behind that fails: 1 is RLIMIT_FSIZE, 25 SIGXFSZ, 1 SIG_IGN */
__attribute__((constructor)) static void begin(void) {
  unsigned long most[2];
  if (strcmp(getenv("HOW"), "limited")) return;
  most[0] = most[1] = (unsigned long)atol(getenv("PART"));
  signal(25, (void (*)(int))1);
  setrlimit(1, most);
}

/* a call that carries out all or nothing */
#define WHOLE(name, words, given)                          \
  int name words {                                         \
    int (*call) words = (int (*) words)real(#name);        \
    int it = plan(fd, #name, 0);                           \
    int answer;                                            \
    if (it == FAIL || it == TORN) return fail((int)error); \
    if (it == KILL && part == 0) ends();                   \
    answer = call given;                                   \
    if (it == KILL) ends();                                \
    return it == LATE ? fail((int)error) : answer;         \
  }

WHOLE(fsync, (int fd), (fd))
WHOLE(fdatasync, (int fd), (fd))
WHOLE(ftruncate, (int fd, off length), (fd, length))
WHOLE(ftruncate64, (int fd, off length), (fd, length))
WHOLE(flock, (int fd, int operation), (fd, operation))

/* a call on bytes, which may carry out a part */
#define PARTLY(name, is_write, words, given)                       \
  ssize name words {                                               \
    ssize (*call) words = (ssize (*) words)real(#name);            \
    int it = plan(fd, #name, length);                              \
    ssize answer;                                                  \
    if (is_write && is_behind && is_file(fd)) return fail((int)error); \
    if (it == FAIL) return fail((int)error);                       \
    if (it == SHORT || it == TORN || it == KILL) {                 \
      if ((size)part < length) length = (size)part;                \
      is_behind = it == TORN;                                      \
      if (length == 0 && it == TORN) return fail((int)error);      \
      if (length == 0 && it == KILL) ends();                       \
      if (length == 0) return 0;                                   \
    }                                                              \
    answer = call given;                                           \
    if (it == KILL) ends();                                        \
    return it == LATE ? fail((int)error) : answer;                 \
  }

PARTLY(read, 0, (int fd, void *bytes, size length), (fd, bytes, length))
PARTLY(pread, 0, (int fd, void *bytes, size length, off from), (fd, bytes, length, from))
PARTLY(pread64, 0, (int fd, void *bytes, size length, off from), (fd, bytes, length, from))
PARTLY(write, 1, (int fd, const void *bytes, size length), (fd, bytes, length))
PARTLY(pwrite, 1, (int fd, const void *bytes, size length, off from), (fd, bytes, length, from))
PARTLY(pwrite64, 1, (int fd, const void *bytes, size length, off from), (fd, bytes, length, from))
"""


NONE, IS_VALUE, VALUE, JOB = broken_stores.NONE, broken_stores.IS_VALUE, broken_stores.VALUE, broken_stores.JOB
SMALL, LARGE, SIZE = broken_stores.SMALL, broken_stores.LARGE, broken_stores.SIZE
RIGHT = (0, f"value {VALUE}\n", "")
NO_DEVICE, NO_STORE, NO_FILE, NO_TURNS = (*(broken_stores.refusal(number) for number in (72, 71)), (4, "", "cilknow: file\n"), broken_stores.refusal(95))
OTHER_JOB = broken_stores.refusal(70)
UNTOLD = (0, "", "the store's line isn't told")
KILLED = (-signal.SIGKILL, "", "")
# The scenes that are tried with files that can't be longer.
LIMITED = "a new store", "a store without outcome", "a store with the outcome", "a store of the older form"
# What a run refuses with where a call on the file fails.
REFUSALS = (NO_DEVICE, NO_FILE)

# A run over a file: its bytes and those of the file beside it, none where there is none; the words of the command in front of and behind the path;
# what it answers; and which parts of a write are carried out alone.
Scene = collections.namedtuple("Scene", "name content line front behind answer parts")
# A call that is refused: its number, its name, what it is on, its length; how, and which part of it is carried out.
Refusal = collections.namedtuple("Refusal", "at name on length how part")


def is_near(place, some, by):
    return any(it - by <= place <= it + by for it in some)


def each_part(length):
    """Each part of what is short; of what is longer those that end near something, and some others."""
    ends = 0, 8, 72, 136, 2248, length
    return [it for it in range(1, length) if length <= 64 or it % 97 == 0 or is_near(it, ends, 3)]


def few_parts(length):
    return sorted({1, length // 2, length - 1} - {0, length})


def record_of(content):
    """The record of a file; none where it is no store."""
    found = broken_stores.read_store(content or b"")
    return None if isinstance(found, int) else found


def moved(record):
    """A record as the newer form has it."""
    return record if record.form == LARGE else record._replace(form=LARGE, sequence=0)


def nexts(record):
    """What a run makes of a record: the record itself, the one of the next epoch, and the one with the outcome."""
    record = moved(record)
    begun = record._replace(epoch=record.epoch + 1, sequence=record.sequence + 1)
    return record, begun, begun._replace(tag=IS_VALUE, value=VALUE, sequence=begun.sequence + 1)


FRESH = broken_stores.Record(JOB, 0, NONE, 0, 0)
# What is written first of all into the file of a store: one of the older form.
BEGUN = FRESH._replace(form=SMALL)
FORMATTED = broken_stores.file_of(broken_stores.slot_of(BEGUN), bytes(SMALL.size))


def content_of(path):
    return broken_stores.bytes_of(path) if os.path.exists(path) else None


def is_as_allowed(scene, after):
    """Whether a run may leave these bytes, wherever it was cut off."""
    if scene.content:
        found = record_of(scene.content)
        if scene.answer != RIGHT or (found.form, found.tag != NONE) == (LARGE, True):
            return after == scene.content
        return record_of(after) in (found, *(nexts(found) if found.tag == NONE else [moved(found)]))
    return after is None or FORMATTED.startswith(after) or record_of(after) in (BEGUN, *nexts(FRESH))


def is_line_as_allowed(scene, line, after, said):
    """Whether a run may leave these bytes beside a store that has those, wherever it was cut off: only beside one without a byte it writes."""
    if scene.content:
        return said == scene.line
    if after:
        return said == line
    return said in (None, scene.line) or line.startswith(said)


def called(words, **more):
    """What a command answers: its status, its output and its faults."""
    how = {"stdin": subprocess.DEVNULL, "stdout": subprocess.PIPE, "stderr": subprocess.PIPE, "close_fds": False, "timeout": LIMIT}
    done = subprocess.run(words, text=True, **how, **more)
    return done.returncode, done.stdout, done.stderr


class Trial:
    """A program, the library, and a folder for runs."""

    def __init__(self, program, library, folder):
        self.program, self.library, self.folder = program, library, folder
        self.form = broken_stores.form_of(program, broken_stores.FIB)
        self.line = broken_stores.line_of(self.form, broken_stores.INPUT)
        self.names = itertools.count(1)

    def place(self):
        """A folder for one run."""
        path = f"{self.folder}/{next(self.names)}"
        os.mkdir(path)
        return path

    def run(self, scene, place, at=None, how="none", part=0):
        """What a scene's command answers, where a call on its file is refused."""
        path = f"{place}/store"
        beside = broken_stores.beside(path)
        env = {"LD_PRELOAD": self.library, "STORE": path, "BESIDE": beside, "FOLDER": place, "TOLD": f"{place}/told", "AT": str(at), "HOW": how,
               "PART": str(part)}
        is_nobodys = bool(content_of(path)) and not os.path.exists(beside) and scene.front[0] == "run"
        status, out, err = called((self.program, *scene.front, path, *scene.behind), env=None if at is None else env)
        line = f"cilknow: {path} doesn't say whose it is\n"
        if is_nobodys and status == 0 and not err.startswith(line):
            return UNTOLD
        return status, out, err.removeprefix(line) if is_nobodys else err

    def told(self, place):
        """The calls that the library told of: each one's name, what it was on, and its length."""
        content = content_of(f"{place}/told") or b""
        return [(name, on, int(length)) for name, on, length in (line.split() for line in content.decode().splitlines())]


def made(trial, scene):
    """A folder with a scene's file."""
    place = trial.place()
    if scene.content is not None:
        broken_stores.written(f"{place}/store", scene.content)
    if scene.line is not None:
        broken_stores.written(broken_stores.beside(f"{place}/store"), scene.line)
    return place


def ways(length, name, parts):
    """How a call may be refused, and which part of it is carried out."""
    yield from ((how, 0) for how in ("failed", "nospace", "interrupted", "killed"))
    if not length:
        yield from (("late", 0), ("killed", 1))
    elif "write" in name:
        yield from (("late", length), ("killed", length), ("short", 0))
        yield from ((how, part) for how in ("torn", "killed", "short") for part in parts(length))
    else:
        yield from (("short", part) for part in (0, 1, 8, 100, 135, 136, SIZE - 1) if part < length)


def refusals(trial, scene):
    """All refusals of a scene: the calls are those of a run in which none is refused."""
    place = made(trial, scene)
    answer = trial.run(scene, place, at=0)
    if answer != scene.answer:
        raise SystemExit(f"{scene.name}: {answer}, not {scene.answer}")
    calls = trial.told(place)
    for number, (name, on, length) in enumerate(calls, 1):
        for how, part in ways(length, name, scene.parts):
            yield Refusal(number, name, on, length, how, part)
    # (the run in which no call is left to be refused)
    yield Refusal(len(calls) + 1, "none", "none", 0, "failed", 0)


def wanted_record(before):
    """The record that a run leaves which ends."""
    found = record_of(before) or FRESH
    return nexts(found)[-1] if found.tag == NONE else moved(found)


def named(answer, scene):
    """What an answer is, in a word."""
    for name, known in (("E72", NO_DEVICE), ("file", NO_FILE), ("killed", KILLED), ("answered as ever", scene.answer)):
        if answer == known:
            return name
    return "other"


def next_run(trial, scene, place):
    """What is wrong with the run behind one in which a call was refused, and whether the store has to be removed for it."""
    path, after, wrong = f"{place}/store", content_of(f"{place}/store"), []
    is_lost = bool(after) and record_of(after) is None and scene.answer == RIGHT
    answer = trial.run(scene, place)
    if is_lost:
        # (a system writes so few bytes whole, whenever the run is killed)
        if scene.content or len(after) >= len(FORMATTED):
            wrong.append("a store is lost")
        if answer != NO_STORE or content_of(path) != after:
            wrong.append(f"the next run answers {answer}")
        # (what lies beside it may stay)
        os.remove(path)
        answer = trial.run(scene, place)
    if answer != scene.answer:
        wrong.append(f"the next run answers {answer}")
    elif answer == RIGHT and record_of(content_of(path))[2:4] != (IS_VALUE, VALUE):
        wrong.append(f"the next run leaves {content_of(path).hex()}")
    return wrong, is_lost


def tried(trial, scene, refusal):
    """What is wrong where a call is refused, and what came of it, in words."""
    place, before = made(trial, scene), scene.content
    answer = trial.run(scene, place, refusal.at, refusal.how, refusal.part)
    after, told = content_of(f"{place}/store"), trial.told(place)
    wrong = []
    if told != ([] if refusal.name == "none" else [refusal[1:4]]):
        wrong.append(f"the call isn't refused: {told}")
    # (a read that gives no byte says that the file beside a store is empty, which names no job)
    is_empty = (refusal.name, refusal.on, refusal.how, refusal.part) == ("read", "beside", "short", 0)
    if answer not in (scene.answer, *REFUSALS, *([KILLED] if refusal.how == "killed" else []), *([NO_STORE] if is_empty else [])):
        wrong.append(f"it answers {answer}")
    # (what can't be had isn't written to, though it may be made)
    if not is_as_allowed(scene, after) or (answer == NO_FILE and after not in (before, before or b"")):
        wrong.append(f"it leaves {after.hex() if after else after}")
    said = content_of(broken_stores.beside(f"{place}/store"))
    if not is_line_as_allowed(scene, trial.line, after, said):
        wrong.append(f"it leaves {said} beside the store")
    if answer == scene.answer == RIGHT and record_of(after) != wanted_record(before):
        wrong.append(f"it leaves {record_of(after)} beside its outcome")
    behind, is_lost = next_run(trial, scene, place)
    shutil.rmtree(place)
    if wrong + behind:
        print(f"{scene.name}, {refusal}: {'; '.join(wrong + behind)}", file=sys.stderr)
    return not wrong + behind, named(answer, scene), is_lost


def scenes(trial):
    """The runs whose calls are refused, over files of runs that ended in each way."""
    front, behind = ("run", broken_stores.FIB, "--store"), (broken_stores.INPUT,)
    place = trial.place()

    def scene(name, content, front, answer, parts=few_parts, more=behind, line=trial.line):
        return Scene(name, content, line, front, more, answer, parts)

    other = broken_stores.line_of(trial.form, "8")
    few = trial.run(scene("", None, front, None, more=("--turns", "5", *behind)), place)
    begun = content_of(f"{place}/store")
    if few != NO_TURNS or record_of(begun) != nexts(FRESH)[1]:
        raise SystemExit(f"no store without outcome is made: {few}")
    whole = trial.run(scene("", None, front, None), place)
    kept = content_of(f"{place}/store")
    if whole != RIGHT or record_of(kept).tag != IS_VALUE:
        raise SystemExit(f"no store with an outcome is made: {whole}")
    old = broken_stores.Record(JOB, 1, NONE, 0, 1, SMALL)
    old_begun, old_kept = (broken_stores.file_of(broken_stores.slot_of(it), bytes(SMALL.size)) for it in (old, old._replace(tag=IS_VALUE, value=VALUE)))
    yield scene("a new store", None, front, RIGHT, each_part, line=None)
    yield scene("an empty file", b"", front, RIGHT, line=other)
    yield scene("a store without outcome", begun, front, RIGHT, each_part)
    yield scene("a store with the outcome", kept, front, RIGHT)
    yield scene("a store on nodes with body workers", begun, (*front[:2], "--nodes", "2", "--bodies", "2", "--store"), RIGHT)
    yield scene("a store of another job", begun, (*front[:2], "--job", "2", "--store"), OTHER_JOB)
    yield scene("no store", begun[:-1], front, NO_STORE)
    yield scene("a store of another input", kept, front, OTHER_JOB, line=other)
    yield scene("a store beside which no line lies", kept, front, NO_STORE, line=trial.line[:-1])
    yield scene("a store that doesn't say whose it is", begun, front, RIGHT, line=None)
    yield scene("a store of the older form", old_begun, front, RIGHT, each_part)
    yield scene("one of the older form with the outcome", old_kept, front, RIGHT)
    yield scene("one of the older form and of another job", old_begun, (*front[:2], "--job", "2", "--store"), OTHER_JOB)
    yield scene("one of the older form and of another input", old_begun, front, OTHER_JOB, line=other)
    yield scene("one of the older form that doesn't say whose it is", old_begun, front, RIGHT, line=None)
    yield scene("a store that is shown", kept, ("store",), broken_stores.shown(record_of(kept)), more=())


def told(results):
    """A line of counts."""
    counts = collections.Counter(name for _, name, _ in results)
    lost = sum(is_lost for _, _, is_lost in results)
    return ", ".join([*(f"{count} {name}" for name, count in sorted(counts.items())), *([f"{lost} left no store"] if lost else [])])


def lengths(trial, scene, pool):
    """Runs over files that can be no longer than so many bytes: lengths near which something ends, and some others."""
    nothing = Refusal(1 << 32, "none", "none", 0, "limited", 0)
    some = [it for it in range(SIZE + 1) if it % 97 == 0 or is_near(it, (0, 72, 136, 2248, SIZE), 12)]
    return list(pool.map(lambda length: tried(trial, scene, nothing._replace(part=length)), some))


def is_well(what, *pairs):
    """Whether what came is what was wanted, pair by pair."""
    wrong = [f"{came}, not {wanted}" for came, wanted in pairs if came != wanted]
    if wrong:
        print(f"{what}: {'; '.join(wrong)}", file=sys.stderr)
    return not wrong


def has_room(path):
    """Whether a byte can be written to a new file."""
    try:
        broken_stores.written(path, b"x")
    except OSError:
        return False
    return True


def is_mounted(place, size):
    """Whether a device of so much is mounted there."""
    mount = ("mount", "-t", "tmpfs", "-o", f"size={size}", "tmpfs", place)
    return not os.geteuid() and not subprocess.run(mount, stdout=subprocess.DEVNULL, stderr=subprocess.DEVNULL).returncode


def full_device(trial, scene):
    """Runs on a device of three pages, of which another file fills each, or some: the store needs two, and the file beside it one."""
    place = trial.place()
    if not is_mounted(place, "12k"):
        print("a full device: not tried, since nothing may be mounted here")
        return
    try:
        path, rest = f"{place}/store", f"{place}/rest"
        broken_stores.written(rest, bytes(3 * 4096))
        yield is_well("a full device", (trial.run(scene, place), NO_FILE), (content_of(path), b""), (trial.run(scene, place), NO_FILE))
        broken_stores.written(rest, bytes(2 * 4096))
        yield is_well("a device with one page", (trial.run(scene, place), NO_DEVICE), (content_of(path), b""), (trial.run(scene, place), NO_DEVICE))
        broken_stores.written(rest, bytes(4096))
        # (the store is made, and isn't one of the newer form yet)
        for _ in range(2):
            yield is_well("a device with two pages", (trial.run(scene, place), NO_DEVICE), (record_of(content_of(path)), BEGUN))
        os.remove(rest)
        yield is_well("a device with room again", (trial.run(scene, place), RIGHT))
        os.remove(path)
        few = scene._replace(behind=("--turns", "5", *scene.behind))
        yield is_well("a store on a device with room", (trial.run(few, place), NO_TURNS))
        # (the store and the file beside it have the device's three pages: they need no other one)
        yield is_well("another file on that device", (has_room(rest), False))
        yield is_well("a store on a device that is full", (trial.run(scene, place), RIGHT), (record_of(content_of(path))[2:4], (IS_VALUE, VALUE)))
    finally:
        subprocess.run(("umount", place), check=True)


def read_only_device(trial, some):
    """Runs on a device that is to be read only, over the files of some scenes: each is refused, with an outcome that is kept too, and no file comes
    or changes. What is kept there can be shown."""
    place = trial.place()
    if not is_mounted(place, "1m"):
        print("a device that is to be read only: not tried, since nothing may be mounted here")
        return
    try:
        for number, scene in enumerate(some):
            if scene.content is not None:
                broken_stores.written(f"{place}/{number}", scene.content)
            if scene.line is not None:
                broken_stores.written(broken_stores.beside(f"{place}/{number}"), scene.line)
        files = sorted(os.listdir(place))
        if subprocess.run(("mount", "-o", "remount,ro", place), check=False).returncode:
            print("a device that is to be read only: not tried, since none may be mounted so here")
            return
        for number, scene in enumerate(some):
            path = f"{place}/{number}"
            answer = called((trial.program, *scene.front, path, *scene.behind))
            why = called((trial.program, *scene.front, path, "--explain", *scene.behind))
            told = *NO_FILE[:2], f"{NO_FILE[2]}{path}: Read-only file system (os error 30)\n"
            shown = broken_stores.shown(record_of(scene.content) or 71) if scene.content is not None else NO_FILE
            after = content_of(path), content_of(broken_stores.beside(path))
            pairs = (answer, NO_FILE), (why, told), (after, (scene.content, scene.line)), (called((trial.program, "store", path)), shown)
            yield is_well(f"{scene.name} on a device that is to be read only", *pairs)
        yield is_well("the files of a device that is to be read only", (sorted(os.listdir(place)), files))
        subprocess.run(("mount", "-o", "remount,rw", place), check=True)
        for number, scene in enumerate(some):
            again = called((trial.program, *scene.front, f"{place}/{number}", *scene.behind))
            yield is_well(f"{scene.name} on a device that can be written again", (again, scene.answer))
    finally:
        subprocess.run(("umount", place), check=True)


def files_that_cannot_be_had(trial, scene, kept):
    """Runs over what is no file of one's own."""
    place = made(trial, scene)
    path, content = f"{place}/store", scene.content
    run = ("run", broken_stores.FIB, "--store")

    def refused(what, store, **more):
        return is_well(what, (called((trial.program, *run, store, broken_stores.INPUT), **more), NO_FILE), (content_of(path), content))

    yield refused("a folder", place)
    yield refused("a file for a folder", f"{path}/store")
    yield refused("no folder", f"{place}/none/store")
    yield refused("a long name", f"{place}/{'x' * 300}")
    for device in ("/dev/null", "/dev/zero", "/dev/full"):
        if os.path.exists(device):
            yield refused(device, device)
    os.mkfifo(f"{place}/pipe")
    yield refused("a pipe", f"{place}/pipe")
    with open(path, "r+b") as held:
        fcntl.flock(held, fcntl.LOCK_EX)
        yield refused("a store in use", path)
    with open(path, "r+b") as held:
        fcntl.flock(held, fcntl.LOCK_SH)
        yield refused("a store that is looked at under a lock", path)
    yield is_had_once(trial, scene, place)
    # As nobody, who may read but not write.
    how = {} if os.geteuid() else NOBODY
    closed = f"{place}/closed"
    os.mkdir(closed)
    shown = broken_stores.written(f"{closed}/store", kept.content)
    if os.geteuid() or can_be_nobody(trial):
        for mode, what in ((0o444, "a file that is to be read only"), (0o222, "a file that is to be written only"), (0o000, "a file of others")):
            os.chmod(path, mode)
            answer = called((trial.program, *run, path, broken_stores.INPUT), **how)
            # (so that who runs this can read it)
            os.chmod(path, 0o600)
            yield is_well(what, (answer, NO_FILE), (content_of(path), content))
        os.chmod(shown, 0o444)
        os.chmod(closed, 0o555)
        yield refused("a store with the outcome that is to be read only", shown, **how)
        known = called((trial.program, "store", shown), **how), broken_stores.shown(record_of(kept.content))
        yield is_well("the same, which is shown", known, (content_of(shown), kept.content))
        yield refused("a new store in a folder that is to be read only", f"{closed}/new", **how)
        yield is_well("the files of that folder", (os.listdir(closed), ["store"]))
        os.chmod(closed, 0o755)
    else:
        print("files as nobody: not tried, since nobody may not run the program here")
    yield is_well("the run behind all these", (trial.run(scene, place), scene.answer))


def is_had_once(trial, scene, place):
    """Whether a store that a long run has can be had by no other one until that ends; it can be shown."""
    path = broken_stores.written(f"{place}/had", scene.content)
    line = f"cilknow: {path} doesn't say whose it is\n"
    begun = nexts(record_of(scene.content))[1]
    words, how = [trial.program, *scene.front, path, "40"], {"stdin": subprocess.DEVNULL, "stdout": subprocess.PIPE, "stderr": subprocess.PIPE}
    with subprocess.Popen(words, **how) as long:
        for _ in range(1000):
            if record_of(content_of(path)) == begun:
                break
            time.sleep(0.01)
        second = called((trial.program, *scene.front, path, *scene.behind))
        shown = called((trial.program, "store", path))
        long.kill()
        ended = (*long.communicate(), long.returncode)
    behind = called((trial.program, *scene.front, path, *scene.behind))
    pairs = (second, NO_FILE), (shown, broken_stores.shown(begun)), (ended, (b"", line.encode(), -signal.SIGKILL)), (behind, (*RIGHT[:2], line))
    return is_well("a store that a run has", *pairs)


def can_be_nobody(trial):
    """Whether the program can be run as nobody, over files of these folders."""
    try:
        return called((trial.program, "check", broken_stores.FIB), **NOBODY)[0] == 0
    except OSError:
        return False


def main(words):
    program = os.path.realpath(words[0] if words else f"{TOP}/bin/cilknow")
    if broken_stores.called(program, "--version")[0]:
        # (so that it is built, and is there)
        return 1
    passed = failed = lost = 0
    with tempfile.TemporaryDirectory(prefix="refuse-calls-") as folder, ThreadPoolExecutor(os.cpu_count()) as pool:
        os.chmod(folder, 0o755)
        folder = os.path.realpath(folder)
        trial = Trial(program, play_all.compiled(folder, CALLS), folder)
        all_scenes = list(scenes(trial))
        for scene in all_scenes:
            all_refusals = list(refusals(trial, scene))
            results = list(pool.map(lambda it: tried(trial, scene, it), all_refusals))
            calls = all_refusals[-1].at - 1
            print(f"{scene.name}, {calls} calls: {told(results)}")
            well = sum(it[0] for it in results)
            passed, failed, lost = passed + well, failed + len(results) - well, lost + sum(it[2] for it in results)
            # (so that a library that counts nothing is seen)
            failed += calls < 3
        for scene in (it for it in all_scenes if it.name in LIMITED):
            results = lengths(trial, scene, pool)
            print(f"{scene.name}, files of at most 0 to {SIZE} bytes: {told(results)}")
            well = sum(it[0] for it in results)
            passed, failed, lost = passed + well, failed + len(results) - well, lost + sum(it[2] for it in results)
        named_so = {it.name: it for it in all_scenes}
        begun, kept = named_so["a store without outcome"], named_so["a store with the outcome"]
        some = [named_so[it] for it in ("a new store", "an empty file", *LIMITED[1:], "one of the older form with the outcome")]
        rest = [*full_device(trial, all_scenes[0]), *read_only_device(trial, some), *files_that_cannot_be_had(trial, begun, kept)]
        print(f"full devices, one that is to be read only, and files that can't be had: {len(rest)}")
        passed, failed = passed + sum(rest), failed + len(rest) - sum(rest)
    print(f"{passed} passed, {failed} failed; {lost} files left no store")
    return 1 if failed or not passed else 0


if __name__ == "__main__":
    sys.exit(main(sys.argv[1:]))
