"""Times of reading and writing packets, beside CPython's pickle of the same fields, and the memory that packets take which
claim more than they hold; see bench/codec. The packets are put together here, apart from the program."""
import os
import pickle
import struct
import subprocess
import sys
import tempfile
import time
import played

LIMIT = 1_048_576
CLOCK = "/usr/bin/time"
ROOT = (2**63 + 1, 1)

# Each of these gives the bytes, and the fields as tuples, numbers and places.


def header(kind, to):
    return b"\x43\x4e\x01" + bytes([kind]) + struct.pack(">QQ", 7, to), (kind, 7, to)


def steal():
    spelled, fields = header(3, ROOT[0])
    return spelled + struct.pack(">QQ", 3, 1), (*fields, 3, 1)


def task(steps, thread, number):
    place = b"\x01" * steps
    spelled = struct.pack(">H", steps) + place + struct.pack(">BBq", thread, 1, number)
    return spelled, (place, thread, (number,))


def grant():
    spelled, fields = header(4, 3)
    granted, of_task = task(0, 0, 10)
    return spelled + struct.pack(">QQQ", 1, *ROOT) + granted, (*fields, 1, ROOT, of_task)


def frame(number, steps):
    place = b"\x01" * steps
    slots = b"\x02\x00\x01" + struct.pack(">q", -number)
    spelled = struct.pack(">IH", number, steps) + place + b"\x01" + slots + b"\x01" + struct.pack(">IB", 0, 1)
    return spelled, (number, place, 1, (None, -number), (0, 1))


def record(number, steps):
    stolen, of_task = task(steps, 0, number)
    spelled = struct.pack(">QQQI", 3, number + 1, 4, number) + stolen + b"\x00"
    return spelled, ((3, number + 1), 4, number, of_task, None)


def counted(items):
    return struct.pack(">I", len(items)) + b"".join(it[0] for it in items), [it[1] for it in items]


def offer(frames, records, steps):
    spelled, fields = header(8, 5)
    head = struct.pack(">QQQIQB", 3, *ROOT, 1, ROOT[0], 0)
    root, of_root = task(0, 0, 10)
    count = max(frames + records, 1)
    kept, of_kept = counted([frame(i, steps) for i in range(frames)])
    lent, of_lent = counted([record(frames + i, steps) for i in range(records)])
    spelled += head + root + struct.pack(">I", count) + kept + lent
    return spelled, (*fields, 3, ROOT, 1, ROOT[0], None, of_root, count, of_kept, of_lent)


def full_offer(steps):
    """An offer of as many frames and records, half and half, as fit."""
    pair = len(frame(0, steps)[0]) + len(record(0, steps)[0])
    half = (LIMIT - len(offer(0, 0, steps)[0])) // pair
    return offer(half, half, steps)


def claims():
    """Packets that claim many members, frames or records and end there, and for comparison one that holds what it says."""
    empty = offer(0, 0, 0)[0]
    roster = header(2, 3)[0] + struct.pack(">QQ", 1, 1)
    return [
        ("Refuse", header(5, 3)[0] + struct.pack(">Q", 1)),
        ("Roster of 4,096 members, none of which comes", roster + struct.pack(">H", 4096)),
        ("Offer of 4,294,967,295 frames, none of which comes", empty[:-8] + struct.pack(">I", 2**32 - 1)),
        ("Offer of 4,294,967,295 records, none of which comes", empty[:-4] + struct.pack(">I", 2**32 - 1)),
        ("the longest Offer, places of 10 steps", full_offer(10)[0]),
    ]


def line(command, times, packet):
    """What reads or writes the packet of some bytes so often."""
    return f"{command} {times} {packet.hex()}"


def peak(program, folder, packet):
    """What the program says of a packet that it reads once, and its peak memory in KiB by GNU time."""
    with open(played.file_of(folder, "claim", [line("decodes", 1, packet)]), "rb") as text:
        ran = subprocess.run([CLOCK, "-f", "%M", program], stdin=text, stdout=subprocess.PIPE, stderr=subprocess.PIPE, text=True)
    answer = ran.stdout.split("\n")[-2].removeprefix("> ")
    return "read" if answer == "ok" else answer, ran.stderr.split()[-1]


def packet_seconds(program, command, packet, rounds, tries=5):
    """The processor time of one packet: two counts of rounds are compared."""
    texts = [[line(command, times, packet)] for times in (rounds, 2 * rounds)]
    return played.call_seconds(program, texts, rounds, tries)


def pickle_seconds(call, argument, rounds, tries=5):
    best = float("inf")
    for _ in range(tries):
        start = time.process_time()
        for _ in range(rounds):
            call(argument)
        best = min(best, time.process_time() - start)
    return best / rounds


def main():
    program = sys.argv[1]
    rows = [("Steal", steal(), 1_000_000), ("Grant", grant(), 1_000_000)]
    for half in (1_000, 2_000, 4_000, 8_000):
        name = f"Offer, {half:,} frames and records each"
        rows.append((name, offer(half, half, 10), 800_000 // half))
    rows.append(("the longest Offer, places of 10 steps", full_offer(10), 60))
    rows.append(("the longest Offer, places of 1,000", full_offer(1_000), 60))
    titles = " ".join(f"{title:>9}" for title in ("read us", "MB/s", "of pickle", "write us", "MB/s", "of pickle"))
    print(f"{'packet':40} {'bytes':>8} {titles}")
    for name, (packet, fields), rounds in rows:
        cells = []
        for command, count in (("decodes", rounds), ("encodes", 8 * rounds)):
            each = packet_seconds(program, command, packet, count)
            if command == "decodes":
                other = pickle_seconds(pickle.loads, pickle.dumps(fields), max(rounds // 10, 5))
            else:
                other = pickle_seconds(pickle.dumps, fields, max(rounds // 10, 5))
            cells.append(f"{each * 1e6:9.2f} {len(packet) / each / 1e6:9.0f} {each / other:9.2f}")
        print(f"{name:40} {len(packet):8} {' '.join(cells)}", flush=True)
    if not os.path.exists(CLOCK):
        return
    print(f"\n{'packet':52} {'bytes':>8} {'answer':>7} {'peak KiB':>9}")
    with tempfile.TemporaryDirectory() as folder:
        for name, packet in claims():
            answer, memory = peak(program, folder, packet)
            print(f"{name:52} {len(packet):8} {answer:>7} {memory:>9}")


main()
