#!/usr/bin/env python3
"""What reading a message full of pointers costs: user instructions a byte, by callgrind, beside an honest one.

Each bomb is a message whose names lead through many pointers; beside it stands an honest message of the same length, with the same
types of records, whose names are as long and are written out once. A case is read by `read_asked`, in the program `conformance`
(cd crates/conformance && rt run). Two runs of each message, of one and of three lines, and their difference; the same of a message of
as many bytes that is refused at its header, which takes out what isn't reading. Exits 1 where a bomb costs over twice its honest
message. Wants valgrind. With --write FOLDER, the messages are written there and nothing is measured.
"""
import os
import re
import shutil
import struct
import subprocess
import sys
import tempfile

TOP = os.path.dirname(os.path.dirname(os.path.abspath(__file__)))
PROGRAM = os.path.join(TOP, "crates", "conformance", "out", "conformance")
SIZES = (4_088, 16_384, 65_535)
TIMES = 2


def pointer(target):
    return struct.pack(">H", 0xC000 | target)


def record(owner, kind, data):
    return owner + struct.pack(">HHIH", kind, 1, 60, len(data)) + data


def message(question, records, size):
    """A query of `size` bytes, filled up by zeros."""
    body = struct.pack(">HHHHHH", 0x1234, 0x0100, 1, len(records), 0, 0) + question + struct.pack(">HH", 1, 1) + b"".join(records)
    return body + bytes(size - len(body))


def wire(labels):
    return b"".join(bytes([len(label)]) + label for label in labels) + b"\0"


LONG = [b"x" * 63, b"y" * 63, b"w" * 63, b"v" * 60]
A_NAME = [b"a"]


class Chain:
    """The data of an opaque record: bytes, the offsets where names stand in them, and how many bytes of labels and labels each has."""

    def __init__(self, start, room):
        self.start, self.room, self.bytes, self.names = start, room, b"", []

    def put(self, labels, end, below=(0, 0)):
        """Labels in front of `end`, a zero byte or a pointer. Gives the offset, or none where there is no room."""
        more = b"".join(bytes([len(label)]) + label for label in labels) + end
        if self.room < len(self.bytes) + len(more):
            return None
        at = self.start + len(self.bytes)
        self.bytes += more
        self.names.append((at, below[0] + len(more) - len(end), below[1] + len(labels)))
        return at


def bare(bottom):
    """A name, and pointers each to the pointer before it."""

    def make(chain):
        chain.put(bottom, b"\0")
        bare_on(chain)

    return make


def stairs(bare_between):
    """Labels of one byte, each in front of a pointer to the one before, so many bare pointers between two; 126 labels, and again."""

    def make(chain):
        while True:
            if chain.put([b"z"], b"\0") is None:
                return
            for _ in range(125):
                if chain.put([b"q"], pointer(chain.names[-1][0]), chain.names[-1][1:]) is None:
                    return
                for _ in range(bare_between):
                    if chain.put([], pointer(chain.names[-1][0]), chain.names[-1][1:]) is None:
                        return

    return make


def nowhere(chain):
    """A pointer to itself, and pointers each to the pointer before it: none of them is a name."""
    chain.put([], pointer(chain.start))
    bare_on(chain)


def bare_on(chain):
    while chain.put([], pointer(chain.names[-1][0]), chain.names[-1][1:]) is not None:
        pass
    del chain.names[0]


def many(chain):
    """A name of 255 bytes, and chains of six pointers to it, so that each is learnt by itself."""
    bottom = chain.put(LONG, b"\0")
    below, tops = chain.names[0][1:], []
    while True:
        last = bottom
        for _ in range(6):
            last = chain.put([], pointer(last), below)
            if last is None:
                chain.names = tops
                return
        tops.append(chain.names[-1])


def sequences(chain):
    """Four sequences of 31 labels of one byte, each in front of a pointer to the one before: too few pointers for names to be kept."""
    below = (chain.put([b"q"] * 31, b"\0"), 62, 31)
    for _ in range(3):
        below = (chain.put([b"q"] * 31, pointer(below[0]), below[1:]), below[1] + 62, below[2] + 31)
    del chain.names[:-1]


def deepest(names, _):
    return names[-1]


def all_over(names, k):
    return names[-1 - (k * 37) % len(names)]


def fives(names, k):
    """Each fifth name, so that few of them are kept."""
    return names[-1 - (k * 5) % len(names)]


KINDS = {"A": (1, 1), "NS": (2, 2), "SOA": (6, 3)}

BOMBS = [
    ("bare pointers, A, the deepest", bare([b"z"]), "A", deepest),
    ("bare pointers, A, all over", bare([b"z"]), "A", all_over),
    ("bare pointers, NS, the deepest", bare([b"z"]), "NS", deepest),
    ("bare pointers, NS, all over", bare([b"z"]), "NS", all_over),
    ("bare pointers, NS, each fifth", bare([b"z"]), "NS", fives),
    ("bare pointers to 255 bytes, NS, the deepest", bare(LONG), "NS", deepest),
    ("bare pointers to 255 bytes, NS, all over", bare(LONG), "NS", all_over),
    ("six pointers to 255 bytes, NS, all over", many, "NS", all_over),
    ("label and pointer, NS, the deepest", stairs(0), "NS", deepest),
    ("label and pointer, NS, all over", stairs(0), "NS", all_over),
    ("label and pointer, SOA, all over", stairs(0), "SOA", all_over),
    ("label and four pointers, NS, all over", stairs(3), "NS", all_over),
    ("four sequences of 31 labels, NS", sequences, "NS", deepest),
    ("bare pointers to no name, NS: FORMERR", nowhere, "NS", deepest),
]


def data_of(kind, names):
    return {"A": b"\x7f\0\0\1", "NS": names, "SOA": names + bytes(20)}[kind]


def records_of(kind, pick, room):
    """Records as long as there is room, each with the next names, and the names that they have."""
    number, count = KINDS[kind]
    records, used, k = [], [], 0
    while True:
        names = [pick(k + i) for i in range(count)]
        made = record(pointer(names[0][0]), number, data_of(kind, b"".join(pointer(name[0]) for name in names[1:])))
        if room < len(made):
            return records, used
        records.append(made)
        used += names
        room -= len(made)
        k += count


def bomb(size, make, kind, pick):
    question = wire(A_NAME)
    start = 12 + len(question) + 4 + 11
    chain = Chain(start, min(size // 4, 16_384 - start - 2))
    make(chain)
    chain.names.sort(key=lambda name: (name[2], name[0]))
    opaque = record(b"\0", 65_280, chain.bytes)
    records, used = records_of(kind, lambda k: pick(chain.names, k), size - start + 11 - len(opaque))
    return message(question, [opaque] + records, size), used


def honest(size, kind, used):
    """Names with as many bytes and labels as those that were used have at the mean, each a pointer to the question's name."""
    count = max(1, round(sum(name[2] for name in used) / len(used)))
    extra = max(0, round(sum(name[1] for name in used) / len(used)) - 2 * count)
    labels = [b"q" * (1 + extra // count + (1 if at < extra % count else 0)) for at in range(count)]
    question = wire(labels)
    records, _ = records_of(kind, lambda _: (12, 0, 0), size - 12 - len(question) - 4)
    return message(question, records, size)


def instructions(query, times, folder):
    """Instructions of a run over so many lines, and the answer of the last."""
    cases, out = os.path.join(folder, "cases"), os.path.join(folder, "callgrind.out")
    with open(cases, "w") as file:
        file.write(f"asked {query.hex()} = \n" * times)
    with open(cases) as file:
        ran = subprocess.run(
            ["valgrind", "--tool=callgrind", f"--callgrind-out-file={out}", PROGRAM], stdin=file, capture_output=True, text=True, check=True
        )
    answer = ran.stdout.splitlines()[-1].split(" = ")[1]
    return int(re.search(r"Collected : (\d+)", ran.stderr).group(1)), answer


def line(query, folder):
    few, _ = instructions(query, 1, folder)
    many, answer = instructions(query, 1 + TIMES, folder)
    return (many - few) / TIMES, answer


def main():
    if "--write" in sys.argv:
        folder = sys.argv[sys.argv.index("--write") + 1]
        for number, (_, make, kind, pick) in enumerate(BOMBS):
            for size in SIZES:
                query, used = bomb(size, make, kind, pick)
                for word, made in (("bomb", query), ("honest", honest(size, kind, used))):
                    with open(os.path.join(folder, f"{word}.{number}.{size}"), "wb") as file:
                        file.write(made)
        return 0
    if shutil.which("valgrind") is None or not os.access(PROGRAM, os.X_OK):
        print("skipped: there is no valgrind, or the program isn't built")
        return 0
    status = 0
    with tempfile.TemporaryDirectory() as folder:
        for size in SIZES:
            blank, refused = line(b"\x12\x34\x01\x00" + bytes(size - 4), folder)
            assert refused.startswith("formerr"), refused
            for case, make, kind, pick in BOMBS:
                query, used = bomb(size, make, kind, pick)
                costs = []
                for made in (query, honest(size, kind, used)):
                    cost, answer = line(made, folder)
                    assert answer.startswith("formerr" if made is query and make is nowhere else "ok"), (case, size, answer)
                    costs.append((cost - blank) / size)
                times = costs[0] / costs[1]
                status |= times > 2
                print(f"{size:6} {costs[0]:9.1f} {costs[1]:9.1f} {times:6.2f}  {case}", flush=True)
    return status


if __name__ == "__main__":
    sys.exit(main())
