"""What tools/show reads of a directory, beside what the program reads of it."""

import concurrent.futures
import random
import subprocess
import sys

import support
from differential import said_token
from support import DAMAGED, DONE, NEVER, TOP, check_names, equal, log_name, spelled_put

sys.path.append(str(TOP / "tools"))

import reading

# How many directories are drawn, and how many are checked at a time.
DIRECTORIES, WORKERS = 1_000, 4

KEYS = [b"a", b"b", b"c", b"\x00", b"%", b"k" * 1024]
VALUES = [b"", b"1", b"two words", b"v" * 300]

# Two frames and a removal, and behind a closed gate a part of a frame.
WORKED = b"".join([
    b"\x01\x01",
    spelled_put(1, b"a", b"b"),
    b"\x00" + (1000).to_bytes(8, "big"),
    b"\x01",
    spelled_put(2, b"k", b"two words", 1010),
    b"\x02" + (3).to_bytes(8, "big") + b"\x00\x01a",
    b"\x00" + (1005).to_bytes(8, "big"),
    b"\x00",
    spelled_put(4, b"c", b"d"),
    b"\x00\x00",
])

# What tools/show prints of it.
SHOWN = """\
s0-0000000001.log: 119 bytes
00000000  gate     open
00000001  version  1
          frame 1
00000002    put      sequence 1, never expires, key a, value b
0000001b    end      moment 1000
00000024  gate     open
          frame 2
00000025    put      sequence 2, until 1010, key k, value two%20words
00000046    removal  sequence 3, key a
00000052    end      moment 1005
0000005b  gate     closed (00)
          not counted: what is behind a closed gate isn't looked at
0000005c    put      sequence 4, never expires, key c, value d
00000075  2 more bytes
counted: 2 frames, 3 records, greatest moment 1005
"""

# What it prints of a directory with this file, one that is cut behind the first end, and one with a closed gate.
TABLE = """\
file                     bytes      frames     records      newest      moment  damage
s0-0000000001.log          119           2           3           2        1005
s0-0000000002.log           36           1           1           0        1000  cut at 36
s0-0000000007.log            1           0           0           0           -
all                        156           3           4           2        1005
"""


class Drawn:
    """Draws data files."""

    def __init__(self, seed):
        self.choice = random.Random(seed)

    def until(self):
        return self.choice.choice([NEVER, NEVER, 0, 5, 10, 11, 20, 2**62 - 1])

    def record(self):
        """A put or a removal. Sequence numbers are few, so that two records may have the same one."""
        sequence, key = self.choice.randrange(12), self.choice.choice(KEYS)
        if self.choice.random() < 0.3:
            return b"\x02" + sequence.to_bytes(8, "big") + len(key).to_bytes(2, "big") + key
        return spelled_put(sequence, key, self.choice.choice(VALUES), self.until())

    def frame(self, records):
        """A frame of records that are new or were drawn before."""
        drawn = []
        for _ in range(self.choice.randrange(4)):
            is_copy = records and self.choice.random() < 0.2
            drawn.append(self.choice.choice(records) if is_copy else self.record())
        records += drawn
        return b"".join(drawn) + b"\x00" + self.choice.randrange(15).to_bytes(8, "big")

    def file(self, records):
        """A file whose gates are open up to some frame or to the last one."""
        count = self.choice.randrange(5)
        gates = [b"\x00" if self.choice.random() < 0.1 else b"\x01" for _ in range(count)] + [b"\x00"]
        frames = [self.frame(records) for _ in range(count)]
        version = b"\x01" if count else b""
        data = gates[0] + version + b"".join(frame + gate for frame, gate in zip(frames, gates[1:]))
        return self.spoilt(data) if self.choice.random() < 0.1 else data

    def spoilt(self, data):
        """A file that is cut, or one of whose bytes is another one."""
        at = self.choice.randrange(len(data))
        if self.choice.random() < 0.5:
            return data[:at]
        return data[:at] + self.choice.choice([b"\x00", b"\x01", b"\x02", b"\xff", b"a"]) + data[at + 1 :]

    def files(self):
        records = []
        numbers = self.choice.sample(range(1, 12), self.choice.randrange(5))
        return {number: self.file(records) for number in sorted(numbers)}


def write_files(folder, files):
    for number, data in files.items():
        (folder / log_name(number)).write_bytes(data)


def said_values(read, moment):
    """The answers to a `get` of each key at a moment."""
    newest = read.newest()
    for key in KEYS:
        value = newest[key].record.value_at(moment) if key in newest else None
        yield b"none" if value is None else b"value " + said_token(value)


def wanted_of(read, moment, later):
    """The status and the lines of a run that gets each key at a moment and at a later one, by what was read."""
    damage = read.damage()
    if damage:
        number, found = damage
        return DAMAGED, [b"damaged %s %d %s" % (log_name(number).encode(), found.offset, found.kind.encode())]
    begun = max(moment, read.mark())
    lines = [b"opened %d" % begun, *said_values(read, begun), b"ok", *said_values(read, begun + later), b"stopped"]
    return DONE, lines


def check_read(folder, moment, later, what):
    """Compares what the program says of a folder with what is read of it."""
    read = reading.read_folder(folder)
    gets = b"".join(b"get %s\n" % said_token(key) for key in KEYS)
    script = gets + b"at %d\n" % (max(moment, read.mark()) + later) + gets
    status, said, errors = support.run([folder, "--at", str(moment)], script)
    equal((status, said.splitlines(), errors), (*wanted_of(read, moment, later), b""), what)


def check_files(folder, name, files, moment=1, later=1):
    """Compares what is said and read of a new directory with these files."""
    place = folder / name
    place.mkdir()
    write_files(place, files)
    check_read(place, moment, later, name)


def check_all(folder, cases):
    """Does so for many directories, several at a time."""
    with concurrent.futures.ThreadPoolExecutor(WORKERS) as pool:
        checks = [pool.submit(check_files, folder, *case) for case in cases]
        try:
            for check in checks:
                check.result()
        finally:
            pool.shutdown(cancel_futures=True)


def drawn_case(seed):
    drawn = Drawn(seed)
    return f"seed {seed}", drawn.files(), drawn.choice.randrange(15), drawn.choice.randrange(8)


def test_show_reads_directories_as_the_program(folder):
    """Of a thousand drawn directories the program finds the same values, or the same first damage."""
    first = support.FIRST_SEED
    check_all(folder, map(drawn_case, range(first, first + DIRECTORIES)))


def test_show_reads_a_cut_file_as_the_program(folder):
    """Of a small file that is cut at each length the program finds the same values, or the same damage."""
    check_all(folder, [(f"cut at {size}", {1: WORKED[:size]}) for size in range(len(WORKED) + 1)])


def other_bytes(byte):
    return sorted({0, 1, 2, 0xFF, byte ^ 4} - {byte})


def altered(data):
    """Cases of the data with one other byte."""
    for at, byte in enumerate(data):
        for other in other_bytes(byte):
            yield f"{other:02x} at {at}", {1: data[:at] + bytes([other]) + data[at + 1 :]}


def test_show_reads_an_altered_file_as_the_program(folder):
    """Of a small file with one other byte the program finds the same values, or the same damage."""
    check_all(folder, altered(WORKED))


def check_show(path, status, text):
    ran = subprocess.run([TOP / "tools/show", path], capture_output=True, timeout=support.LIMIT)
    equal((ran.returncode, ran.stdout.decode(), ran.stderr), (status, text, b""), f"what is shown of {path.name}")


def test_show_of_a_file(folder):
    """A file is shown part by part, with what doesn't count, and stays as it is."""
    write_files(folder, {1: WORKED})
    check_show(folder / log_name(1), DONE, SHOWN)
    equal((folder / log_name(1)).read_bytes(), WORKED, "the file")
    check_names(folder, [log_name(1)])


def test_show_of_a_directory(folder):
    """A directory is shown as a table of its data files, and the status is 4 where one is damaged."""
    write_files(folder, {1: WORKED, 2: WORKED[:36], 7: b"\x00"})
    (folder / "s1-0000000001.log").write_bytes(b"\x01\x02")
    check_show(folder, DAMAGED, TABLE)
