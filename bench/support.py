"""What the benchmarks share: the proved program, what runs it and measures its memory, and data files for it."""

import collections
import pathlib
import subprocess
import sys
import tempfile

TOP = pathlib.Path(__file__).resolve().parent.parent


def built_program():
    """The proved program itself, which the launcher builds where it isn't built, for a run without lines."""
    with tempfile.TemporaryDirectory(prefix="cache-bench-") as folder:
        words = [TOP / "cache", folder, "--at", "0"]
        subprocess.run(words, stdin=subprocess.DEVNULL, stdout=subprocess.DEVNULL)
    program = TOP / "crates/cache_cli/out/cache_cli"
    if not program.exists():
        sys.exit("bench: the program was not built")
    return str(program)


def compiled_bare(folder):
    """The bare loop, which also runs the program and measures the time and memory of it alone."""
    bare = folder / "bare"
    subprocess.run(["cc", "-O2", "-o", bare, TOP / "bench/bare.c"], check=True)
    return bare


def measured(bare, *words):
    """What a call of the bare loop prints: numbers."""
    ran = subprocess.run([bare, *map(str, words)], stdout=subprocess.PIPE, check=True)
    return [float(number) for number in ran.stdout.split()]


def feed(process, lines):
    """Gives a session these lines, and no more yet."""
    for line in lines:
        process.stdin.write(line)
    process.stdin.flush()


# The moment of the data files.
MOMENT = 1000

NEVER = b"\xff" * 8
OPEN, CLOSED, VERSION = b"\x01", b"\x00", b"\x01"
END = b"\x00" + MOMENT.to_bytes(8, "big")

# Where a record stands: the number of its file, its offset and its length.
Place = collections.namedtuple("Place", "file at length")


def log_name(number):
    return f"s0-{number:010}.log"


def record(sequence, key, value):
    lengths = len(key).to_bytes(2, "big") + len(value).to_bytes(4, "big")
    return b"\x01" + sequence.to_bytes(8, "big") + NEVER + lengths + key + value


def key_of(sequence, keys):
    """The key of a record: one of so many in turn, or one of its own, in no order of their numbers."""
    return b"key%d" % (sequence % keys) if keys else b"key%08x" % (sequence * 2654435761 % 2**32)


def puts_of(sequences, keys):
    """Puts with these numbers, each with its key."""
    return ((sequence, key_of(sequence, keys)) for sequence in sequences)


def write_file(folder, number, size, puts, value):
    """A data file of at most so many bytes, one frame for each put, from the first of these numbers and keys on. It gives
    the places of its records."""
    places = []
    with (folder / log_name(number)).open("wb") as file:
        file.write(OPEN + VERSION)
        at = 2
        for sequence, key in puts:
            one = record(sequence, key, b"v" * value)
            if at + len(one) + len(END) + 1 > size:
                break
            # The gate behind a frame is the one before the next.
            file.write(one + END + OPEN)
            places.append(Place(number, at, len(one)))
            at += len(one) + len(END) + 1
        file.seek(-1, 1)
        file.write(CLOSED)
    return places


def write_files(folder, files, size, keys, value):
    """So many data files of at most so many bytes each. It gives the number of their records."""
    folder.mkdir()
    count = 0
    for number in range(1, files + 1):
        count += len(write_file(folder, number, size, puts_of(range(count + 1, sys.maxsize), keys), value))
    return count


def write_records(folder, count, size, value):
    """Data files of at most so many bytes each with so many records, each of its own key. It gives their places."""
    folder.mkdir()
    places, number = [], 0
    while len(places) < count:
        number += 1
        more = write_file(folder, number, size, puts_of(range(len(places) + 1, count + 1), 0), value)
        if not more:
            sys.exit("bench: a file has no room for one record")
        places += more
    return places
