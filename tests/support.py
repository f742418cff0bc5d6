"""What the tests share: fresh folders, runs of the program, and a reader of data files of its own."""

import collections
import contextlib
import os
import pathlib
import shutil
import subprocess
import tempfile
import time

TOP = pathlib.Path(__file__).resolve().parent.parent

# What is run. It may be another program with the same words.
PROGRAM = str(TOP / "cache")

# How long one run may take, in seconds.
LIMIT = 60

# The statuses that the program ends with.
DONE, USAGE, SETTINGS, DAMAGED, DISK_FAILED, SCRIPT_FAILED, SAY_FAILED, SPENT = 0, 2, 3, 4, 5, 6, 7, 9

# The data file that the first put of an empty folder makes.
FIRST_FILE = "s0-0000000001.log"

# The settings file.
SETTINGS_FILE = "cache.toml"

# The values that tests draw for settings, where None leaves the default.
DRAWN_SETTINGS = {
    "file_size": [None, 4096, 5000, 16384],
    "compact_below": [None, 1, 50, 99],
    "sync_writes": [None, "true", "false", "false"],
    "hash_bits": [None, 0, 3, 32],
    "queue": [None, 1, 1, 2, 3, 16, 65536],
    "pump": [None, 0, 0, 1, 3, 5, 1000],
}

# How many requests may wait for the index, how many background steps follow an answer, and of how many percent of a data
# file's bytes fewer are live where it is compacted, by default.
QUEUE, PUMP, COMPACT_BELOW = 1000, 1, 50

# The background steps come in this order, again and again.
BACKGROUND = ["index", "flush", "compact", "reap"]

NEVER = 2**64 - 1

# The size that a data file gets, and the bits of the keys' hash, by default.
FILE_SIZE, BITS = 16777216, 32

# How many bytes the end of a frame takes, with the gate behind it.
FRAME_END = 10

# What tests go by of the settings that were drawn: whether each write is synced, how many requests may wait for the index,
# how many background steps follow an answer, what size a data file gets, the bits of the keys' hash, and the percent below
# which a file is compacted.
Settings = collections.namedtuple("Settings", "synced queue pump file_size bits compact_below")

# A record whose value is None removes its key, and has no expiry.
Frame = collections.namedtuple("Frame", "records moment")
Record = collections.namedtuple("Record", "sequence until key value")

# What the seed of a test with drawn scripts begins with. One run with another number tries other scripts.
FIRST_SEED = 1


class Failed(Exception):
    """Something was other than it should be."""


class Skipped(Exception):
    """The test can't be made here."""


def equal(got, wanted, what):
    if got != wanted:
        raise Failed(f"{what}: got {got!r}, not {wanted!r}")


def build():
    """Builds the program where it isn't built, by a run without lines. What that prints goes to standard error."""
    with fresh_folder() as folder:
        words = [PROGRAM, folder, "--at", "0"]
        ran = subprocess.run(words, stdin=subprocess.DEVNULL, stdout=subprocess.DEVNULL)
    if ran.returncode != DONE:
        raise SystemExit("tests/run: the program was not built")


@contextlib.contextmanager
def fresh_folder():
    folder = pathlib.Path(tempfile.mkdtemp(prefix="cache-test-")).resolve()
    try:
        yield folder
    finally:
        for path in [folder, *folder.rglob("*")]:
            if path.is_dir():
                path.chmod(0o700)
        shutil.rmtree(folder)


def run(arguments, script=b"", **how):
    """Runs the program on a script and gives its status, its standard output and its standard error."""
    how.setdefault("stdout", subprocess.PIPE)
    if "stdin" not in how:
        how["input"] = script
    ran = subprocess.run(
        [PROGRAM, *arguments], stderr=subprocess.PIPE, timeout=LIMIT, **how
    )
    return ran.returncode, ran.stdout, ran.stderr


def check_run(arguments, script, status, said, **how):
    """Runs the program, and asks for this status, these lines on standard output and none on standard error."""
    got = run(arguments, script, **how)
    text = None if said is None else "".join(f"{line}\n" for line in said).encode()
    equal(got, (status, text, b""), f"status, output and errors of {arguments}")


def check_words(words, folder, script=b"", status=USAGE, said=()):
    check_run([folder, *words], script, status, said)


def set_folder(folder, text):
    """Gives a folder these settings."""
    (folder / SETTINGS_FILE).write_text(text)


def draw_settings(folder, choice):
    """Draws the settings of a folder, the defaults among them, and gives those that tests go by."""
    drawn = {name: choice.choice(values) for name, values in DRAWN_SETTINGS.items()}
    given = {name: value for name, value in drawn.items() if value is not None}
    set_folder(folder, "".join(f"{name} = {value}\n" for name, value in given.items()))
    return Settings(
        drawn["sync_writes"] != "false",
        given.get("queue", QUEUE),
        given.get("pump", PUMP),
        given.get("file_size", FILE_SIZE),
        given.get("hash_bits", BITS),
        given.get("compact_below", COMPACT_BELOW),
    )


class Parts:
    """What steps do in a run: how many requests wait for the index, the data files, and the compaction that is under way,
    where there is one. The background steps behind the answers are numbered through the whole run."""

    def __init__(self, settings, files):
        self.settings, self.files = settings, files
        self.waiting, self.steps = 0, 0
        # The file under compaction, its records, and how many turns were done.
        self.run = None

    def change(self, key, value, moment):
        """A change is written: a removal where the value is None. Where the queue is full, one request is taken first."""
        self.wait()
        self.files.write(Written(key, record_length(key, value)), moment)
        if self.settings.synced:
            self.files.seal(moment)

    def wait(self):
        self.waiting = min(self.waiting + 1, self.settings.queue)

    def step(self, kind, moment):
        """Takes a step, and gives its answer."""
        is_done = False
        if kind == "index" and self.waiting:
            self.waiting -= 1
            is_done = True
        if kind == "rotate" and self.files.current:
            self.files.rotate(moment)
            is_done = True
        if kind == "compact":
            is_done = self.compact(moment)
        return b"done" if is_done else b"idle"

    def compact(self, moment):
        """Takes a turn of a compaction: a record is looked at, or the log is stamped, or the file goes."""
        if not self.run:
            self.waiting = 0
            number = self.files.candidate()
            if not number:
                return False
            self.begin(number)
        number, records, done = self.run
        self.run = (number, records, done + 1)
        if done < len(records):
            if self.files.newest[records[done].key] is records[done]:
                record = records[done]
                self.wait()
                self.files.write(Written(record.key, record.length), moment)
        elif done == len(records):
            self.files.stamp(moment)
        else:
            self.files.forget(number)
            self.waiting = min(len(records), self.settings.queue)
            self.run = None
        return True

    def begin(self, number):
        self.run = (number, list(self.files.records[number]), 0)

    def end(self, moment):
        """Takes the turns that are left of the compaction that is under way."""
        while self.run:
            self.compact(moment)

    def compact_file(self, number, moment):
        """Ends the compaction that is under way, and takes all turns of one of this file, where it's a closed one then. It
        gives the answer."""
        self.end(moment)
        self.waiting = 0
        if number not in self.files.sizes or number == self.files.current:
            return b"idle"
        self.begin(number)
        self.end(moment)
        return b"done"

    def compact_all(self, moment):
        """Ends the compaction that is under way, closes the current file, and takes all turns of one of each file that is
        there then. It gives the answer."""
        self.end(moment)
        self.files.rotate(moment)
        self.waiting = 0
        for number in sorted(self.files.sizes):
            self.begin(number)
            self.end(moment)
        return b"compacted"

    def count(self):
        """The files were counted: nothing waits for the index then."""
        self.waiting = 0

    def answered(self, moment):
        """Takes the background steps behind an answer."""
        for _ in range(self.settings.pump):
            self.step(BACKGROUND[self.steps % len(BACKGROUND)], moment)
            self.steps += 1


class Files:
    """The data files of a folder as a run writes them: the size of each, and its records; the newest record of each key; the
    file that is being written, where there is one, whether it has something that isn't sealed, and the moment of its last
    frame."""

    def __init__(self, folder, settings):
        self.settings = settings
        self.sizes = {int(path.stem[3:]): path.stat().st_size for path in folder.glob("s0-*.log")}
        self.records = {number: [] for number in self.sizes}
        self.newest, self.made = {}, max(self.sizes, default=0)
        sequences = {}
        for number in sorted(self.sizes):
            for frame in counted_frames(folder / log_name(number)):
                for record in frame.records:
                    written = Written(record.key, record_length(record.key, record.value))
                    self.records[number].append(written)
                    if sequences.get(record.key, 0) <= record.sequence:
                        sequences[record.key] = record.sequence
                        self.newest[record.key] = written
        self.current, self.unsealed, self.moment = None, False, None

    def begin(self):
        self.made += 1
        self.current, self.moment = self.made, None
        self.sizes[self.current], self.records[self.current] = 2, []

    def write(self, record, moment):
        """A record is written, the newest one of its key."""
        if self.current and self.sizes[self.current] + record.length + FRAME_END > self.settings.file_size:
            self.rotate(moment)
        if not self.current:
            self.begin()
        self.sizes[self.current] += record.length
        self.records[self.current].append(record)
        self.newest[record.key] = record
        self.unsealed = True

    def seal(self, moment):
        if self.unsealed:
            self.sizes[self.current] += FRAME_END
            self.moment = moment
        self.unsealed = False

    def stamp(self, moment):
        """The last frame gets this moment, or an empty one behind it does."""
        if not self.current:
            self.begin()
        if self.moment != moment:
            self.unsealed = True
        self.seal(moment)

    def rotate(self, moment):
        self.seal(moment)
        self.current = None

    def live(self, number):
        return sum(record.length for record in self.records[number] if self.newest[record.key] is record)

    def candidate(self):
        """The first file, other than the one that is being written, that has too few live bytes."""
        for number in sorted(self.sizes):
            is_low = self.live(number) * 100 < self.settings.compact_below * self.sizes[number]
            if number != self.current and is_low:
                return number
        return None

    def forget(self, number):
        del self.sizes[number], self.records[number]

    def draw_number(self, choice):
        """A number that a line may name: mostly that of a file that is there."""
        return choice.choice([*self.sizes, *self.sizes, *self.sizes, 0, self.made, self.made + 1, 2**32 - 1])

    def hash(self, key):
        """The hash of a key: it comes first in the order in which a clear removes keys."""
        hash = 2166136261
        for byte in key:
            hash = (hash ^ byte) * 16777619 % 2**32
        return hash % 2**self.settings.bits

    def figures(self):
        """The answer to the line `stats`."""
        figures = (len(self.sizes), sum(self.sizes.values()), sum(map(self.live, self.sizes)))
        return b"stats files %d bytes %d live %d pending 0 held 0" % figures


class Written:
    """A record of a data file: its key and its length. Two with the same key and length are not the same."""

    def __init__(self, key, length):
        self.key, self.length = key, length


def record_length(key, value):
    return 11 + len(key) if value is None else 23 + len(key) + len(value)


def names_in(folder):
    return sorted(os.listdir(os.fsencode(folder)))


def check_names(folder, names):
    equal(names_in(folder), sorted(map(os.fsencode, names)), "the names in the folder")


def log_name(number):
    return f"s0-{number:010}.log"


def spelled_put(sequence, key, value, until=NEVER):
    """A put as it stands in a data file."""
    numbers = b"\x01" + sequence.to_bytes(8, "big") + until.to_bytes(8, "big")
    lengths = len(key).to_bytes(2, "big") + len(value).to_bytes(4, "big")
    return numbers + lengths + key + value


def spelled_file(puts, moment, first=1):
    """A data file with one open frame for each put, and a closed gate at its end. The puts are numbered from `first`."""
    end = b"\x00" + moment.to_bytes(8, "big")
    frames = [spelled_put(at, *put) + end for at, put in enumerate(puts, start=first)]
    return b"\x01\x01" + b"\x01".join(frames) + b"\x00"


class Reader:
    """Reads numbers and bytes from the front of a data file."""

    def __init__(self, data):
        self.data, self.at = data, 0

    def bytes(self, count):
        if self.at + count > len(self.data):
            raise Failed(f"the file ends within what stands at {self.at}")
        self.at += count
        return self.data[self.at - count : self.at]

    def number(self, count):
        return int.from_bytes(self.bytes(count), "big")

    def put(self):
        sequence, until = self.number(8), self.number(8)
        key_length, value_length = self.number(2), self.number(4)
        key, value = self.bytes(key_length), self.bytes(value_length)
        return Record(sequence, until, key, value)

    def removal(self):
        sequence, key_length = self.number(8), self.number(2)
        return Record(sequence, None, self.bytes(key_length), None)

    def frame(self):
        records = []
        while tag := self.number(1):
            if tag > 2:
                raise Failed(f"the byte {tag} begins the item before {self.at}")
            records.append(self.put() if tag == 1 else self.removal())
        return Frame(records, self.number(8))


def counted_frames(path):
    """The frames of a data file that count: those up to the first gate that isn't open."""
    data = path.read_bytes()
    if len(data) < 2 or data[0] != 1:
        return []
    reader, frames = Reader(data), []
    is_first = True
    while reader.number(1) == 1:
        if is_first:
            equal(reader.number(1), 1, "the version of the file")
            is_first = False
        frames.append(reader.frame())
    return frames


def check_puts(path, puts, moment):
    """Asks for a file whose counted frames are one for each of these puts, numbered from 1."""
    wanted = [
        Frame([Record(at, NEVER, key, value)], moment)
        for at, (key, value) in enumerate(puts, start=1)
    ]
    equal(counted_frames(path), wanted, f"the counted frames of {path.name}")


def held_in(folder):
    """What a folder's data files say: the value and the expiry under each key, and the mark."""
    newest, mark = {}, 0
    for path in sorted(folder.glob("s0-*.log")):
        for frame in counted_frames(path):
            mark = max(mark, frame.moment)
            for record in frame.records:
                if record.key not in newest or newest[record.key].sequence <= record.sequence:
                    newest[record.key] = record
    held = {key: (it.value, it.until) for key, it in newest.items() if it.value is not None}
    return held, mark


def run_and_kill(arguments, script, answers, wait):
    """Runs the program, and kills it so many seconds after so many answers. It gives the status and what was said.

    A run that ends by itself before isn't killed.
    """
    with tempfile.TemporaryFile() as lines:
        lines.write(script)
        lines.seek(0)
        process = subprocess.Popen(
            [PROGRAM, *arguments],
            stdin=lines,
            stdout=subprocess.PIPE,
            stderr=subprocess.PIPE,
            bufsize=0,
        )
    said, more = b"", b"."
    while more and said.count(b"\n") < 1 + answers:
        more = process.stdout.read(65536)
        said += more
    end = time.monotonic() + wait
    while time.monotonic() < end:
        pass
    process.kill()
    while more := process.stdout.read(65536):
        said += more
    status = process.wait(LIMIT)
    equal(process.stderr.read(), b"", "standard error")
    for stream in (process.stdout, process.stderr):
        stream.close()
    return status, said
