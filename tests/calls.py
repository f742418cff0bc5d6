"""The calls of the platform that the program makes, and what it does where they are disturbed."""

import collections
import os

import support
import tracer
from support import DISK_FAILED, DONE, FIRST_FILE, SAY_FAILED, SETTINGS_FILE, check_names, equal, log_name

AT = ["--at", "1000"]


def calls_of(folder, script, *disturb):
    """Runs the program on a script, and gives its status, its output, and its calls on the folder and its output."""
    # The launcher becomes the program, so that what the launcher starts besides isn't traced.
    command = [support.PROGRAM, folder, *AT]
    status, said, errors, calls = tracer.run(command, script, *disturb)
    equal(errors, b"", "standard error")
    return status, said, [call for call in calls if is_seen(call, folder)]


def file_of(path, folder):
    """What a path is called within the folder, None where it isn't the folder's."""
    if path is None:
        return None
    if path.rstrip("/") == str(folder):
        return "folder"
    return path[len(f"{folder}/") :] if path.startswith(f"{folder}/") else None


def says(call):
    return call.name == "write" and call.handle == 1


def is_seen(call, folder):
    return says(call) or file_of(call.path, folder) is not None


def shown(call, folder):
    """A call as a short text, None where it changes nothing and opens nothing but the list of the names."""
    if says(call):
        return f"say {call.data!r}"
    file = file_of(call.path, folder)
    if call.name == "openat":
        if call.number & os.O_DIRECTORY:
            return None
        makes = call.number & os.O_CREAT and call.number & os.O_EXCL
        return f"make {file}" if makes else f"open {file}"
    if call.name == "pwrite64":
        return f"write {call.data.hex()} at {call.number} of {file}"
    if call.name in ("fsync", "fdatasync"):
        return f"sync {file}"
    return None if call.name in ("read", "pread64", "close", "statx", "getdents64") else f"{call.name} {file}"


def shown_calls(folder, script):
    status, _, calls = calls_of(folder, script)
    equal(status, DONE, "the status")
    return [text for text in (shown(call, folder) for call in calls) if text]


def test_calls_of_puts(folder):
    """The data file is made and opened once, and a put costs three writes and two syncs, the
    gate's behind the frame's; the first put writes the version byte besides."""
    calls = shown_calls(folder, b"put a b\nput c d\n")
    check_names(folder, [FIRST_FILE])
    end = "00" + "00000000000003e8" + "00"
    records = [
        "01" + "0000000000000001" + "f" * 16 + "0001" + "00000001" + "61" + "62",
        "01" + "0000000000000002" + "f" * 16 + "0001" + "00000001" + "63" + "64",
    ]
    wanted = [
        "open folder",
        "sync folder",
        r"say b'opened 1000\n'",
        f"make {FIRST_FILE}",
        f"write 00 at 0 of {FIRST_FILE}",
        f"sync {FIRST_FILE}",
        "sync folder",
        f"write 01 at 1 of {FIRST_FILE}",
        f"write {records[0]} at 2 of {FIRST_FILE}",
        f"write {end} at 27 of {FIRST_FILE}",
        f"sync {FIRST_FILE}",
        f"write 01 at 0 of {FIRST_FILE}",
        f"sync {FIRST_FILE}",
        r"say b'ok\n'",
        f"write {records[1]} at 37 of {FIRST_FILE}",
        f"write {end} at 62 of {FIRST_FILE}",
        f"sync {FIRST_FILE}",
        f"write 01 at 36 of {FIRST_FILE}",
        f"sync {FIRST_FILE}",
        r"say b'ok\n'",
        r"say b'stopped\n'",
    ]
    equal(calls, wanted, "the calls")


def test_calls_of_puts_without_syncs(folder):
    """Where changes aren't synced at once a put costs one write and no sync, the first of a file aside; a sync ends the
    frame, and costs nothing where nothing waits for it."""
    (folder / SETTINGS_FILE).write_bytes(b"sync_writes = false\n")
    calls = shown_calls(folder, b"put a b\nput c d\nsync\nsync\n")
    wanted = [
        f"open {SETTINGS_FILE}",
        "open folder",
        "sync folder",
        r"say b'opened 1000\n'",
        f"make {FIRST_FILE}",
        f"write 00 at 0 of {FIRST_FILE}",
        f"sync {FIRST_FILE}",
        "sync folder",
        f"write 01 at 1 of {FIRST_FILE}",
        f"write 010000000000000001ffffffffffffffff0001000000016162 at 2 of {FIRST_FILE}",
        r"say b'ok\n'",
        f"write 010000000000000002ffffffffffffffff0001000000016364 at 27 of {FIRST_FILE}",
        r"say b'ok\n'",
        f"write 0000000000000003e800 at 52 of {FIRST_FILE}",
        f"sync {FIRST_FILE}",
        f"write 01 at 0 of {FIRST_FILE}",
        f"sync {FIRST_FILE}",
        r"say b'ok\n'",
        r"say b'ok\n'",
        r"say b'stopped\n'",
    ]
    equal(calls, wanted, "the calls")


def test_calls_of_reads(folder):
    """A read of a key reads its record by one call, whether the index has it or not; a key that isn't there reads nothing; and
    a step of the index reads the older record of its key."""
    (folder / SETTINGS_FILE).write_bytes(b"pump = 0\n")
    script = b"put a b\nget a\nstep index\nget a\nget c\nput a 22\nget a\nstep index\nget a\n"
    status, _, calls = calls_of(folder, script)
    equal(status, DONE, "the status")
    told = [call for call in calls if says(call) or call.name == "pread64" and file_of(call.path, folder) == FIRST_FILE]
    steps = [shown(call, folder) or f"read {call.answer}" for call in told]
    wanted = [
        r"say b'opened 1000\n'",
        r"say b'ok\n'",
        "read 25",
        r"say b'value b\n'",
        r"say b'done\n'",
        "read 25",
        r"say b'value b\n'",
        r"say b'none\n'",
        r"say b'ok\n'",
        "read 26",
        r"say b'value 22\n'",
        "read 25",
        r"say b'done\n'",
        "read 26",
        r"say b'value 22\n'",
        r"say b'stopped\n'",
    ]
    equal(steps, wanted, "what is read and said")


def write_files(folder, count):
    """So many data files, each with a put of a key of its own."""
    for number in range(1, count + 1):
        put = (b"k%d" % number, b"v%d" % number)
        (folder / log_name(number)).write_bytes(support.spelled_file([put], 1000, number))


def test_calls_of_an_opening(folder):
    """The settings file is looked for, and then each data file is opened, synced and read once, in the order of their
    numbers, however many there are."""
    count = 200
    write_files(folder, count)
    status, said, calls = calls_of(folder, b"")
    equal((status, said), (DONE, b"opened 1000\nstopped\n"), "the status and what is said")
    of_each = ("openat", "fdatasync", "statx", "pread64")
    wanted = [(name, log_name(number)) for number in range(1, count + 1) for name in of_each]
    wanted.insert(0, ("statx", SETTINGS_FILE))
    is_file = [(call.name, file_of(call.path, folder)) for call in calls if not says(call)]
    got = [(name, file) for name, file in is_file if file != "folder" and name != "close"]
    equal(got, wanted, "the calls on the files")
    equal(is_file.count(("fsync", "folder")), 1, "how often the names are synced")


class Disturber:
    """Answers a fault in the place of the first so many calls of each kind on each file, those that match alone."""

    def __init__(self, folder, fault, times, matches=lambda call: True):
        self.folder, self.fault, self.times, self.matches = folder, fault, times, matches
        self.counts = collections.Counter()

    def __call__(self, call):
        # A file is closed by a signal's interrupt too.
        if call.name == "close" or not is_seen(call, self.folder) or not self.matches(call):
            return None
        kind = (call.name, call.path)
        self.counts[kind] += 1
        return self.fault if self.counts[kind] <= self.times else None


SCRIPT = b"put a 1\nget k7\nremove k3\nput k5 2\nkeys\nsize\n"


def test_interrupted_calls(folder):
    """Calls of every kind that signals interrupt are made again: what is said and written stays the same."""
    plain, disturbed = folder / "plain", folder / "disturbed"
    outcomes = []
    for place, times in ((plain, 0), (disturbed, 3)):
        place.mkdir()
        write_files(place, 10)
        disturber = Disturber(place, tracer.INTERRUPTED, times)
        status, said, _ = calls_of(place, SCRIPT, disturber)
        files = {path.name: path.read_bytes() for path in place.iterdir()}
        kinds = {name for name, _ in disturber.counts}
        outcomes.append((status, said, files, kinds))
    equal(outcomes[1], outcomes[0], "the status, what is said, the files and the kinds of calls")
    equal(outcomes[0][0], DONE, "the status")
    wanted = {"openat", "getdents64", "fdatasync", "fsync", "statx", "pread64", "pwrite64", "write"}
    equal(outcomes[0][3], wanted, "the kinds of calls")


def test_calls_that_are_always_interrupted(folder):
    """A call that signals interrupt each time ends in the end, and the run with it."""
    rows = [("getdents64", DISK_FAILED), ("statx", DISK_FAILED), ("pread64", DISK_FAILED), ("write", SAY_FAILED)]
    for name, wanted in rows:
        place = folder / name
        place.mkdir()
        write_files(place, 1)
        disturber = Disturber(place, tracer.INTERRUPTED, 10**9, lambda call: call.name == name)
        status, said, _ = calls_of(place, b"", disturber)
        equal((status, said), (wanted, b""), f"the status and what is said where {name} is interrupted")


def test_too_many_open_files(folder):
    """Where too many files are open, some that are kept are closed and the call is made again; where it stays so, the
    disk failed."""
    rows = [(0, DONE, b"opened 1000\nvalue v90\nstopped\n"), (3, DONE, b"opened 1000\nvalue v90\nstopped\n")]
    for times, wanted, output in [*rows, (10**9, DISK_FAILED, b"")]:
        place = folder / str(times)
        place.mkdir()
        write_files(place, 100)
        # While 64 files are kept, and then for each file.
        is_late = lambda call: call.name == "openat" and call.path.endswith("90.log")
        status, said, _ = calls_of(place, b"get k90\n", Disturber(place, tracer.TOO_MANY_FILES, times, is_late))
        equal((status, said), (wanted, output), f"the status and what is said after {times} refusals")
