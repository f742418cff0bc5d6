"""Inputs, outputs and disks that fail."""

import os
import pathlib
import resource
import signal
import subprocess

import support
from support import DAMAGED, DISK_FAILED, DONE, FIRST_FILE, SAY_FAILED, SCRIPT_FAILED, Failed, Skipped
from support import check_names, check_puts, check_run, check_words, equal, set_folder, spelled_file

AT = ["--at", "1000"]

# What is changed of a data file that has one put of `value` under `k`, whose record begins at the offset 2: other bytes at
# an offset, or none, where the file ends there; and the kind of damage that is named.
CHANGES = [
    (2, b"\x03", "tag"),
    (3, b"\xff", "sequence"),
    (11, b"\x7f", "until"),
    (19, b"\x00\x00", "key"),
    (21, b"\x00\x01\x00\x01", "value"),
    (2, b"\x00\xff", "moment"),
    (21, b"\x00\x00\x00\x06", "cut"),
    (30, None, "cut"),
    (0, None, "cut"),
    (21, b"\x00\x00\x00\x04", "place"),
    (2, b"\x00", "place"),
]

# Lines that read the record of `k`, in a run that wrote it or found it.
READS = [b"get k", b"has k", b"remove k", b"putabsent k 1", b"size", b"keys", b"clear"]


class Talk:
    """A run of the program whose script is given line by line."""

    def __init__(self, folder):
        self.process = subprocess.Popen(
            [support.PROGRAM, folder, *AT],
            stdin=subprocess.PIPE,
            stdout=subprocess.PIPE,
            stderr=subprocess.PIPE,
            bufsize=0,
        )

    def hear(self, line):
        equal(self.process.stdout.readline(), line, "the next line said")

    def tell(self, line):
        self.process.stdin.write(line)

    def ask(self, line, answer):
        self.tell(line + b"\n")
        self.hear(answer + b"\n")

    def end(self, status):
        """Waits for the end, and asks for this status and for nothing on standard error."""
        equal(self.process.wait(support.LIMIT), status, "the status")
        equal(self.process.stderr.read(), b"", "standard error")
        for stream in (self.process.stdin, self.process.stdout, self.process.stderr):
            stream.close()


def test_full_output(folder):
    """Where nothing can be said from the first line on, the status is 7 and no put is done."""
    full = pathlib.Path("/dev/full")
    if not full.exists():
        raise Skipped("there is no /dev/full")
    with full.open("wb") as output:
        check_run([folder, *AT], b"put a b\n", SAY_FAILED, None, stdout=output)
    check_names(folder, [])


def test_closed_output(folder):
    """A closed standard output fails as one that is full, and nothing that is said goes into a file."""
    command = 'exec "$@" >&-'
    ran = subprocess.run(
        ["sh", "-c", command, "sh", support.PROGRAM, folder, *AT],
        input=b"put a b\n",
        stderr=subprocess.PIPE,
        timeout=support.LIMIT,
    )
    equal((ran.returncode, ran.stderr), (SAY_FAILED, b""), "status and errors")
    check_names(folder, [])


def test_output_that_fails_later(folder):
    """Where the output fails after some replies, the status is 7, and the file has every put that was answered."""
    talk = Talk(folder)
    talk.hear(b"opened 1000\n")
    for value in [b"1", b"2"]:
        talk.tell(b"put k " + value + b"\n")
        talk.hear(b"ok\n")
    talk.process.stdout.close()
    talk.tell(b"put k 3\n")
    talk.end(SAY_FAILED)
    # The put whose reply failed was done before it was answered.
    check_puts(folder / FIRST_FILE, [(b"k", b"1"), (b"k", b"2"), (b"k", b"3")], 1000)


def test_each_reply_is_said_at_once(folder):
    """Each reply is said before the next line is read, and the end of the input stops the run."""
    talk = Talk(folder)
    talk.hear(b"opened 1000\n")
    for _ in range(3):
        talk.tell(b"put k v\n")
        talk.hear(b"ok\n")
    talk.process.stdin.close()
    talk.hear(b"stopped\n")
    talk.end(DONE)


def test_kill(folder):
    """After the program is killed, the file has every put that was answered."""
    talk = Talk(folder)
    talk.hear(b"opened 1000\n")
    for value in [b"1", b"2", b"3"]:
        talk.tell(b"put k " + value + b"\n")
        talk.hear(b"ok\n")
    talk.process.kill()
    talk.end(-signal.SIGKILL)
    check_puts(folder / FIRST_FILE, [(b"k", b"1"), (b"k", b"2"), (b"k", b"3")], 1000)


def test_input_that_is_a_folder(folder):
    """An input that can't be read is opened and then fails: the status is 6."""
    unread = os.open("/", os.O_RDONLY)
    try:
        check_run([folder, *AT], b"", SCRIPT_FAILED, ["opened 1000"], stdin=unread)
    finally:
        os.close(unread)
    check_names(folder, [])


def test_closed_input(folder):
    """A closed standard input fails as one that can't be read."""
    command = 'exec "$@" <&-'
    ran = subprocess.run(
        ["sh", "-c", command, "sh", support.PROGRAM, folder, *AT],
        stdout=subprocess.PIPE,
        stderr=subprocess.PIPE,
        timeout=support.LIMIT,
    )
    got = (ran.returncode, ran.stdout, ran.stderr)
    equal(got, (SCRIPT_FAILED, b"opened 1000\n", b""), "status, output and errors")
    check_names(folder, [])


def test_folder_without_permission(folder):
    """Where no file can be made, the first put fails: the status is 5 and the put isn't answered."""
    if os.geteuid() == 0:
        raise Skipped("root may write everywhere")
    folder.chmod(0o500)
    check_words(AT, folder, b"put a b\n", DISK_FAILED, ["opened 1000"])
    check_names(folder, [])


def test_disk_that_fills_up(folder):
    """Where the disk takes no more bytes, the status is 5, and the file has exactly the puts that were answered."""
    most = 600

    def limit():
        signal.signal(signal.SIGXFSZ, signal.SIG_IGN)
        resource.setrlimit(resource.RLIMIT_FSIZE, (most, most))

    puts = [(b"k%d" % at, b"v" * 60) for at in range(20)]
    script = b"".join(b"put %s %s\n" % put for put in puts)
    status, said, errors = support.run(
        [folder, *AT], script, preexec_fn=limit, restore_signals=False
    )
    equal((status, errors), (DISK_FAILED, b""), "status and errors")
    lines = said.split(b"\n")
    count = lines.count(b"ok")
    equal(lines, [b"opened 1000", *[b"ok"] * count, b""], "the lines said")
    if not 0 < count < len(puts):
        raise Failed(f"{count} puts were answered, and not some of {len(puts)}")
    check_names(folder, [FIRST_FILE])
    check_puts(folder / FIRST_FILE, puts[:count], 1000)


def change_file(path, at, data):
    """Writes other bytes into a data file, or ends it there, without making another file of it."""
    if data is None:
        os.truncate(path, at)
        return
    with path.open("r+b") as file:
        file.seek(at)
        file.write(data)


def check_damage(folder, at, data, kind, line, is_found):
    """Changes a file under a running session, and asks for the line that names the damage and for its status."""
    folder.mkdir()
    set_folder(folder, "pump = 0\n")
    path = folder / FIRST_FILE
    if is_found:
        path.write_bytes(spelled_file([(b"k", b"value")], 1000))
    talk = Talk(folder)
    talk.hear(b"opened 1000\n")
    if not is_found:
        talk.ask(b"put k value", b"ok")
    change_file(path, at, data)
    left = path.read_bytes()
    talk.ask(line, b"damaged %s 2 %s" % (FIRST_FILE.encode(), kind.encode()))
    talk.end(DAMAGED)
    equal(path.read_bytes(), left, f"the file after {line!r}")
    check_names(folder, [FIRST_FILE, support.SETTINGS_FILE])


def test_damage_under_a_session(folder):
    """Where a data file is changed under a running session, what reads a record that isn't there as it was written names
    the place and what is wrong, and ends the run with status 4: a record that the run wrote, and one that it found."""
    for number, (at, data, kind) in enumerate(CHANGES):
        for is_found in (False, True):
            check_damage(folder / f"kind-{number}-{is_found}", at, data, kind, b"get k", is_found)
    for number, line in enumerate(READS):
        for is_found in (False, True):
            check_damage(folder / f"line-{number}-{is_found}", 2, b"\x03", "tag", line, is_found)


def test_damage_that_a_step_reads(folder):
    """A step of the index reads the older record of its key, and names its damage: asked for by a line, behind an answer,
    and where a full queue wants room."""
    steps = {
        "line": ("pump = 0\n", [(b"put k 2", b"ok")], b"step index"),
        "behind": ("pump = 1\n", [(b"put k 2", b"ok")], None),
        "room": ("pump = 0\nqueue = 1\n", [(b"put k 2", b"ok")], b"put x 3"),
    }
    for name, (settings, rows, line) in steps.items():
        place = folder / name
        place.mkdir()
        set_folder(place, settings)
        (place / FIRST_FILE).write_bytes(spelled_file([(b"k", b"value")], 1000))
        talk = Talk(place)
        talk.hear(b"opened 1000\n")
        change_file(place / FIRST_FILE, 2, b"\x03")
        for asked, answer in rows:
            talk.ask(asked, answer)
        if line is not None:
            talk.tell(line + b"\n")
        talk.hear(b"damaged %s 2 tag\n" % FIRST_FILE.encode())
        talk.end(DAMAGED)


def test_damage_that_nothing_reads(folder):
    """A data file that is changed under a running session isn't looked at as long as no record in it is read."""
    set_folder(folder, "pump = 0\n")
    talk = Talk(folder)
    talk.hear(b"opened 1000\n")
    talk.ask(b"put k value", b"ok")
    talk.ask(b"put other value", b"ok")
    change_file(folder / FIRST_FILE, 2, b"\x03")
    talk.ask(b"get other", b"value value")
    talk.ask(b"get nothing", b"none")
    talk.ask(b"put k 2", b"ok")
    talk.process.stdin.close()
    talk.hear(b"stopped\n")
    talk.end(DONE)
