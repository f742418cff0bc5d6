"""Runs that are killed at many points, and what a later run reads then."""

import random
import signal
import time

import support
from support import DONE, Failed, equal

MOMENT = 1000

AT = ["--at", str(MOMENT)]

# How often a run is killed, and how long all of it may take at the most, in seconds.
KILLS, SECONDS = 200, 20

KEYS = [b"moss", b"fern", b"reed"]

# More puts than are mostly done before the longest wait is over.
PUTS = 1000


def puts_of(round):
    """The puts of one round. No two of all rounds have one value."""
    return [
        (KEYS[at * 7 % len(KEYS)], b"%d.%d.%s" % (round, at, b"v" * (at % 97)))
        for at in range(PUTS)
    ]


def lines_of(folder, puts, choice, settings):
    """The lines of some puts, each with its answer and the put that it makes, if it makes one. There are lines `sync`,
    `step index`, `step rotate`, `step compact`, `compact N` and `compact` between them."""
    lines, files = [], support.Files(folder, settings)
    parts = support.Parts(settings, files)
    for put in puts:
        lines.append((b"put %s %s" % put, b"ok", put))
        parts.change(*put, MOMENT)
        parts.answered(MOMENT)
        while choice.random() < 0.15:
            kind = choice.choice(["sync", "sync", "index", "rotate", "rotate", "compact", "compact", "file", "all"])
            if kind == "sync":
                files.seal(MOMENT)
                lines.append((b"sync", b"ok", None))
            elif kind == "file":
                number = files.draw_number(choice)
                lines.append((b"compact %d" % number, parts.compact_file(number, MOMENT), None))
            elif kind == "all":
                lines.append((b"compact", parts.compact_all(MOMENT), None))
            else:
                lines.append((b"step %s" % kind.encode(), parts.step(kind, MOMENT), None))
            parts.answered(MOMENT)
    return lines


def held_after(held, lines):
    """What is held after so many of the lines, for each number of them."""
    after = [dict(held)]
    for _, _, put in lines:
        after.append(dict([*after[-1].items(), put]) if put else after[-1])
    return after


def promised(lines, synced):
    """How many of the lines that were answered are promised."""
    if synced:
        return len(lines)
    return max((at for at, (text, *_) in enumerate(lines, start=1) if text == b"sync"), default=0)


def killed_after(folder, script, answers, wait):
    """Runs a script, and kills the run so many seconds after so many answers. It gives what was said, and whether the run
    ended by itself before."""
    status, said = support.run_and_kill([folder, *AT], script, answers, wait)
    if status not in (DONE, -signal.SIGKILL):
        raise Failed(f"the status is {status}")
    return said, status == DONE


def read_on(folder):
    """What a later run reads of each key, None where there is nothing."""
    status, said, errors = support.run([folder, *AT], b"".join(b"get %s\n" % key for key in KEYS))
    equal((status, errors), (DONE, b""), "status and errors of the later run")
    lines = said.split(b"\n")
    equal((lines[0], lines[-2:]), (b"opened 1000", [b"stopped", b""]), "the first and the last line")
    answers = lines[1:-2]
    equal(len(answers), len(KEYS), "the number of answers")
    return {
        key: None if answer == b"none" else answer.removeprefix(b"value ")
        for key, answer in zip(KEYS, answers)
    }


def test_kills_at_many_points(folder):
    """After a run is killed at any point, a later run reads all keys as after one number of its lines: the answered ones
    or the one in hand too, and where writes aren't synced as many as a sync was answered for at least."""
    choice = random.Random(20)
    end = time.monotonic() + SECONDS
    held = dict.fromkeys(KEYS)
    for round in range(KILLS):
        settings = support.draw_settings(folder, choice)
        lines = lines_of(folder, puts_of(round), choice, settings)
        script = b"".join(text + b"\n" for text, *_ in lines)
        # A run is killed from the first answer on, and by then at any point within a line.
        said, is_done = killed_after(folder, script, choice.randrange(20), choice.random() * 0.002)
        answered = said.count(b"\n") - 1
        answers = [*[answer for _, answer, _ in lines], b"stopped"]
        wanted = [b"opened 1000", *answers[:answered], b""]
        equal(said.split(b"\n"), wanted, "what was said")
        least = promised(lines[:answered], settings.synced or is_done)
        after = held_after(held, lines[: answered + 1])[least:]
        found = read_on(folder)
        if found not in after:
            raise Failed(f"round {round}, {answered} answers: read {found!r}, none of {after!r}")
        held = found
        if time.monotonic() > end:
            break


# The keys of the long script, and how many changes are in each of its halves. The second half has more answers than are
# said before the run is killed, since nothing reads them.
MANY_KEYS, HALF = 1000, 50000


def many_puts(first, count):
    return b"".join(b"put k%d v%d\n" % (at % MANY_KEYS, at) for at in range(first, first + count))


def read_many(folder, rest=b""):
    """Reads every key of the long script, and then does the rest of a script. It gives the numbers of the values."""
    gets = b"".join(b"get k%d\n" % key for key in range(MANY_KEYS))
    status, said, errors = support.run([folder, *AT], gets + rest)
    equal((status, errors), (DONE, b""), "status and errors")
    answers = said.split(b"\n")[1 : 1 + MANY_KEYS]
    return [int(answer.removeprefix(b"value v")) for answer in answers]


def newest_of(count):
    """The number of the last of so many changes to each key."""
    return [key + (count - 1 - key) // MANY_KEYS * MANY_KEYS for key in range(MANY_KEYS)]


def test_long_script(folder):
    """Of 100,000 changes without synced writes, over files of 4,096 bytes, none is lost that a sync was answered for: a
    first run is killed behind the sync between both halves, and a second run does the other half."""
    support.set_folder(folder, "file_size = 4096\nsync_writes = false\npump = 0\n")
    script = many_puts(0, HALF) + b"sync\n" + many_puts(HALF, HALF)
    said, is_done = killed_after(folder, script, HALF + 1, 0)
    equal(is_done, False, "whether the run ended by itself")
    *said, part = said.split(b"\n")
    equal(said, [b"opened 1000"] + [b"ok"] * (len(said) - 1), "what was said")
    found = read_many(folder, many_puts(HALF, HALF))
    count = max(found) + 1
    equal(found, newest_of(count), "what the second run reads")
    equal(HALF <= count < len(said), True, f"whether {count} changes are read after {len(said) - 1} answers")
    equal(read_many(folder), newest_of(2 * HALF), "what a later run reads")
