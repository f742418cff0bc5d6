"""Drawn scripts against a plain map, with runs that are killed and folders that are opened again."""

import random
import signal
import time

import support
from support import DONE, NEVER, Failed, equal, held_in

# How long each test goes on to draw scripts, in seconds.
SECONDS = 12

# How many runs are made on one folder, and how many lines the script of each has at the most.
RUNS, LINES = 6, 40

KEYS = [b"a", b"b", b"c", b"\x00", b"%", b"two words", b"\xff\xfe", b"k" * 1024]
VALUES = [b"", b"1", b"2", b" ", b"%.", b"\r\n", bytes(range(256))]

# How the lines begin whose commands have other names here.
BEGINNINGS = {"index": b"step index", "rotate": b"step rotate", "turn": b"step compact", "sweep": b"compact"}

# Lines that are refused whatever stands before them, and how.
REFUSED = [
    (b"", b"refused syntax"),
    (b"put a", b"refused syntax"),
    (b"get  a", b"refused syntax"),
    (b"get a ", b"refused syntax"),
    (b"get %", b"refused syntax"),
    (b"get %4", b"refused syntax"),
    (b"put a b ttl", b"refused syntax"),
    (b"put a b ttl -", b"refused syntax"),
    (b"put a b TTL 5", b"refused syntax"),
    (b"size 1", b"refused syntax"),
    (b"at -1", b"refused syntax"),
    (b"at 2305843009213693952", b"refused syntax"),
    (b"sync x", b"refused syntax"),
    (b"step  rotate", b"refused syntax"),
    (b"step flush", b"refused syntax"),
    (b"stats x", b"refused syntax"),
    (b"compact ", b"refused syntax"),
    (b"compact 4294967296", b"refused syntax"),
    (b"compact -1", b"refused syntax"),
    (b"export", b"refused syntax"),
    (b"remove %.", b"refused key 0"),
    (b"has " + b"k" * 1025, b"refused key 1025"),
    (b"putabsent a " + b"v" * 65537, b"refused value 65537"),
    (b"replaceif a " + b"o" * 65537 + b" " + b"v" * 65538, b"refused value 65537"),
    (b"replace a b ttl 2305843009213693952", b"refused ttl"),
    (b"\r" * 1048578, b"refused long"),
]


def said_token(data):
    """Some bytes as they are said."""
    if not data:
        return b"%."
    return b"".join(b"%c" % it if 33 <= it <= 126 and it != 37 else b"%%%02x" % it for it in data)


class Plain:
    """A plain map with a moment, and the parts of a store that steps work on. Each method answers a command, and tells the
    changes that it made."""

    def __init__(self, folder, entries, moment, settings):
        self.entries, self.moment = dict(entries), moment
        self.files = support.Files(folder, settings)
        self.parts = support.Parts(settings, self.files)

    def seen(self, key):
        """The value of a key, None where it isn't visible."""
        value, until = self.entries.get(key, (None, 0))
        return value if until == NEVER or self.moment < until else None

    def seen_keys(self):
        return sorted(key for key in self.entries if self.seen(key) is not None)

    def change(self, changes):
        for key in sorted(changes, key=lambda key: (self.files.hash(key), key)):
            entry = changes[key]
            self.parts.change(key, entry and entry[0], self.moment)
            if entry is None:
                self.entries.pop(key, None)
            else:
                self.entries[key] = entry

    def written(self, key, value, lifespan):
        return b"ok", {key: (value, NEVER if lifespan is None else self.moment + lifespan)}

    def at(self, moment):
        if moment < self.moment:
            return b"refused past %d" % self.moment, {}
        self.moment = moment
        return b"ok", {}

    def put(self, key, value, lifespan):
        return self.written(key, value, lifespan)

    def putabsent(self, key, value, lifespan):
        return (b"kept", {}) if self.seen(key) is not None else self.written(key, value, lifespan)

    def replace(self, key, value, lifespan):
        return (b"none", {}) if self.seen(key) is None else self.written(key, value, lifespan)

    def replaceif(self, key, old, value, lifespan):
        if self.seen(key) is None:
            return b"none", {}
        return self.written(key, value, lifespan) if self.seen(key) == old else (b"differs", {})

    def get(self, key):
        value = self.seen(key)
        return (b"none" if value is None else b"value " + said_token(value)), {}

    def has(self, key):
        return (b"no" if self.seen(key) is None else b"yes"), {}

    def remove(self, key):
        return (b"none", {}) if self.seen(key) is None else (b"ok", {key: None})

    def removeif(self, key, old):
        if self.seen(key) is None:
            return b"none", {}
        return (b"ok", {key: None}) if self.seen(key) == old else (b"differs", {})

    def size(self):
        return b"size %d" % len(self.seen_keys()), {}

    def keys(self):
        return b" ".join([b"keys", *map(said_token, self.seen_keys())]), {}

    def clear(self):
        keys = self.seen_keys()
        return b"cleared %d" % len(keys), dict.fromkeys(keys)

    def sync(self):
        self.files.seal(self.moment)
        return b"ok", {}

    def stats(self):
        self.parts.count()
        return self.files.figures(), {}

    def index(self):
        return self.parts.step("index", self.moment), {}

    def rotate(self):
        return self.parts.step("rotate", self.moment), {}

    def turn(self):
        return self.parts.step("compact", self.moment), {}

    def compact(self, number):
        return self.parts.compact_file(number, self.moment), {}

    def sweep(self):
        return self.parts.compact_all(self.moment), {}

    def stop(self):
        return b"stopped", {}

    def halt(self):
        return b"halted", {}


class Drawn:
    """Draws lines: each with its text, and what it asks of a plain map."""

    def __init__(self, seed):
        self.choice = random.Random(seed)

    def token(self, data):
        """Some bytes as a token: each byte that may stand for itself does so mostly."""
        if not data:
            return b"%."
        return b"".join(map(self.piece, data))

    def piece(self, byte):
        if 33 <= byte <= 126 and byte != 37 and self.choice.random() < 0.9:
            return b"%c" % byte
        return (b"%%%02X" if self.choice.random() < 0.5 else b"%%%02x") % byte

    def key(self):
        return self.choice.choice(KEYS)

    def value(self):
        drawn = self.choice.random()
        if drawn < 0.8:
            return self.choice.choice(VALUES)
        return self.choice.randbytes(self.choice.randrange(3000 if drawn > 0.98 else 20))

    def lifespan(self):
        """A lifespan and the words that give it."""
        drawn = self.choice.random()
        if drawn < 0.5:
            return None, []
        if drawn < 0.6:
            return None, [b"ttl", b"-%d" % self.choice.randrange(100)]
        units = self.choice.choice([0, 1, 2, 5, 10, 2**61 - 1])
        return units, [b"ttl", b"%d" % units]

    def arguments(self, name, plain):
        """What stands behind a command's name, as words and as it is meant."""
        if name == "at":
            wanted = max(0, plain.moment + self.choice.randrange(-3, 6))
            return [b"%d" % wanted], [wanted]
        if name == "compact":
            number = plain.files.draw_number(self.choice)
            return [self.choice.choice([b"%d", b"%d", b"%020d"]) % number], [number]
        if name in ("size", "keys", "clear", "sync", "stats", "index", "rotate", "turn", "sweep", "stop", "halt"):
            return [], []
        given = [self.key()]
        if name in ("replaceif", "removeif"):
            given.append(self.choice.choice(VALUES))
        if name in ("get", "has", "remove", "removeif"):
            return list(map(self.token, given)), given
        given.append(self.value())
        lifespan, words = self.lifespan()
        return [*map(self.token, given), *words], [*given, lifespan]

    def name(self):
        """The name of a command. Those that end the talk are rare."""
        drawn = self.choice.random()
        if drawn < 0.02:
            return self.choice.choice(["stop", "halt"])
        if drawn < 0.15:
            return self.choice.choice(["size", "keys", "clear"])
        if drawn < 0.3:
            steps = ["index", "index", "index", "rotate", "rotate", "turn", "turn", "turn", "turn"]
            return self.choice.choice(["sync", "sync", "stats", "stats", *steps, "compact", "compact", "sweep"])
        kept = ["put", "putabsent", "replace", "replaceif", "get", "has", "remove", "removeif", "at"]
        return self.choice.choice(kept)

    def lines(self, plain):
        """The lines of a script, each with its answer, the changes that it makes and the moment by then."""
        done = []
        for _ in range(self.choice.randrange(1, LINES)):
            if self.choice.random() < 0.05:
                text, answer = self.choice.choice(REFUSED)
                changes = {}
            else:
                name = self.name()
                words, given = self.arguments(name, plain)
                text = b" ".join([BEGINNINGS.get(name, name.encode()), *words])
                answer, changes = getattr(plain, name)(*given)
                plain.change(changes)
            plain.parts.answered(plain.moment)
            done.append((text, answer, changes, plain.moment))
        return done

    def script(self, lines):
        """The text of a script: some lines end with a carriage return, and the last one may lack its line feed."""
        ends = [b"\r\n" if self.choice.random() < 0.1 else b"\n" for _ in lines]
        script = b"".join(text + end for (text, *_), end in zip(lines, ends))
        # An empty last line without its line feed is no line.
        return script[:-1] if lines[-1][0] and self.choice.random() < 0.2 else script


def answered(lines):
    """The answers up to one that ends the talk, and the answer to the end of the script where it is met."""
    answers = []
    for _, answer, *_ in lines:
        answers.append(answer)
        if answer in (b"stopped", b"halted"):
            return answers
    return [*answers, b"stopped"]


def whole_run(folder, drawn):
    """One run to its end on a folder, whatever it holds."""
    held, mark = held_in(folder)
    settings = support.draw_settings(folder, drawn.choice)
    given = drawn.choice.randrange(20)
    lines = drawn.lines(Plain(folder, held, max(given, mark), settings))
    status, said, errors = support.run([folder, "--at", str(given)], drawn.script(lines))
    equal((status, errors), (DONE, b""), "status and errors")
    answers = answered(lines)
    wanted = [b"opened %d" % max(given, mark), *answers, b""]
    asked = [b"", *[text for text, *_ in lines], b"", b""]
    for text, got, want in zip(asked, said.split(b"\n"), wanted):
        equal(got, want, f"the answer to {text[:200]!r}")
    equal(said.count(b"\n"), len(wanted) - 1, "the number of answers")
    check_left(folder, held, mark, lines[: len(answers)], answers, settings.synced)


def after(held, lines):
    """The entries after so many of the lines, for each number of them."""
    entries = [dict(held)]
    for _, _, changes, _ in lines:
        entries.append({**entries[-1], **changes})
    return entries


def promised(lines, synced):
    """How many of the lines that were answered are promised."""
    if synced:
        return len(lines)
    return max((at for at, (text, *_) in enumerate(lines, start=1) if text == b"sync"), default=0)


def killed_run(folder, drawn):
    """One run on a folder that is killed at some point. What the files have then fits what was answered."""
    held, mark = held_in(folder)
    settings = support.draw_settings(folder, drawn.choice)
    given = drawn.choice.randrange(20)
    lines = drawn.lines(Plain(folder, held, max(given, mark), settings))
    words = [folder, "--at", str(given)]
    least, wait = drawn.choice.randrange(len(lines) + 1), drawn.choice.random() * 0.003
    status, said = support.run_and_kill(words, drawn.script(lines), least, wait)
    if status not in (DONE, -signal.SIGKILL):
        raise Failed(f"the status is {status}")
    *said, part = said.split(b"\n")
    answers = answered(lines)
    wanted = [b"opened %d" % max(given, mark), *answers, b""]
    equal(said, wanted[: len(said)], "what was said")
    # Of an answer that is longer than what the output takes at once a part may have been said.
    equal(part, wanted[len(said)][: len(part)], "the part of an answer")
    check_left(folder, held, mark, lines[: len(answers)], said[1:], settings.synced)


def check_left(folder, held, mark, lines, answers, synced):
    """Asks what the files have after these answers, with the next line in hand: all keys have what they had after one
    number of lines, no less than are promised. Of the keys of one `clear` any may be removed first."""
    found, found_mark = held_in(folder)
    count = len(answers)
    least = promised(lines[:count], synced or answers[-1:] == [b"stopped"])
    entries = after(held, lines[: count + 1])
    cuts = zip(entries[least:], [*entries[least + 1 :], entries[-1]])
    keys = {*found, *entries[-1]}
    if not any(all(found.get(key) in (one.get(key), other.get(key)) for key in keys) for one, other in cuts):
        raise Failed(f"after {count} answers the files have {found!r}, which is after no number of lines from {least} on")
    # A compaction may leave a later mark than the changes do.
    changed = [moment for _, _, changes, moment in lines[:count] if changes]
    lowest = max([mark, *changed]) if synced else mark
    highest = max([mark, *[moment for _, _, _, moment in lines[: count + 1]]])
    if not lowest <= found_mark <= highest:
        raise Failed(f"after {count} answers the mark is {found_mark}, not from {lowest} to {highest}")


def draw_folders(folder, take_run, seconds=SECONDS):
    """Draws folders with some runs on each, until the time is over. Where one fails, its seed is named."""
    end = time.monotonic() + seconds
    seed = support.FIRST_SEED
    while time.monotonic() < end:
        place = folder / str(seed)
        place.mkdir()
        drawn = Drawn(seed)
        try:
            for _ in range(RUNS):
                take_run(place, drawn)
        except Failed as why:
            raise Failed(f"seed {seed}: {why}") from why
        seed += 1


def test_drawn_scripts(folder):
    """Drawn scripts are answered as a plain map answers them, by one run after another on the same folder."""
    draw_folders(folder, whole_run)


def test_drawn_kills(folder):
    """After a run is killed at any point, all keys read as after one number of its lines: the answered ones or the one in
    hand too, and where writes aren't synced as many as a sync was answered for at least. The next run goes on from there."""

    def take_run(place, drawn):
        killed_run(place, drawn)
        whole_run(place, drawn)

    draw_folders(folder, take_run)
