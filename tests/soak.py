"""Long use of one folder whose files are compacted again and again, by runs that are killed."""

import random
import time

import kills
import support
from support import DONE, Failed, equal

# How long runs are begun, in seconds.
SECONDS = 75

KEYS = [b"k%d" % at for at in range(20)]

# How much longer than its number a value may be.
LENGTHS = [0, 10, 50, 100, 200, 400]

# What tests go by of the settings, which are those of the text.
SETTINGS = support.Settings(True, support.QUEUE, 3, 4096, support.BITS, support.COMPACT_BELOW)
TEXT = f"file_size = {SETTINGS.file_size}\npump = {SETTINGS.pump}\n"

# How often each kind of line is drawn. With `pump = 3` four lines have three turns of compactions behind them, and a file
# with r records takes r + 2 turns. So lines that write nothing have to be about as many as changes: with changes alone, at
# a turn and more for each, files would come faster than they go.
KINDS = {"put": 40, "remove": 10, "get": 55, "stats": 5}

# How many lines are drawn for each run.
LINES = 900

# What each run does first.
FIRST = [b"stats"] + [b"get %s" % key for key in KEYS]


def drawn_lines(round, choice):
    """The lines of one round, each as its kind, a key and a value. No two values of all rounds are the same."""
    kinds = choice.choices(list(KINDS), list(KINDS.values()), k=LINES)
    lengths = choice.choices(LENGTHS, k=LINES)
    return [
        (kind, choice.choice(KEYS), b"%d.%d.%s" % (round, at, b"v" * length))
        for at, (kind, length) in enumerate(zip(kinds, lengths))
    ]


def text_of(kind, key, value):
    if kind == "stats":
        return b"stats"
    return b"put %s %s" % (key, value) if kind == "put" else b"%s %s" % (kind.encode(), key)


def answer_of(value):
    return b"none" if value is None else b"value " + value


def answered(held, drawn):
    """The lines with their answers, where this is held before them, and the changes that they make. A line `stats` has no
    answer here."""
    held, lines = dict(held), []
    for line in drawn:
        kind, key, value = line
        answer, change = None, None
        if kind == "get":
            answer = answer_of(held[key])
        elif kind == "put":
            answer, change = b"ok", (key, value)
        elif kind == "remove":
            answer, change = (b"none", None) if held[key] is None else (b"ok", (key, None))
        if change:
            held[key] = change[1]
        lines.append((text_of(*line), answer, change))
    return lines


def check_space(answer):
    """Asks of an answer to `stats` that the files take less than four times the live bytes and two files' size."""
    words = answer.split(b" ")
    names = [b"stats", b"files", b"bytes", b"live", b"pending", b"held"]
    equal(words[:1] + words[1::2], names, f"the words of {answer!r}")
    size, live = int(words[4]), int(words[6])
    if size >= 4 * live + 2 * SETTINGS.file_size:
        raise Failed(f"the files have {size} bytes, of which {live} are live")


def check_first(said, figures, possible):
    """Asks that a run says first, as far as it does, that it has begun, these figures and a value for each key, as one of
    what is possible has them. It gives the ones that do."""
    heads = [b"opened %d" % kills.MOMENT, figures]
    equal(said[:2], heads[: len(said)], "the first answers")
    check_space(figures)
    read = said[2 : 2 + len(KEYS)]
    found = [held for held in possible if read == [answer_of(held[key]) for key in KEYS[: len(read)]]]
    if not found:
        raise Failed(f"read {read!r} of {KEYS[: len(read)]!r}, as in none of {possible!r}")
    return found


def check_answers(said, lines):
    """Asks for the answers to these lines, as far as they were said, and to the end behind them."""
    for got, (text, wanted, _) in zip(said, [*lines, (b"the end", b"stopped", None)]):
        if text == b"stats":
            check_space(got)
        else:
            equal(got, wanted, f"the answer to {text[:50]!r}")


def figures_of(folder):
    """What `stats` has to say of a folder's files, by a count of its own."""
    return support.Files(folder, SETTINGS).figures()


def killed_round(folder, round, possible, choice):
    """One run, which goes on from one of what is possible and is killed. It gives what is possible then."""
    figures, drawn = figures_of(folder), drawn_lines(round, choice)
    script = b"".join(line + b"\n" for line in [*FIRST, *[text_of(*line) for line in drawn]])
    answers, wait = choice.randrange(len(FIRST) + LINES), choice.random() * 0.003
    said, _ = kills.killed_after(folder, script, answers, wait)
    *said, part = said.split(b"\n")
    equal(part, b"", "what was said behind the last line")
    possible = check_first(said, figures, possible)
    if len(said) < 1 + len(FIRST):
        return possible
    said, lines = said[1 + len(FIRST) :], answered(possible[0], drawn)
    check_answers(said, lines)
    count = min(len(said), LINES)
    return kills.held_after(possible[0], lines[: count + 1])[count:]


def last_run(folder, possible):
    """One run that isn't killed. It reads each key."""
    figures = figures_of(folder)
    status, said, errors = support.run([folder, *kills.AT], b"".join(line + b"\n" for line in FIRST))
    equal((status, errors), (DONE, b""), "status and errors of the last run")
    *said, end, part = said.split(b"\n")
    check_first(said, figures, possible)
    equal((len(said), end, part), (1 + len(FIRST), b"stopped", b""), "the number of answers, and the end")


def check_went(folder):
    """Asks that most of the files that were made are gone."""
    files = support.Files(folder, SETTINGS)
    if files.made < 2 * len(files.sizes):
        raise Failed(f"{len(files.sizes)} of {files.made} data files are left")


def test_soak(folder):
    """Puts and removals over few keys, in runs that are killed one after another, while files are compacted: each run reads
    all keys as after the answered lines of those before, the line in hand done or not, and the files always have less than
    four times the live bytes and two files' size."""
    support.set_folder(folder, TEXT)
    choice, end = random.Random(support.FIRST_SEED), time.monotonic() + SECONDS
    possible, round = [dict.fromkeys(KEYS)], 0
    try:
        while time.monotonic() < end:
            possible = killed_round(folder, round, possible, choice)
            round += 1
        last_run(folder, possible)
        check_went(folder)
    except Failed as why:
        raise Failed(f"seed {support.FIRST_SEED}, round {round}: {why}") from why
