"""Worked scripts whose every answer is known from elsewhere."""

from support import DONE, FIRST_FILE, SETTINGS_FILE
from support import check_names, check_words, counted_frames, equal, log_name, set_folder

KEY, VALUE = b"a" * 1024, b"b" * 65536


def check_answers(folder, moment, rows, opened=None):
    """Runs a script at a moment, and asks for the answer to each of its lines. It begins at that moment or another one."""
    script = b"".join(line + b"\n" for line, _ in rows)
    said = [f"opened {moment if opened is None else opened}", *[answer for _, answer in rows], "stopped"]
    check_words(["--at", str(moment)], folder, script, DONE, said)


def test_lifespan(folder):
    """An entry is visible before the moment at which it expires, and not from then on."""
    check_answers(folder, 1000, [
        (b"put k v ttl 10", "ok"),
        (b"at 1009", "ok"),
        (b"get k", "value v"),
        (b"at 1010", "ok"),
        (b"get k", "none"),
    ])


def test_moment_that_goes_back(folder):
    """The moment never falls: an earlier one is refused with the present one."""
    check_answers(folder, 3, [(b"at 9", "ok"), (b"at 5", "refused past 9"), (b"at 9", "ok")])


def test_greatest_lengths(folder):
    """The greatest key and value are taken, one byte more is refused, and a later run begins at the mark."""
    check_answers(folder, 1000, [
        (b"put " + KEY + b" " + VALUE, "ok"),
        (b"put " + KEY + b"a x", "refused key 1025"),
        (b"put x " + VALUE + b"b", "refused value 65537"),
    ])
    said = ["opened 1000", f"value {VALUE.decode()}", "stopped"]
    check_words(["--at", "5"], folder, b"get " + KEY + b"\n", DONE, said)


def test_each_refusal(folder):
    """Each refusal is said where its limit is passed, and a refused line changes nothing."""
    check_answers(folder, 1000, [
        (b"put", "refused syntax"),
        (b"get %.", "refused key 0"),
        (b"put a b ttl 2305843009213693952", "refused ttl"),
        (b"at 2305843009213693952", "refused syntax"),
        (b"put a b ttl -7", "ok"),
        (b"x" * 1048577, "refused long"),
        (b"get a", "value b"),
        (b"put a b ttl 0", "ok"),
        (b"get a", "none"),
    ])


def test_each_command(folder):
    """Each command is answered as by a plain map, with keys and values of any bytes."""
    check_answers(folder, 1000, [
        (b"putabsent a 1", "ok"),
        (b"putabsent a 2", "kept"),
        (b"replace a 3", "ok"),
        (b"replace b 1", "none"),
        (b"replaceif a 1 9", "differs"),
        (b"replaceif a 3 4", "ok"),
        (b"has a", "yes"),
        (b"has b", "no"),
        (b"removeif a 3", "differs"),
        (b"removeif b 3", "none"),
        (b"removeif a 4", "ok"),
        (b"remove a", "none"),
        (b"put x %00%20", "ok"),
        (b"get x", "value %00%20"),
        (b"put y %.", "ok"),
        (b"get y", "value %."),
        (b"keys", "keys x y"),
        (b"size", "size 2"),
        (b"clear", "cleared 2"),
        (b"size", "size 0"),
    ])


def check_files(folder, sizes):
    """Asks for data files of these sizes, by their numbers, and the settings file."""
    check_names(folder, [SETTINGS_FILE, *map(log_name, sizes)])
    for number, size in sizes.items():
        equal((folder / log_name(number)).stat().st_size, size, f"the size of {log_name(number)}")


def check_sizes(folder, sizes):
    """Asks for data files of these sizes, from the first one on, and the settings file."""
    check_files(folder, dict(enumerate(sizes, start=1)))


def test_writes_that_are_not_synced(folder):
    """Without synced writes a put counts from the next sync on."""
    set_folder(folder, "sync_writes = false\npump = 0\n")
    script = b"put k v1\nsync\nput k v2\nhalt\n"
    check_words(["--at", "1000"], folder, script, DONE, ["opened 1000", "ok", "ok", "ok", "halted"])
    check_sizes(folder, [64])
    check_answers(folder, 1000, [(b"get k", "value v1")])


def test_full_files(folder):
    """A file is filled to the size that is set, and not beyond."""
    set_folder(folder, "file_size = 4096\npump = 0\n")
    check_answers(folder, 1000, [
        (b"put k " + b"a" * 4000, "ok"),
        (b"put k " + b"b" * 26, "ok"),
        (b"put k c", "ok"),
    ])
    check_sizes(folder, [4096, 37])


def test_files_that_are_closed(folder):
    """A file is closed where there is one."""
    set_folder(folder, "pump = 0\n")
    check_answers(folder, 1000, [
        (b"step rotate", "idle"),
        (b"put a b", "ok"),
        (b"step rotate", "done"),
        (b"step rotate", "idle"),
    ])
    check_sizes(folder, [37])


def test_steps_behind_answers(folder):
    """Background steps leave a line nothing to do where they did its work, and change no other answer, and no file where
    none has few live bytes. With one behind each answer a turn of a compaction follows the third, and takes what waits for
    the index."""
    for pump, indexed in ((0, "done"), (1, "idle"), (2, "idle"), (5, "idle"), (1000, "idle")):
        place = folder / str(pump)
        place.mkdir()
        set_folder(place, f"pump = {pump}\n")
        check_answers(place, 1000, [
            (b"step index", "idle"),
            (b"put a b", "ok"),
            (b"step rotate", "done"),
            (b"step index", indexed),
            (b"put", "refused syntax"),
            (b"get a", "value b"),
            (b"at 999", "refused past 1000"),
            (b"step index", "idle"),
            (b"step rotate", "idle"),
        ])
        check_sizes(place, [37])


def test_queue_of_one(folder):
    """Where the queue is full a change has one request taken first, so that one waits behind it."""
    set_folder(folder, "queue = 1\npump = 0\n")
    check_answers(folder, 1000, [
        (b"put a 1", "ok"),
        (b"put b 2", "ok"),
        (b"get a", "value 1"),
        (b"step index", "done"),
        (b"step index", "idle"),
        (b"get b", "value 2"),
    ])


def test_reads_around_index_steps(folder):
    """A key reads as its newest change, whether the index has it, an older one, or none."""
    set_folder(folder, "pump = 0\n")
    check_answers(folder, 1000, [
        (b"put a 1", "ok"),
        (b"get a", "value 1"),
        (b"step index", "done"),
        (b"get a", "value 1"),
        (b"put a 2", "ok"),
        (b"get a", "value 2"),
        (b"remove a", "ok"),
        (b"step index", "done"),
        (b"get a", "none"),
        (b"keys", "keys"),
        (b"step index", "done"),
        (b"step index", "idle"),
        (b"get a", "none"),
        (b"keys", "keys"),
    ])


def counts(files, size, live):
    """The answer to `stats` with these figures."""
    return f"stats files {files} bytes {size} live {live} pending 0 held 0"


def test_counts_of_files(folder):
    """What is live is the newest record of each key, a removal or an expired put too. The figures are the same whatever
    waits for the index, which a count empties, and in a later run."""
    for pump, queue in ((0, 64), (0, 1), (1, 64), (1000, 64)):
        place = folder / f"{pump}-{queue}"
        place.mkdir()
        # No file has fewer live bytes than one percent, so that none is compacted.
        set_folder(place, f"pump = {pump}\nqueue = {queue}\ncompact_below = 1\n")
        check_answers(place, 1000, [
            (b"stats", counts(0, 0, 0)),
            (b"put a x", "ok"),
            (b"stats", counts(1, 37, 25)),
            (b"step index", "idle"),
            (b"put a y", "ok"),
            (b"stats", counts(1, 72, 25)),
            (b"put b zz ttl 5", "ok"),
            (b"at 1005", "ok"),
            (b"get b", "none"),
            (b"stats", counts(1, 108, 51)),
            (b"step rotate", "done"),
            (b"put", "refused syntax"),
            (b"stats", counts(1, 108, 51)),
            (b"remove a", "ok"),
            (b"stats", counts(2, 132, 38)),
        ])
        check_sizes(place, [108, 24])
        check_answers(place, 5, [(b"stats", counts(2, 132, 38))], opened=1005)


def test_counts_of_unsealed_records(folder):
    """A record that isn't sealed yet is live where it is its key's newest, and its bytes are the file's."""
    set_folder(folder, "sync_writes = false\n")
    check_answers(folder, 1000, [
        (b"put k v1", "ok"),
        (b"stats", counts(1, 28, 26)),
        (b"sync", "ok"),
        (b"put k v2", "ok"),
        (b"stats", counts(1, 64, 26)),
        (b"put k v3", "ok"),
        (b"stats", counts(1, 90, 26)),
        (b"step rotate", "done"),
        (b"stats", counts(1, 100, 26)),
    ])
    check_sizes(folder, [100])


def test_compaction_line_by_line(folder):
    """Each turn of a compaction takes one action: two records are passed over, two are copied, the log needs no stamp, and
    the file goes. A put between them is newer than the copy of its key."""
    set_folder(folder, "pump = 0\n")
    check_answers(folder, 1000, [
        *[(b"put a x", "ok")] * 3,
        (b"put k v1", "ok"),
        (b"step rotate", "done"),
        *[(b"step index", "done")] * 4,
        *[(b"step compact", "done")] * 4,
        (b"put k v2", "ok"),
        *[(b"step index", "done")] * 3,
        (b"step index", "idle"),
        (b"get k", "value v2"),
        *[(b"step compact", "done")] * 2,
        (b"step compact", "idle"),
        (b"stats", counts(1, 89, 51)),
    ])
    check_files(folder, {2: 89})
    check_answers(folder, 5, [(b"get a", "value x"), (b"get k", "value v2"), (b"step compact", "idle")], opened=1000)


def test_compaction_behind_answers(folder):
    """Background steps compact a file that has few live bytes, and change no answer."""
    set_folder(folder, "pump = 1000\n")
    check_answers(folder, 1000, [(b"put a b", "ok"), (b"step rotate", "done"), (b"put a c", "ok"), (b"get a", "value c")])
    check_files(folder, {2: 37})
    check_answers(folder, 1000, [(b"get a", "value c")])


def test_compaction_of_named_files(folder):
    """A file that is named is compacted whole, and no file where none that is closed has the number. The removal stays,
    and the stamp behind it has a file of its own."""
    set_folder(folder, "pump = 0\n")
    check_answers(folder, 1000, [
        (b"put k v1", "ok"),
        (b"step rotate", "done"),
        (b"remove k", "ok"),
        (b"step rotate", "done"),
        (b"compact 1", "done"),
        (b"compact 1", "idle"),
        (b"compact 9", "idle"),
    ])
    check_files(folder, {2: 24, 3: 12})
    moment = (1000).to_bytes(8, "big")
    removal = b"\x02" + (2).to_bytes(8, "big") + b"\x00\x01k"
    equal((folder / log_name(2)).read_bytes(), b"\x01\x01" + removal + b"\x00" + moment + b"\x00", "the second file")
    equal((folder / log_name(3)).read_bytes(), b"\x01\x01\x00" + moment + b"\x00", "the third file")


def test_files_that_are_named_beside_a_compaction(folder):
    """A line that names a file ends the compaction that is under way, and empties the queue, also where it is idle. The
    file that is written isn't compacted, unless that end has closed it."""
    set_folder(folder, "pump = 0\nfile_size = 4096\n")
    ones, twos, threes = b"1" * 2000, b"2" * 1500, b"3" * 3000
    check_answers(folder, 1000, [
        (b"put a " + ones, "ok"),
        (b"compact 1", "idle"),
        (b"step index", "idle"),
        (b"put b " + twos, "ok"),
        (b"step rotate", "done"),
        (b"put a " + threes, "ok"),
        (b"compact 2", "idle"),
        (b"step compact", "done"),
        # Its other record doesn't fit behind the one in the second file any more.
        (b"compact 2", "done"),
        (b"step index", "done"),
        (b"step index", "idle"),
        (b"compact 0", "idle"),
        (b"compact 1", "idle"),
        (b"compact 4", "idle"),
        (b"compact 4294967295", "idle"),
        (b"compact 4294967296", "refused syntax"),
        (b"get a", f"value {threes.decode()}"),
        (b"get b", f"value {twos.decode()}"),
        (b"stats", counts(2, 4572, 4548)),
    ])
    check_files(folder, {3: 1536, 4: 3036})
    check_answers(folder, 1000, [
        (b"put c 5", "ok"),
        (b"step rotate", "done"),
        (b"put c 6", "ok"),
        (b"step compact", "done"),
        (b"compact 5", "idle"),
        (b"step index", "idle"),
        (b"step compact", "idle"),
        (b"keys", "keys a b c"),
    ])
    check_files(folder, {3: 1536, 4: 3036, 6: 37})


def test_compaction_of_all_files(folder):
    """All files are compacted, the one that was written too: what is left are the newest records, in one new file. The
    last of them had two records, so two requests wait for the index then."""
    set_folder(folder, "pump = 0\n")
    check_answers(folder, 1000, [
        (b"compact", "compacted"),
        (b"stats", counts(0, 0, 0)),
        (b"put a 1", "ok"),
        (b"put b 2", "ok"),
        (b"put a 3", "ok"),
        (b"step rotate", "done"),
        (b"put c 4", "ok"),
        (b"remove b", "ok"),
        (b"compact", "compacted"),
        (b"step index", "done"),
        (b"step index", "done"),
        (b"step index", "idle"),
        (b"stats", counts(1, 84, 62)),
        (b"get a", "value 3"),
        (b"get b", "none"),
        (b"keys", "keys a c"),
    ])
    check_files(folder, {3: 84})
    check_answers(folder, 1000, [(b"compact", "compacted"), (b"get a", "value 3"), (b"get b", "none"), (b"get c", "value 4")])
    check_files(folder, {4: 74})
    check_answers(folder, 1000, [(b"keys", "keys a c")])


def test_compaction_of_all_files_beside_one(folder):
    """The compaction that is under way is ended first: its copies are in a file that is compacted too. Nothing is under way
    behind the line, and what it says is sealed."""
    set_folder(folder, "pump = 0\nsync_writes = false\n")
    script = b"put a 1\nput b 2\nput a 3\nstep rotate\nput a 4\nstep compact\nstep compact\ncompact\nstep compact\nstats\nhalt\n"
    answers = ["opened 1000", "ok", "ok", "ok", "done", "ok", "done", "done", "compacted", "idle", counts(1, 62, 50), "halted"]
    check_words(["--at", "1000"], folder, script, DONE, answers)
    check_files(folder, {3: 62})
    check_answers(folder, 1000, [(b"get a", "value 4"), (b"get b", "value 2")])


def test_removal_of_one_hash(folder):
    """A key that was removed isn't there, and another one with the same hash is."""
    set_folder(folder, "hash_bits = 0\n")
    check_answers(folder, 1000, [
        (b"put a 1", "ok"),
        (b"put b 2", "ok"),
        (b"remove a", "ok"),
        (b"get a", "none"),
        (b"get b", "value 2"),
        (b"keys", "keys b"),
    ])


def test_middle_of_one_hash(folder):
    """Of three keys with one hash the middle one is removed: before, between and behind the steps of the index, and in a
    later run, the others read as they were put."""
    reads = [(b"get a", "value 1"), (b"get b", "none"), (b"get c", "value 3"), (b"keys", "keys a c")]
    for steps in range(5):
        place = folder / str(steps)
        place.mkdir()
        set_folder(place, "hash_bits = 0\npump = 0\n")
        check_answers(place, 1000, [
            (b"put a 1", "ok"),
            (b"put b 2", "ok"),
            (b"put c 3", "ok"),
            (b"remove b", "ok"),
            *[(b"step index", "done")] * steps,
            *reads,
        ])
        check_answers(place, 1000, [*reads, (b"step index", "idle")])


def test_bits_of_the_hash(folder):
    """Keys are kept apart where their hashes are the same, and a clear removes them in the order of the hashes. That of
    `y` is below that of `x`."""
    for bits, order in ((0, [b"x", b"y"]), (32, [b"y", b"x"])):
        place = folder / str(bits)
        place.mkdir()
        set_folder(place, f"hash_bits = {bits}\n")
        check_answers(place, 1000, [
            (b"put x 1", "ok"),
            (b"put y 2", "ok"),
            (b"put a 3", "ok"),
            (b"remove a", "ok"),
            (b"get a", "none"),
            (b"get y", "value 2"),
            (b"keys", "keys x y"),
            (b"clear", "cleared 2"),
        ])
        removed = [frame.records[0].key for frame in counted_frames(place / FIRST_FILE)[-2:]]
        equal(removed, order, f"the keys that were removed with {bits} bits")
