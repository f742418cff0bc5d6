"""Scripts on an empty folder: what is said, and what is written."""

from support import DAMAGED, DONE, FIRST_FILE, SPENT, check_names, check_puts, check_words, equal
from support import log_name, spelled_file

AT = ["--at", "1000"]

# A key and a value of the greatest lengths, and of one byte more.
LONG_KEY, LONG_VALUE = b"a" * 1024, b"b" * 65536

# A line that is longer than a line may be, and one that isn't, its carriage return aside.
OVERLONG = b"x" * 1048577
LONGEST = b"x" * 1048576

# Lines that put a value, with the key and the value.
PUTS = {
    b"put a b": (b"a", b"b"),
    b"put a b\r": (b"a", b"b"),
    b"put a ttl": (b"a", b"ttl"),
    b"put a b ttl -7": (b"a", b"b"),
    b"put a %41": (b"a", b"A"),
    b"put %61 %42%43": (b"a", b"BC"),
    b"put a %.": (b"a", b""),
    b"put %00 %ff%FE%0a%0D%20%25": (b"\x00", b"\xff\xfe\n\r %"),
    b"put " + LONG_KEY + b" " + LONG_VALUE: (LONG_KEY, LONG_VALUE),
}

# What each other line is answered, whatever stands before it at the moment 1000.
REPLIES = {
    b"get nothing": "none",
    b"has nothing": "no",
    b"remove nothing": "none",
    b"removeif nothing x": "none",
    b"replace nothing x": "none",
    b"replaceif nothing x y ttl 5": "none",
    b"at 1000": "ok",
    b"at 00000000000000001000": "ok",
    b"at 999": "refused past 1000",
    b"at 0": "refused past 1000",
    b"": "refused syntax",
    b"\r": "refused syntax",
    b" ": "refused syntax",
    b"get": "refused syntax",
    b"get a b": "refused syntax",
    b"get ": "refused syntax",
    b"get %": "refused syntax",
    b"get %4": "refused syntax",
    b"get %4g": "refused syntax",
    b"get %.a": "refused syntax",
    b"put": "refused syntax",
    b"put a": "refused syntax",
    b"put a ": "refused syntax",
    b"put  b": "refused syntax",
    b"put a  b": "refused syntax",
    b"put a b ": "refused syntax",
    b"put a b c": "refused syntax",
    b" put a b": "refused syntax",
    b"PUT a b": "refused syntax",
    b"puta b": "refused syntax",
    b"put a b\r\r": "refused syntax",
    b"put a\r b": "refused syntax",
    b"put a b\x00": "refused syntax",
    b"put a b\x7f": "refused syntax",
    b"put a \xc3\xa9": "refused syntax",
    b"put a\tb": "refused syntax",
    b"put a b ttl": "refused syntax",
    b"put a b ttl x": "refused syntax",
    b"put a b ttl -": "refused syntax",
    b"put a b ttl --1": "refused syntax",
    b"put a b ttl +1": "refused syntax",
    b"put a b ttl 1 2": "refused syntax",
    b"put a b ttl 000000000000000000001": "refused syntax",
    b"at": "refused syntax",
    b"at -1": "refused syntax",
    b"at 1000 1000": "refused syntax",
    b"at 2305843009213693952": "refused syntax",
    b"at 000000000000000001000": "refused syntax",
    b"size x": "refused syntax",
    b"keys x": "refused syntax",
    b"clear x": "refused syntax",
    b"stop x": "refused syntax",
    b"halt ": "refused syntax",
    b"sync x": "refused syntax",
    # By then the background steps behind the lines before have taken each change that waited.
    b"step index": "idle",
    b"step": "refused syntax",
    b"step Index": "refused syntax",
    b"step index 1": "refused syntax",
    b"step Rotate": "refused syntax",
    b"step rotate x": "refused syntax",
    b"step flush": "refused syntax",
    b"evict a": "refused syntax",
    b"compact ": "refused syntax",
    b"Compact": "refused syntax",
    b"compact x": "refused syntax",
    b"compact 1 2": "refused syntax",
    b"compact  1": "refused syntax",
    b"compact -1": "refused syntax",
    b"compact 4294967296": "refused syntax",
    b"compact 000000000000000000001": "refused syntax",
    b"compact 00000000000000000000": "idle",
    b"compact 4294967295": "idle",
    b"stats x": "refused syntax",
    b"stats 1": "refused syntax",
    b"Stats": "refused syntax",
    b"export": "refused syntax",
    b"get %.": "refused key 0",
    b"removeif %. x": "refused key 0",
    b"has " + LONG_KEY + b"a": "refused key 1025",
    b"put %. " + LONG_VALUE + b"b ttl 2305843009213693952": "refused key 0",
    b"put a " + LONG_VALUE + b"b": "refused value 65537",
    b"put a " + LONG_VALUE + b"b ttl 2305843009213693952": "refused value 65537",
    b"removeif a " + LONG_VALUE + b"b": "refused value 65537",
    b"replaceif a " + LONG_VALUE + b"b " + LONG_VALUE + b"bb": "refused value 65537",
    b"replaceif a b " + LONG_VALUE + b"bb": "refused value 65538",
    b"put a b ttl 2305843009213693952": "refused ttl",
    b"put a b ttl 99999999999999999999": "refused ttl",
    OVERLONG: "refused long",
    OVERLONG + b"\r": "refused long",
    LONGEST: "refused syntax",
    LONGEST + b"\r": "refused syntax",
}

# Files that aren't in their grammar, and what is said of them.
DAMAGES = [
    ("01 01 01 00 00", "2 cut"),
    ("01 02", "1 version"),
    ("01 01", "2 cut"),
    ("01 01 03", "2 tag"),
    ("01 01 00 00000000000003e8", "11 cut"),
    ("01 01 00 2000000000000000 00", "2 moment"),
]

# The bytes of the first file after `put a b`.
ONE_PUT = bytes.fromhex(
    "01 01 01 0000000000000001 ffffffffffffffff 0001 00000001 61 62 00 00000000000003e8 00"
)


def check_script(folder, lines, ending=b"\n"):
    """Runs a script of these lines, and asks for the reply to each, and for a file of the puts."""
    said = ["ok" if line in PUTS else REPLIES[line] for line in lines]
    script = b"\n".join(lines) + ending
    check_words(AT, folder, script, DONE, ["opened 1000", *said, "stopped"])
    puts = [PUTS[line] for line in lines if line in PUTS]
    if not puts:
        check_names(folder, [])
        return
    check_names(folder, [FIRST_FILE])
    check_puts(folder / FIRST_FILE, puts, 1000)
    equal((folder / FIRST_FILE).read_bytes(), spelled_file(puts, 1000), "the file")


def test_empty_script(folder):
    """An empty script is opened and stopped, and makes no file."""
    check_words(AT, folder, b"", DONE, ["opened 1000", "stopped"])
    check_names(folder, [])


def test_one_put(folder):
    """One put makes the first data file, with exactly the bytes of its layout."""
    said = ["opened 1000", "ok", "stopped"]
    check_words(AT, folder, b"put a b\n", DONE, said)
    check_names(folder, [FIRST_FILE])
    equal((folder / FIRST_FILE).read_bytes(), ONE_PUT, "the file")


def test_last_line_without_end(folder):
    """A last line counts without its line feed."""
    check_script(folder, [b"put a b"], ending=b"")


def test_first_lines(folder):
    """A put is done and read, and the lines that aren't built or aren't in the grammar are refused."""
    said = ["opened 1000", "ok", "value b", "refused syntax", "refused syntax", "stopped"]
    check_words(AT, folder, b"put a b\nget a\nput\nexport\n", DONE, said)
    equal((folder / FIRST_FILE).read_bytes(), ONE_PUT, "the file")


def test_later_session(folder):
    """A later session starts at the mark, reads what an earlier one wrote, and writes a file of its own."""
    (folder / log_name(1)).write_bytes(ONE_PUT)
    check_words(["--at", "5"], folder, b"get a\n", DONE, ["opened 1000", "value b", "stopped"])
    check_names(folder, [log_name(1)])
    check_words(AT, folder, b"put a c\n", DONE, ["opened 1000", "ok", "stopped"])
    second = ONE_PUT[:3] + (2).to_bytes(8, "big") + ONE_PUT[11:]
    equal((folder / log_name(2)).read_bytes(), second.replace(b"ab", b"ac"), "the second file")
    equal((folder / log_name(1)).read_bytes(), ONE_PUT, "the first file")
    check_words(AT, folder, b"get a\n", DONE, ["opened 1000", "value c", "stopped"])


def test_file_of_one_byte(folder):
    """A file of one byte holds no frame, and the session's file has the next number."""
    (folder / log_name(1)).write_bytes(b"\x01")
    check_words(AT, folder, b"put a b\n", DONE, ["opened 1000", "ok", "stopped"])
    equal((folder / log_name(1)).read_bytes(), b"\x01", "the first file")
    equal((folder / log_name(2)).read_bytes(), ONE_PUT, "the second file")


def test_closed_gate(folder):
    """What stands behind a closed gate isn't read."""
    (folder / log_name(1)).write_bytes(b"\x00" + ONE_PUT[1:])
    check_words(AT, folder, b"get a\n", DONE, ["opened 1000", "none", "stopped"])


def test_damage(folder):
    """A damaged file is named with the offset and the kind, and stays as it is."""
    for number, (found, said) in enumerate(DAMAGES):
        place = folder / str(number)
        place.mkdir()
        (place / log_name(1)).write_bytes(bytes.fromhex(found))
        check_words(AT, place, b"put a b\n", DAMAGED, [f"damaged {log_name(1)} {said}"])
        check_names(place, [log_name(1)])
        equal((place / log_name(1)).read_bytes(), bytes.fromhex(found), "the file")


def test_last_number(folder):
    """Where the last file number is taken, no put is done."""
    (folder / log_name(4294967294)).write_bytes(b"\x00")
    check_words(AT, folder, b"put a b\n", SPENT, ["opened 1000"])


def test_each_line(folder):
    """Each line of the tables gets its reply, whatever stood before it, and the puts are in the file."""
    check_script(folder, [*PUTS, *REPLIES, *PUTS])


def test_refused_lines_make_no_file(folder):
    """A script that changes nothing makes no file."""
    check_script(folder, list(REPLIES))


def test_last_line_of_a_carriage_return(folder):
    """A last line of one carriage return is a line, and it is empty."""
    check_words(AT, folder, b"\r", DONE, ["opened 1000", "refused syntax", "stopped"])


def test_lines_that_end_the_talk(folder):
    """Nothing is answered behind a line that stops or halts the session, and what was done before stays."""
    for number, (line, said) in enumerate([(b"stop", "stopped"), (b"halt", "halted")]):
        place = folder / str(number)
        place.mkdir()
        script = b"put a b\n" + line + b"\nput a c\n"
        check_words(AT, place, script, DONE, ["opened 1000", "ok", said])
        equal((place / FIRST_FILE).read_bytes(), ONE_PUT, "the file")


def test_removal(folder):
    """A removal is a frame of its own, and a later session doesn't see its key."""
    check_words(AT, folder, b"put a b\nremove a\n", DONE, ["opened 1000", "ok", "ok", "stopped"])
    removal = bytes.fromhex("01 02 0000000000000002 0001 61 00 00000000000003e8 00")
    equal((folder / FIRST_FILE).read_bytes(), ONE_PUT[:-1] + removal, "the file")
    check_words(AT, folder, b"get a\nsize\n", DONE, ["opened 1000", "none", "size 0", "stopped"])


def test_expiry_of_an_earlier_session(folder):
    """A later session begins at the mark, so that what has expired by then stays so."""
    script = b"put a b ttl 10\nat 1010\nput c d\n"
    check_words(AT, folder, script, DONE, ["opened 1000", "ok", "ok", "ok", "stopped"])
    check_words(["--at", "5"], folder, b"get a\nkeys\n", DONE, ["opened 1010", "none", "keys c", "stopped"])


def test_rotation(folder):
    """A file that would get too large is closed, and the next one goes on; a later session reads all of them."""
    most, count = 16777216, 300
    value = b"v" * 65536
    keys = [b"key%03d" % at for at in range(count)]
    script = b"".join(b"put %s %s\n" % (key, value) for key in keys)
    check_words(AT, folder, script, DONE, ["opened 1000", *["ok"] * count, "stopped"])
    frame = len(ONE_PUT) - 2 - 2 + len(keys[0]) + len(value)
    whole = (most - 2) // frame
    check_names(folder, [log_name(1), log_name(2)])
    equal((folder / log_name(1)).stat().st_size, 2 + whole * frame, "the size of the first file")
    equal((folder / log_name(2)).stat().st_size, 2 + (count - whole) * frame, "the size of the second file")
    script = b"size\nhas key000\nhas key299\n"
    check_words(AT, folder, script, DONE, ["opened 1000", f"size {count}", "yes", "yes", "stopped"])


def test_many_puts(folder):
    """A thousand puts are answered in order and stand in the file in order, numbered from 1."""
    puts = [(b"key%d" % (at % 7), b"value%d" % at) for at in range(1000)]
    script = b"".join(b"put %s %s\n" % put for put in puts)
    said = ["opened 1000", *["ok"] * len(puts), "stopped"]
    check_words(AT, folder, script, DONE, said)
    check_names(folder, [FIRST_FILE])
    equal((folder / FIRST_FILE).read_bytes(), spelled_file(puts, 1000), "the file")
    check_puts(folder / FIRST_FILE, puts, 1000)
