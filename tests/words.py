"""The words that the program takes, and the folders that it takes."""

from support import DISK_FAILED, DONE, FIRST_FILE, SETTINGS, SETTINGS_FILE, USAGE
from support import check_names, check_run, check_words, equal, run

PUT = b"put a b\n"

# Words behind the folder that the program doesn't take.
BAD_WORDS = [
    [],
    ["--at"],
    ["--at", "1", "--at", "2"],
    ["--at", "x"],
    ["--at=5"],
    ["--at="],
    ["--at", ""],
    ["--at", "-1"],
    ["--at", "+1"],
    ["--at", " 1"],
    ["--at", "1 "],
    ["--at", "0x10"],
    ["--at", "1_0"],
    ["--at", "1.0"],
    ["--at", "\u0661"],
    ["--at", b"\xff"],
    ["--at", "0" * 19 + "1"],
    ["--at", "9" * 20],
    ["--at", str(2**61)],
    ["--at", str(2**64 + 5)],
    ["--at", "1", "2"],
    ["--at", "1", "--"],
    ["--", "--at", "1"],
    ["--a", "5"],
    ["-at", "5"],
    ["--AT", "5"],
    ["at", "5"],
    ["5"],
    [b"\xff", "5"],
    ["--"],
    ["--help"],
    ["-h"],
    ["--version"],
    ["--gen", "5"],
    ["--at", "1", "--gen"],
    ["--at", "1", "--gen", "0"],
    ["--at", "1", "--gen", "1000001"],
]

# Moments as they are given, and as they are said.
MOMENTS = {
    "0": "0",
    "1": "1",
    "0" * 15 + "1000": "1000",
    str(2**61 - 1): "2305843009213693951",
}

# Files that a folder may not have yet, each alone.
FILES = [
    "s0.tree",
    "s255.tree",
    "base0.dat",
    "base1.dat",
]

# What may not be in a settings file: no TOML, other names, other types, and values out of their ranges or not built yet.
BAD_SETTINGS = [
    b"\x00",
    b"\xff",
    b"pump",
    b"pump = 1\npump = 1",
    b"pumps = 1",
    b"[pump]",
    b"pump = true",
    b"pump = 1001",
    b"pump = -1",
    b"file_size = 4095",
    b"file_size = 16777217",
    b"sync_writes = 1",
    b"sync_writes = \"true\"",
    b"queue = 0",
    b"queue = 65537",
    b"queue = true",
    b"hash_bits = 33",
    b"hash_bits = -1",
    b"nodes = 65",
    b"mode = \"behind\"",
    b"#" * 4097,
]

# Settings that are taken.
GOOD_SETTINGS = [
    b"",
    b"#" * 4096,
    b"pump = 0\r\n",
    b"pump = 1000",
    b"queue = 1\nhash_bits = 0",
    b"queue = 65536\nhash_bits = 32",
    b"file_size = 4096\nsync_writes = true\n",
    b"'file_size' = 16_777_216",
    b"mode = \"through\" # the default\npublish = \"\"\nactivation = \"keep\"\npreload = false",
]

# Names that are none of a file of the store.
STRAY_NAMES = [
    "s00-0000000001.log",
    "s256-0000000001.log",
    "s-0000000001.log",
    "s0-0000000000.log",
    "s0-4294967295.log",
    "s0-9999999999.log",
    "s0-1.log",
    "s0-00000000001.log",
    "s0-+000000001.log",
    "s0-0000000001.log.old",
    "S0-0000000001.log",
    "s00.tree",
    "s256.tree",
    "base2.dat",
    "base00.dat",
    "base.dat",
    "cache.tom",
    "Cache.toml",
    ".hidden",
    "s\u0660.tree",
]


def test_no_folder(folder):
    """Without a first word the status is 2, and nothing is said on standard output."""
    equal(run([], PUT, cwd=folder)[:2], (USAGE, b""), "status and output")
    check_names(folder, [])


def test_bad_words(folder):
    """With words that aren't taken the status is 2, nothing is said on either stream, and nothing is written."""
    for words in BAD_WORDS:
        check_words(words, folder, PUT)
        check_names(folder, [])


def test_folder_that_is_no_text(folder):
    """A folder whose name isn't UTF-8 is refused with status 2."""
    check_run([b"\xff", "--at", "1"], PUT, USAGE, [], cwd=folder)


def test_moments(folder):
    """A moment may have nineteen digits and is below 2^61; it is said without leading zeros."""
    for given, said in MOMENTS.items():
        check_words(["--at", given], folder, b"", DONE, [f"opened {said}", "stopped"])


def test_files_that_are_there(folder):
    """A folder with an index or a base file in it is refused with status 2, and the file stays as it is."""
    for name in FILES:
        (folder / name).write_bytes(b"\x00")
        check_words(["--at", "1"], folder, PUT)
        check_names(folder, [name])
        equal((folder / name).read_bytes(), b"\x00", f"the bytes of {name}")
        (folder / name).unlink()


def test_settings_that_are_wrong(folder):
    """With a settings file that is none the status is 3, nothing is said on either stream, and nothing is written. Bad
    words come first."""
    for text in BAD_SETTINGS:
        (folder / SETTINGS_FILE).write_bytes(text)
        check_words(["--at", "1"], folder, PUT, SETTINGS)
        check_words(["--at"], folder, PUT, USAGE)
        check_names(folder, [SETTINGS_FILE])
        equal((folder / SETTINGS_FILE).read_bytes(), text, "the bytes of the settings file")


def test_settings_that_are_taken(folder):
    """A settings file of any spelling is taken, and stays as it is."""
    for text in GOOD_SETTINGS:
        (folder / SETTINGS_FILE).write_bytes(text)
        check_words(["--at", "1"], folder, PUT, DONE, ["opened 1", "ok", "stopped"])
        equal((folder / SETTINGS_FILE).read_bytes(), text, "the bytes of the settings file")


def test_settings_that_cannot_be_read(folder):
    """A folder in the place of the settings file is a failure of the disk: the status is 5 and nothing is said."""
    (folder / SETTINGS_FILE).mkdir()
    check_words(["--at", "1"], folder, PUT, DISK_FAILED)
    check_names(folder, [SETTINGS_FILE])


def test_stray_names(folder):
    """Names that are none of a file of the store are passed over, and their files stay as they are."""
    for name in STRAY_NAMES:
        (folder / name).write_bytes(b"stray")
    (folder / "folder").mkdir()
    said = ["opened 1", "ok", "stopped"]
    check_words(["--at", "1"], folder, PUT, DONE, said)
    check_names(folder, [*STRAY_NAMES, "folder", FIRST_FILE])
    for name in STRAY_NAMES:
        equal((folder / name).read_bytes(), b"stray", f"the bytes of {name}")


def test_relative_folder(folder):
    """A relative folder is looked for where the program is started, with or without a slash at its end."""
    for name in ["one", "two/", "./three", "."]:
        (folder / name).mkdir(exist_ok=True)
        said = ["opened 1", "ok", "stopped"]
        check_run([name, "--at", "1"], PUT, DONE, said, cwd=folder)
        check_names(folder / name, {FIRST_FILE, *(["one", "two", "three"] if name == "." else [])})


def test_linked_folder(folder):
    """A link to a folder stands for it."""
    (folder / "real").mkdir()
    (folder / "link").symlink_to("real")
    check_words(["--at", "1"], folder / "link", PUT, DONE, ["opened 1", "ok", "stopped"])
    check_names(folder / "real", [FIRST_FILE])


def test_folder_that_is_missing(folder):
    """A folder that isn't there isn't made: the status is 5 and nothing is said."""
    for name in ["missing", "missing/too", ""]:
        check_run([name, "--at", "1"], PUT, DISK_FAILED, [], cwd=folder)
    check_names(folder, [])


def test_folder_that_is_a_file(folder):
    """A file in the place of the folder is a failure of the disk: the status is 5 and nothing is said."""
    (folder / "file").write_bytes(b"")
    check_words(["--at", "1"], folder / "file", PUT, DISK_FAILED)


def test_name_that_is_no_text(folder):
    """A name in the folder that isn't UTF-8 is a failure of the disk: the status is 5 and nothing is said."""
    with open(bytes(folder) + b"/s0\xff.tree", "wb"):
        pass
    check_words(["--at", "1"], folder, PUT, DISK_FAILED)
    check_names(folder, [b"s0\xff.tree"])
